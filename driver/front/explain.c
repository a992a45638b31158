/*
 * A frame field by field. What is shown is where things are in it; what is said of them is the handler's answer, and
 * what became of each option is seen by comparing what was received with what was written.
 */
#include <inttypes.h>
#include <stdarg.h>
#include <stdio.h>
#include <string.h>

#include "fields.h"
#include "program.h"
#include "refusal.h"
#include "show.h"

enum {
    WORD = 4,
    LINK_TYPE = 12, /* the place of the Ethertype, or of a tag before it */
    TAG = 4,
    INNER_HEADER = 18,
    CHANNEL_HEADER = 4,
    ECHO_HEADER = 18,
    PROTOCOL_ERROR = 0x001,
    PROTOCOL_ECHO = 0xFF8
};

/* A frame that is shown, or a part of it: places are counted in the frame. */
struct shown {
    const uint8_t *at;
    size_t length;
    unsigned edition; /* by which the switch reads the area after the TRILL header */
};

/* ---- Lines ---- */

static void heading(const char *format, ...) __attribute__((format(printf, 1, 2)));
static void heading(const char *format, ...)
{
    va_list arguments;
    va_start(arguments, format);
    vprintf(format, arguments);
    putchar('\n');
    va_end(arguments);
}

/* The line of a field: its place, its octets as far as they fit, its name. The caller ends it. */
static void field(const struct shown *frame, size_t place, size_t length, const char *name)
{
    enum { COLUMN = 26 };
    int width = 0;
    printf("%6zu  ", place);
    for (size_t i = 0; i < length && width < COLUMN - 4; i++)
        width += printf("%02X", frame->at[place + i]);
    if (2 * length > (size_t)width)
        width += printf("..");
    printf("%*s%s", COLUMN - width, "", name);
}

static void line(const struct shown *frame, size_t place, size_t length, const char *name, const char *format, ...)
    __attribute__((format(printf, 5, 6)));
static void line(const struct shown *frame, size_t place, size_t length, const char *name, const char *format, ...)
{
    va_list arguments;
    va_start(arguments, format);
    field(frame, place, length, name);
    vprintf(format, arguments);
    putchar('\n');
    va_end(arguments);
}

/* What is there of a part that is cut short. */
static void cut(const struct shown *frame, size_t place, const char *name)
{
    if (place < frame->length)
        line(frame, place, frame->length - place, name, ": cut short");
    else
        printf("%6zu  the frame ends, before %s\n", place, name);
}

static const char *mac_text(const uint8_t *mac)
{
    static char text[3 * MAC_LENGTH];
    snprintf(text, sizeof text, "%02X:%02X:%02X:%02X:%02X:%02X", mac[0], mac[1], mac[2], mac[3], mac[4], mac[5]);
    return text;
}

static const char *type_name(uint16_t type)
{
    switch (type) {
    case ETHERTYPE_TRILL:
        return ", TRILL";
    case ETHERTYPE_ISIS:
        return ", TRILL IS-IS";
    case ETHERTYPE_CHANNEL:
        return ", RBridge Channel";
    default:
        return "";
    }
}

static void addresses(const struct shown *frame, size_t place)
{
    static const uint8_t all_egress[MAC_LENGTH] = {0x01, 0x80, 0xC2, 0x00, 0x00, 0x42};
    bool all = memcmp(frame->at + place, all_egress, sizeof all_egress) == 0;
    line(frame, place, MAC_LENGTH, "DA", " %s%s", mac_text(frame->at + place), all ? ", All-Egress-RBridges" : "");
    line(frame, place + MAC_LENGTH, MAC_LENGTH, "SA", " %s", mac_text(frame->at + place + MAC_LENGTH));
}

static void tag_line(const struct shown *frame, size_t place, const char *name)
{
    unsigned word = staffripple_get16(frame->at + place + 2);
    line(frame, place, 4, name, " %04X: priority %u, DEI %u, VLAN %u", staffripple_get16(frame->at + place), word >> 13,
         word >> 12 & 1, word & 0xFFF);
}

static void type_line(const struct shown *frame, size_t place)
{
    uint16_t type = staffripple_get16(frame->at + place);
    line(frame, place, 2, "Ethertype", " %04X%s", type, type_name(type));
}

/* ---- Channel messages ---- */

static void show_from_type(const struct shown *frame, size_t place);

static uint32_t get24(const uint8_t *octets)
{
    return (uint32_t)octets[0] << 16 | staffripple_get16(octets + 1);
}

static void time_line(const struct shown *frame, size_t place, const char *name)
{
    const uint8_t *time = frame->at + place;
    line(frame, place, 6, name, " %" PRIu32 " s, %" PRIu32 " microseconds", get24(time), get24(time + 3));
}

static void show_echo(const struct shown *frame, size_t place)
{
    size_t length = frame->length - place;
    heading("  echo body, %zu octets", length);
    if (length < ECHO_HEADER) {
        cut(frame, place, "SPID, sequence, mode, flags and times");
        return;
    }
    uint32_t word = staffripple_get32(frame->at + place);
    line(frame, place, 4, "SPID", " %" PRIu32 ", sequence %" PRIu32, word >> 28, word & 0xFFFFFFF);
    line(frame, place + 4, 1, "reply mode", " %u", frame->at[place + 4]);
    line(frame, place + 5, 1, "flags", " %02X", frame->at[place + 5]);
    time_line(frame, place + 6, "time sent");
    time_line(frame, place + 12, "time received");
    if (length > ECHO_HEADER)
        line(frame, place + ECHO_HEADER, length - ECHO_HEADER, "data", ", %zu octets", length - ECHO_HEADER);
}

static void show_channel(const struct shown *frame, size_t place)
{
    heading("  channel header");
    if (frame->length - place < CHANNEL_HEADER) {
        cut(frame, place, "the channel header");
        return;
    }
    unsigned protocol = staffripple_get16(frame->at + place), flags = staffripple_get16(frame->at + place + 2);
    line(frame, place, 2, "CHV", " %u, protocol %03X%s", protocol >> 12, protocol & 0xFFF,
         (protocol & 0xFFF) == PROTOCOL_ERROR  ? ", channel error"
         : (protocol & 0xFFF) == PROTOCOL_ECHO ? ", echo"
                                               : "");
    line(frame, place + 2, 2, "flags", " %03X: SL %u, MH %u, NA %u; ERR %u", flags >> 4, flags >> 15, flags >> 14 & 1,
         flags >> 13 & 1, flags & 0xF);
    place += CHANNEL_HEADER;
    if ((protocol & 0xFFF) == PROTOCOL_ECHO) {
        show_echo(frame, place);
    } else if ((protocol & 0xFFF) == PROTOCOL_ERROR && frame->length > place) {
        heading("  error body, %zu octets of the frame at fault, from its Ethertype on", frame->length - place);
        show_from_type(frame, place);
    } else if (frame->length > place) {
        line(frame, place, frame->length - place, "data", ", %zu octets", frame->length - place);
    }
}

static void show_inner(const struct shown *frame, size_t place)
{
    size_t length = frame->length - place;
    heading("  inner frame, %zu octets", length);
    if (length < INNER_HEADER) {
        cut(frame, place, "the inner DA, SA, tag and Ethertype");
        return;
    }
    addresses(frame, place);
    tag_line(frame, place + 12, "tag");
    type_line(frame, place + 16);
    bool channel = staffripple_get16(frame->at + place + 16) == ETHERTYPE_CHANNEL;
    place += INNER_HEADER;
    if (channel)
        show_channel(frame, place);
    else if (frame->length > place)
        line(frame, place, frame->length - place, "data", ", %zu octets", frame->length - place);
}

/* ---- The options area ---- */

/* The area that the switch wrote in place of one received; with no octets where it wrote none. */
struct sent {
    const uint8_t *at;
    size_t length;
    const struct trill_answer *answer; /* or null where the frame itself is what was written */
};

/* Whether the option stands next in what was sent; it is then passed over there. */
static bool was_kept(struct sent *sent, const uint8_t *option, size_t size)
{
    bool kept = sent->length >= size && memcmp(sent->at, option, size) == 0;
    if (kept) {
        sent->at += size;
        sent->length -= size;
    }
    return kept;
}

static bool is_option_fault(const struct trill_answer *answer)
{
    return answer && answer->number >= TRILL_DROP_OPTION_RESERVED && answer->number <= TRILL_DROP_OPTION_EQUAL;
}

/* What became of the option at a place of the area, by the answer. */
static void show_fate(struct sent *sent, const uint8_t *option, size_t size, size_t place)
{
    const struct trill_answer *answer = sent->answer;
    if (answer && answer->number == TRILL_FORWARDED)
        printf(was_kept(sent, option, size) ? ": kept" : ": taken out");
    if (is_option_fault(answer) && answer->start == place)
        printf(": at fault, %u %s", answer->number, trill_answer_name(answer->number));
    putchar('\n');
}

/* Shows an option and answers its size, or 0 where the area ends in it. */
static size_t show_option(const struct shown *frame, size_t area, size_t place, size_t end, struct sent *sent)
{
    struct tlv_option option = option_at(frame->at + place);
    size_t left = end - place, size = option.size < left ? option.size : left;
    field(frame, place, size, "option");
    printf(" IE %d (%s), NC %d (%s), Type %02X, MT %d (%s), Length %u", option.ingress_to_egress,
           option.ingress_to_egress ? "ingress-to-egress" : "hop-by-hop", option.not_critical,
           option.not_critical ? "not critical" : "critical", option.type, option.mutable,
           option.mutable ? "mutable" : "immutable", option.length);
    show_fate(sent, frame->at + place, size, place - area);
    return option.size <= left ? size : 0;
}

/* The area of edition 1: a word of bits, and options. */
static void show_options(const struct shown *frame, const struct frame_layout *layout, struct sent sent)
{
    size_t place = layout->area, size = WORD;
    uint32_t word = staffripple_get32(frame->at + place);
    line(frame, place, WORD, "first word", ": CHbH %" PRIu32 ", CItE %" PRIu32 ", bit options %08" PRIX32, word >> 31,
         word >> 30 & 1, word & 0x3FFFFFFF);
    was_kept(&sent, frame->at + place, WORD);
    for (place += WORD; size > 0 && layout->inner - place >= WORD; place += size)
        size = show_option(frame, layout->area, place, layout->inner, &sent);
}

/* Bit 0 is the highest. */
static bool bit_of(uint32_t word, unsigned bit)
{
    return word >> (31 - bit) & 1;
}

/* The flags of a kind that are set, by their bits. */
static void print_kind(uint32_t word, unsigned first, unsigned last, const char *kind)
{
    const char *before = "; ";
    for (unsigned bit = first; bit <= last; bit++) {
        if (!bit_of(word, bit))
            continue;
        printf(before[0] == ';' ? "%s%s bit %u" : "%s%s%u", before, before[0] == ';' ? kind : "", bit);
        before = ", ";
    }
}

/* The area of edition 2: the extended flags word, and octets that no switch reads. */
static void show_flags(const struct shown *frame, const struct frame_layout *layout, struct sent sent)
{
    static const struct {
        unsigned first, last;
        const char *kind;
    } kinds[] = {
        {3, 6, "critical hop-by-hop"},          {9, 13, "non-critical hop-by-hop"},
        {14, 16, "critical reserved"},          {17, 20, "non-critical reserved"},
        {21, 26, "critical ingress-to-egress"}, {27, 31, "non-critical ingress-to-egress"},
    };
    size_t place = layout->area, rest = layout->inner - place - WORD;
    uint32_t word = staffripple_get32(frame->at + place);
    field(frame, place, WORD, "extended flags");
    printf(": CRHbH %d, CRItE %d, CRRsv %d, CRCAF %d, NCCAF %d", bit_of(word, 0), bit_of(word, 1), bit_of(word, 2),
           bit_of(word, 7), bit_of(word, 8));
    for (size_t i = 0; i < sizeof kinds / sizeof *kinds; i++)
        print_kind(word, kinds[i].first, kinds[i].last, kinds[i].kind);
    if (sent.answer && sent.answer->number == TRILL_DROP_FLAGS)
        printf(": at fault, %u %s", sent.answer->number, trill_answer_name(sent.answer->number));
    putchar('\n');
    if (rest > 0)
        line(frame, place + WORD, rest, "extensions", ", %zu octets, which are carried unread", rest);
}

static void show_area(const struct shown *frame, const struct frame_layout *layout, struct sent sent)
{
    size_t place = layout->area, announced = (size_t)WORD * layout->fields.op_length;
    bool flags = frame->edition == EDITION_FLAGS;
    if (announced == 0)
        return;
    heading("  %s, %zu octets%s%s", flags ? "header extension" : "options area", announced,
            layout->inner - place < announced ? ", cut short" : "",
            sent.answer && sent.answer->number != TRILL_FORWARDED ? ", not forwarded" : "");
    if (layout->inner - place < WORD)
        cut(frame, place, "the first word");
    else if (flags)
        show_flags(frame, layout, sent);
    else
        show_options(frame, layout, sent);
}

/* ---- Frames ---- */

static void show_trill(const struct shown *frame, const struct frame_layout *layout, struct sent sent)
{
    const struct trill_header *fields = &layout->fields;
    size_t place = layout->header;
    heading("  TRILL header");
    line(frame, place, 2, "V", " %u, R %u, M %u, Op-Length %u, hop count %u", fields->version, fields->reserved,
         fields->multi, fields->op_length, fields->hop_count);
    line(frame, place + 2, 2, "egress nickname", " %04X", fields->egress);
    line(frame, place + 4, 2, "ingress nickname", " %04X", fields->ingress);
    show_area(frame, layout, sent);
    if (layout->inner - layout->area == (size_t)WORD * fields->op_length)
        show_inner(frame, layout->inner);
}

/* From the outer Ethertype on. */
static void show_typed(const struct shown *frame, const struct frame_layout *layout, struct sent sent)
{
    if (frame->length - layout->type < 2) {
        cut(frame, layout->type, "the Ethertype");
        return;
    }
    type_line(frame, layout->type);
    if (layout->trill)
        show_trill(frame, layout, sent);
    else if (staffripple_get16(frame->at + layout->type) == ETHERTYPE_TRILL)
        cut(frame, layout->header, "the TRILL header");
    else if (frame->length > layout->header)
        line(frame, layout->header, frame->length - layout->header, "data", ", %zu octets",
             frame->length - layout->header);
}

static void show_from_type(const struct shown *frame, size_t place)
{
    struct frame_layout layout;
    layout_read_type(&layout, frame->at, frame->length, place);
    show_typed(frame, &layout, (struct sent){0});
}

static void show_frame(const struct shown *frame, struct sent sent)
{
    struct frame_layout layout;
    layout_read(&layout, frame->at, frame->length);
    if (frame->length < 2 * MAC_LENGTH) {
        cut(frame, 0, "the outer DA and SA");
        return;
    }
    heading("  link header");
    addresses(frame, 0);
    bool tagged = layout.type > LINK_TYPE;
    if (tagged && frame->length < LINK_TYPE + TAG) {
        cut(frame, LINK_TYPE, "the tag");
        return;
    }
    if (tagged)
        tag_line(frame, LINK_TYPE, "tag");
    show_typed(frame, &layout, sent);
}

/* The options area of what a switch forwarded. */
static struct sent sent_area(const struct handling *handling)
{
    struct frame_layout layout;
    layout_read(&layout, handling->out, handling->answer.written);
    return (struct sent){handling->out + layout.area, layout.inner - layout.area, &handling->answer};
}

/* A frame that the switch wrote, if it did. */
static void show_written(const char *how, const struct shown *written, uint16_t neighbour)
{
    if (written->length == 0)
        return;
    heading("%s: %zu octets, to neighbour %04X", how, written->length, neighbour);
    show_frame(written, (struct sent){0});
}

void print_handling(const struct rbridge *rbridge, const uint8_t *frame, size_t length, const struct handling *handling)
{
    const struct trill_answer *answer = &handling->answer;
    struct shown received = {frame, length, rbridge->edition};
    struct shown written = {handling->out, answer->written, rbridge->edition};
    struct shown beside = {handling->beside, answer->beside, rbridge->edition};
    heading("received at %04X: %zu octets", staffripple_get16(rbridge->settings + FIELD_HEADER), length);
    show_frame(&received, sent_area(handling));
    heading("answer %u: %s", answer->number, trill_answer_name(answer->number));
    if (answer->length)
        heading("delivered: the inner frame, %u octets from octet %u on", answer->length, answer->start);
    show_written("written", &written, answer->neighbour);
    show_written("written beside it", &beside, answer->beside_neighbour);
}

int explain_frame(const struct octets *settings, const uint8_t clock[TRILL_CLOCK], const uint8_t *frame, size_t length)
{
    static struct rbridge rbridge;
    static struct handling handling;
    if (!rbridge_prepare(&rbridge, settings->at, settings->length)) {
        refusal_say(SETTINGS, settings, TRILL_REFUSED_SETTINGS, trill_answer_name(TRILL_REFUSED_SETTINGS));
        return EXIT_REFUSED;
    }
    rbridge_handle(&rbridge, frame, length, clock, &handling);
    print_handling(&rbridge, frame, length, &handling);
    return print_flush();
}

/* ---- Each handling of a run ---- */

static void begin_explained(const struct walk *walk)
{
    (void)walk;
}

static void hop_explained(const struct walk *walk, const struct hop *hop)
{
    heading("%s== handling %u: the %s", hop->number == 1 ? "" : "\n", hop->number, hop->reply ? "reply" : "original");
    print_handling(&walk->rbridges[hop->at], hop->frame, hop->length, &hop->handling);
}

static void end_explained(const struct walk *walk, const struct hop *last)
{
    char ending[ENDING_MOST];
    (void)walk;
    walk_ending_words(ending, last);
    heading("\n== %s", ending);
}

int show_explained(const struct octets *description)
{
    static const struct view view = {begin_explained, hop_explained, end_explained, NULL};
    return view_run(&view, description);
}
