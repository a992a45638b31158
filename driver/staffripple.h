/*
 * Staffripple: one proved TRILL frame handler, and a campus of such switches, for C11 and C++.
 *
 * For unicast TRILL Data frames on Ethernet links: RFC 6325, header options by draft-ietf-trill-rbridge-options-03 or
 * the header extension of RFC 7179, as a switch's edition says, RBridge Channel by RFC 7178, and echo by
 * draft-yizhou-trill-multi-destination-ping-00, as the customer's "document 01" condenses them. No ingress
 * encapsulation, no multi-destination frames, no PPP links, no IS-IS, no learning of addresses; the tag of a received
 * link header is not kept, that of a written one is the next hop's.
 * What holds of every call:
 *
 *   - It takes every octet string of every length, ends, and gives one of the answers named here.
 *   - It keeps nothing between calls but in what it is lent: no state, no heap, no input or output. So it is
 *     reentrant, and any number of threads may call at once, each with buffers of its own to write to.
 *   - It only reads its inputs, and writes only what its description says; all other octets stay.
 *   - No two of its buffers may overlap.
 *   - A pointer may not be null, even where its length is 0. The staffripple_ calls at the end of this
 *     file take null with length 0 too.
 *
 * Numbers within octets are big-endian. The compiled library is for x86-64-v2, that is with SSE4.2, and the System V
 * calling convention; it needs memcpy and memset and nothing else.
 */
#ifndef STAFFRIPPLE_H
#define STAFFRIPPLE_H

#include <stddef.h>
#include <stdint.h>
#if __STDC_HOSTED__
#include <inttypes.h>
#include <stdio.h>
#endif

#define STAFFRIPPLE_VERSION "0.1.0"
#define STAFFRIPPLE_KIT "rattle-kit-13f logic dac8208d650f15bf" /* the Rattle kit that it was made with */

#ifdef __cplusplus
extern "C" {
#endif

/* ---- One frame at one switch ---- */

#define TRILL_FRAME_MOST 2048   /* octets of a frame: a longer one is refused, and none longer is written */
#define TRILL_OUTPUT_LEAST 2048 /* octets that the output buffer must have */
#define TRILL_BESIDE_LEAST 576  /* octets that the second output buffer must have: those of the longest reply */
#define TRILL_CLOCK 6           /* octets of a clock: 3 for seconds, 3 for microseconds */

/*
 * The numbers of an answer, in the order of their numbers: constant, number, meaning. 30 to 35
 * and 38 are tested before 20, 29 just before 50, and 37 after 2. Only TRILL_FORWARDED, TRILL_ERROR_REPLY and
 * TRILL_ECHO_REPLY write; only TRILL_DELIVERED and TRILL_HANDED_UP have a delivered part.
 */
#define TRILL_ANSWERS(ANSWER)                                                                              \
    /* The call is refused. Nothing is written. */                                                         \
    ANSWER(TRILL_REFUSED_SETTINGS, 1, "settings bad, or clock not six octets")                             \
    ANSWER(TRILL_REFUSED_OUTPUT, 2, "output buffer under 2,048 octets")                                    \
    ANSWER(TRILL_REFUSED_FRAME, 3, "frame over 2,048 octets")                                              \
    /* Of trill_handle_counted alone, and before all others. */                                            \
    ANSWER(TRILL_REFUSED_COUNTERS, 4, "a counter or the total at its greatest value")                      \
    /* The frame is dropped. Nothing is written. */                                                        \
    ANSWER(TRILL_DROP_SHORT, 10, "link header or TRILL header cut short")                                  \
    ANSWER(TRILL_DROP_ETHERTYPE, 11, "Ethertype not 0x22F3")                                               \
    ANSWER(TRILL_DROP_OUTER_DA, 12, "outer DA not own MAC")                                                \
    ANSWER(TRILL_DROP_VERSION, 13, "V not 0")                                                              \
    ANSWER(TRILL_DROP_MULTI, 14, "M is 1")                                                                 \
    ANSWER(TRILL_DROP_INGRESS, 15, "ingress nickname 0 or from 0xFFC0")                                    \
    ANSWER(TRILL_DROP_EGRESS, 16, "egress nickname 0 or above 0xFFC0")                                     \
    ANSWER(TRILL_DROP_HOP_COUNT, 17, "hop count 0")                                                        \
    ANSWER(TRILL_DROP_OPTIONS_PAST, 18, "options area runs past the frame")                                \
    ANSWER(TRILL_DROP_CRITICAL, 20, "critical option or flag that affects us")                             \
    ANSWER(TRILL_DROP_NO_NEXT_HOP, 21, "not the egress and no next hop")                                   \
    ANSWER(TRILL_DROP_INNER_SHORT, 22, "inner frame under 18 octets")                                      \
    ANSWER(TRILL_DROP_INNER_TAG, 23, "inner tag type not 0x8100, or VLAN 0 or 4,095")                      \
    ANSWER(TRILL_DROP_INNER_DA, 24, "egress Any-RBridge, inner DA not All-Egress-RBridges")                \
    ANSWER(TRILL_DROP_CHANNEL_FAULT, 25, "channel fault, no error reply is made")                          \
    ANSWER(TRILL_DROP_CHANNEL_ERR, 26, "channel protocol not 0x001 and ERR not 0")                         \
    ANSWER(TRILL_DROP_ECHO_BODY, 27, "echo body under 18 or over 530 octets, or SPID neither 3 nor 4")     \
    ANSWER(TRILL_DROP_ECHO_UNANSWERED, 28, "echo request, no reply is made")                               \
    ANSWER(TRILL_DROP_FORWARDED_LONG, 29, "forwarded frame would have over 2,048 octets")                  \
    /* 30 to 33: start is the place of the option in the options area, counted from its first octet. */    \
    ANSWER(TRILL_DROP_OPTION_RESERVED, 30, "option with a reserved Length")                                \
    ANSWER(TRILL_DROP_OPTION_PAST, 31, "option past the options area")                                     \
    ANSWER(TRILL_DROP_OPTION_BELOW, 32, "option key below the one before")                                 \
    ANSWER(TRILL_DROP_OPTION_EQUAL, 33, "option key equal to the one before")                              \
    ANSWER(TRILL_DROP_CHBH_MISSING, 34, "critical hop-by-hop option, CHbH is 0")                           \
    ANSWER(TRILL_DROP_CITE_MISSING, 35, "critical ingress-to-egress option, CItE is 0")                    \
    /* The call is refused: 36 of trill_reader_burst and trill_reader_mark alone. */                       \
    ANSWER(TRILL_REFUSED_ENDED, 36, "burst or mark after the end mark")                                    \
    ANSWER(TRILL_REFUSED_BESIDE, 37, "second output buffer under 576 octets")                              \
    /* The frame is dropped. */                                                                            \
    ANSWER(TRILL_DROP_FLAGS, 38, "critical flag and summary bit at odds, edition 2")                       \
    /* Not the egress: the frame for the next hop is written, and it may be a reply beside it. */          \
    ANSWER(TRILL_FORWARDED, 50, "forwarded")                                                               \
    /* The inner frame is delivered: start and length say where it is in the frame. Nothing is written. */ \
    ANSWER(TRILL_DELIVERED, 51, "delivered")                                                               \
    ANSWER(TRILL_HANDED_UP, 52, "handed up: inner DA All-Egress-RBridges, Ethertype 0x22F4")               \
    /* A reply to the ingress is written. */                                                               \
    ANSWER(TRILL_ERROR_REPLY, 53, "channel fault: error reply")                                            \
    ANSWER(TRILL_ECHO_REPLY, 54, "echo request: echo reply")                                               \
    /* A reply to us has arrived. Nothing is written. */                                                   \
    ANSWER(TRILL_ERROR_HEARD, 55, "error heard")                                                           \
    ANSWER(TRILL_ECHO_HEARD, 56, "echo reply heard")

/* The codes of a campus run: constant, number, meaning. Only CAMPUS_RAN writes. */
#define CAMPUS_CODES(CODE)                                                                      \
    /* The run is done, and its entries are written. */                                         \
    CODE(CAMPUS_RAN, 0, "run")                                                                  \
    /* The description is refused. Nothing is written. */                                       \
    CODE(CAMPUS_REFUSED_LONG, 40, "description over 32,768 octets")                             \
    CODE(CAMPUS_REFUSED_CUT, 41, "field cut short")                                             \
    CODE(CAMPUS_REFUSED_TAG, 42, "unknown tag or length")                                       \
    CODE(CAMPUS_REFUSED_PLACE, 43, "tag out of place, or no tag 5 at the end")                  \
    CODE(CAMPUS_REFUSED_VALUE, 44, "value outside the settings rules")                          \
    CODE(CAMPUS_REFUSED_NICKNAME, 45, "nickname of an earlier switch")                          \
    CODE(CAMPUS_REFUSED_NUMBER, 46, "over 16 switches, or over 64 records at a switch")         \
    CODE(CAMPUS_REFUSED_SERIAL, 47, "serial met before for that destination at that switch")    \
    CODE(CAMPUS_REFUSED_ENTRY, 48, "entry switch unknown")                                      \
    /* The call is refused: for 640 before the others, for 32,768 after. Nothing is written. */ \
    CODE(CAMPUS_REFUSED_TRACE, 49, "trace buffer under 640 octets, or under 32,768 with edition 2")

#define STAFFRIPPLE_CONSTANT(constant, number, meaning) constant = number,
enum trill_number { TRILL_ANSWERS(STAFFRIPPLE_CONSTANT) };
enum campus_code { CAMPUS_CODES(STAFFRIPPLE_CONSTANT) };
#undef STAFFRIPPLE_CONSTANT

struct trill_answer {
    uint16_t number;           /* a constant of TRILL_ANSWERS */
    uint16_t written;          /* octets written at the start of the output: 20 to 2,048, or 0 where nothing is */
    uint16_t start;            /* the delivered part: where it begins in the frame; of 30 to 33 the option's place in
                                  the options area; 0 where there is none */
    uint16_t length;           /* the delivered part's octets, 0 where there is none; trill_part_of gives it */
    uint16_t neighbour;        /* nickname of the neighbour to which the output goes, 0 where nothing is written */
    uint16_t beside;           /* octets of the reply made beside TRILL_FORWARDED, 0 where there is none */
    uint16_t beside_neighbour; /* nickname of the neighbour to which that reply goes, 0 where there is none */
};

/*
 * Handles one received frame.
 *
 *   frame     an Ethernet frame from its destination address on, without FCS
 *   settings  the switch: fields of a tag (1 octet), a length (2) and a value.
 *               tag 1, length 8    own nickname 2, own MAC 6: once, and first
 *               tag 2, length 14   next hop: destination nickname 2, neighbour nickname 2 (0 withdraws the
 *                  or length 16    destination), neighbour MAC 6, serial 4: up to 64; of length 16 also an outer
 *                                  VLAN 2, 0 for none or 1 to 4,094 (priority bits are 0): with one, each link
 *                                  header written to that neighbour has 18 octets and not 14, with the tag 0x8100
 *                                  and that VLAN
 *               tag 3, length 1    strip flag, 0 or 1: the last one counts, 0 if there is none. With 1 a forwarded
 *                                  frame loses its unknown mutable hop-by-hop options (IE 0, NC 1, MT 1; not a
 *                                  pad, nor a Flow ID of Length 2); in edition 2 nothing is taken out
 *               tag 6, length 1    edition of the header extension, 1 (the options draft) or 2 (RFC 7179): the last
 *                                  one counts, 1 if there is none
 *             Nicknames are 0x0001 to 0xFFBF. MACs are individual (the low bit of the first octet is 0) and not
 *             all zero. All this holds of a withdrawal too. Of a destination's records the one with the greatest
 *             serial rules; no two of them have the same. A neighbour may be the switch itself. Anything else is bad
 *             settings.
 *   clock     TRILL_CLOCK octets, put into the time received of an echo reply
 *   out       at least TRILL_OUTPUT_LEAST octets
 *   beside    at least TRILL_BESIDE_LEAST octets, in either edition
 *
 * TRILL_FORWARDED, TRILL_ERROR_REPLY and TRILL_ECHO_REPLY write a frame, ready to send, to the first
 * `written` octets of out, and leave the octets after it. Every other answer leaves all of out as it was.
 * An echo request with an alert that is forwarded (edition 2) is answered too: the reply is the first `beside`
 * octets of beside. All other octets of beside stay.
 * What is written may be shorter than Ethernet wants: padding and FCS are the port driver's part.
 */
struct trill_answer trill_handle(const uint8_t *frame, size_t frame_len, const uint8_t *settings, size_t settings_len,
                                 const uint8_t *clock, size_t clock_len, uint8_t *out, size_t out_len, uint8_t *beside,
                                 size_t beside_len);

/* ---- Counters ---- */

#define TRILL_ANSWER_NUMBERS 64 /* every answer's number is under it */

/* The counters of one switch: one for each answer number, and one for all of them. All zero at first. */
struct trill_counters {
    uint64_t by_answer[TRILL_ANSWER_NUMBERS]; /* by_answer[51] counts the answers TRILL_DELIVERED */
    uint64_t total;
};

/*
 * Handles one received frame as trill_handle does, and counts its answer: by_answer[number] and total grow by one, and
 * nothing else in the record changes. A driver's loop:
 *
 *     static struct trill_counters counters;
 *     while (receive(frame, &frame_len, clock))
 *         send(trill_handle_counted(&counters, frame, frame_len, settings, settings_len, clock, TRILL_CLOCK, out,
 *                                   sizeof out, beside, sizeof beside), out, beside);
 *
 * If any of the 65 words is UINT64_MAX, one of a number never given too, the answer is TRILL_REFUSED_COUNTERS, before
 * all others: nothing is counted, nothing written, and every other field of the answer is 0. Else answer and buffers
 * are those of trill_handle. After any calls from zero, total is the number of those not answered
 * TRILL_REFUSED_COUNTERS, each counter the number of its own answer among them, and total the sum of the counters.
 * Only this call counts. trill_counters_print, below, prints a record.
 *
 *   counters  one record, lent to one call at a time: threads that share it take turns
 */
struct trill_answer trill_handle_counted(struct trill_counters *counters, const uint8_t *frame, size_t frame_len,
                                         const uint8_t *settings, size_t settings_len, const uint8_t *clock,
                                         size_t clock_len, uint8_t *out, size_t out_len, uint8_t *beside,
                                         size_t beside_len);

/* ---- Settings prepared once ---- */

#define TRILL_PREPARED_WORDS 164 /* words of a store */

/*
 * Judges settings and writes them into a store, by which any number of frames is handled: a frame costs the same
 * with 1 record and with 64. A driver's loop:
 *
 *     uint64_t store[TRILL_PREPARED_WORDS];
 *     if (trill_prepare(settings, settings_len, store, TRILL_PREPARED_WORDS) != 0)
 *         return bad_settings();
 *     while (receive(frame, &frame_len, clock))
 *         send(trill_handle_prepared(frame, frame_len, store, TRILL_PREPARED_WORDS, clock, TRILL_CLOCK, out,
 *                                    sizeof out, beside, sizeof beside), out, beside);
 *
 * Answers 0; 1 for bad settings; else 2 for fewer than TRILL_PREPARED_WORDS words. A refusal leaves the words as they
 * were; words after the first TRILL_PREPARED_WORDS stay. Settings of any length fit.
 */
uint32_t trill_prepare(const uint8_t *settings, size_t settings_len, uint64_t *store, size_t words);

/*
 * Handles one received frame by a store, as trill_handle does by the settings that it was prepared from: the same
 * answer, the same octets. What is in a store is the library's affair, but any words may be lent: too few or bad ones
 * are answered TRILL_REFUSED_SETTINGS.
 */
struct trill_answer trill_handle_prepared(const uint8_t *frame, size_t frame_len, const uint64_t *store, size_t words,
                                          const uint8_t *clock, size_t clock_len, uint8_t *out, size_t out_len,
                                          uint8_t *beside, size_t beside_len);

/* ---- Frames in bursts ---- */

#define TRILL_READER_WORDS 168    /* words of a reader */
#define TRILL_GATHERED_LEAST 2048 /* octets that the gathering buffer must have */

/*
 * A reader is fed a frame in bursts and then an end mark; however the frame is cut, the mark answers and writes as
 * trill_handle does on the whole frame. A driver's loop:
 *
 *     uint64_t reader[TRILL_READER_WORDS];
 *     uint8_t gathered[TRILL_GATHERED_LEAST];
 *     trill_reader_start(reader, TRILL_READER_WORDS, settings, settings_len, clock, TRILL_CLOCK, sizeof out,
 *                        sizeof beside);
 *     while (receive_burst(octets, &len))
 *         trill_reader_burst(reader, TRILL_READER_WORDS, gathered, sizeof gathered, octets, len);
 *     send(trill_reader_mark(reader, TRILL_READER_WORDS, gathered, sizeof gathered, out, sizeof out, beside,
 *                            sizeof beside), out, beside);
 *
 *          start: 0          burst: 0         mark: the answer of the whole frame
 *     words ------> gathers -------+ ----------------------------------------------> ended ---+ burst, mark: 36
 *       |              |  ^--------+                                                 ^  ^-----+
 *       |              | burst: 3, with octet 2,049                                  |
 *       +--------> early answer ---+ burst: the early answer   mark: the early answer|
 *     start: 1, 2, 37      ^-------+ ------------------------------------------------+
 *
 * Settings and clock are the start's, and may be reused after it. Between the calls the caller leaves reader and
 * gathered alone. TRILL_DELIVERED and TRILL_HANDED_UP name a part of gathered, which holds the whole frame.
 *
 * What is in the words is the library's affair, but any words may be lent. Fewer than TRILL_READER_WORDS words are
 * answered 2 by every call, before all else, and nothing is written. While octets gather, a gathering buffer under
 * TRILL_GATHERED_LEAST is answered 2 too, nothing is written, and the reader goes on as it was.
 */

/* Begins a frame: 0, or the early answer: 1 bad settings or clock, else 2 out_len under 2,048, else 37 beside_len under
 * 576. */
uint32_t trill_reader_start(uint64_t *reader, size_t words, const uint8_t *settings, size_t settings_len,
                            const uint8_t *clock, size_t clock_len, size_t out_len, size_t beside_len);

/* Gathers octets: 0; 3 with octet 2,049; the early answer again; 36 after the mark. Only a burst that says 0 writes
 * gathered. */
uint32_t trill_reader_burst(uint64_t *reader, size_t words, uint8_t *gathered, size_t gathered_len,
                            const uint8_t *octets, size_t len);

/*
 * Ends the frame: the early answer again, with nothing written; else the answer of trill_handle on the octets gathered,
 * into the buffers lent here, which are tested anew (2 and 37 end the reader too). After it every burst and mark is
 * TRILL_REFUSED_ENDED, and reader and gathered stay as they are until the next start.
 */
struct trill_answer trill_reader_mark(uint64_t *reader, size_t words, const uint8_t *gathered, size_t gathered_len,
                                      uint8_t *out, size_t out_len, uint8_t *beside, size_t beside_len);

/* ---- The way out ---- */

#define TRILL_LINK_MOST 18 /* octets of the longest link header */

struct trill_way {
    uint32_t number; /* 0; else 1 bad settings, else 21 no next hop, else 2 buffer too short for the header */
    uint32_t length; /* octets of the link header written, 0 where none is */
};

/*
 * Writes the link header of the record that rules for a destination: neighbour MAC, own MAC, its VLAN's tag if it has
 * one, 0x22F3. Looking the record up and writing are one call, so that no stale record is used:
 *
 *     uint8_t header[TRILL_LINK_MOST];
 *     struct trill_way way = trill_way_out(settings, settings_len, 0x0009, header, sizeof header);
 *     if (way.number == 0)
 *         send(header, way.length);
 *
 * Any destination may be asked for; 0 and 0xFFC0 on have no record. Octets after the header stay, and a refusal leaves
 * all of out as it was. The second call is the same by a store; any words may be lent, bad ones are answered 1.
 */
struct trill_way trill_way_out(const uint8_t *settings, size_t settings_len, uint16_t destination, uint8_t *out,
                               size_t out_len);
struct trill_way trill_way_out_prepared(const uint64_t *store, size_t words, uint16_t destination, uint8_t *out,
                                        size_t out_len);

/* ---- A campus of switches over one frame ---- */

#define CAMPUS_DESCRIPTION_MOST 32768 /* octets of a description: a longer one is refused */
#define CAMPUS_TRACE_LEAST 640  /* octets that the trace buffer must have: 80 entries, as many as a run can have */
#define CAMPUS_TRACE_MOST 32768 /* octets that it must have with a switch of edition 2: 4,096 entries, likewise */
#define CAMPUS_ENTRY 8          /* octets of a trace entry */
#define CAMPUS_TEXT_MOST 73741  /* octets of the longest text */

struct campus_answer {
    uint32_t code;  /* a constant of CAMPUS_CODES */
    uint32_t count; /* trace entries, one for each handling: 1 to 80, with edition 2 to 4,096; 0 for a refusal */
};

/*
 * Runs one frame through a campus of up to 16 switches until it, and each reply to it, is dropped, delivered,
 * heard or gone. Replies run in the order made, after the frame put in has stopped.
 *
 *   description  fields as in settings, for each switch in turn; besides
 *                  tag 4, length 6             clock: at most once, zero if there is none
 *                  tag 5, length 2 to 2,050    nickname of the entry switch, then the frame: once, and last
 *   trace        at least CAMPUS_TRACE_LEAST octets, and CAMPUS_TRACE_MOST with a switch of edition 2, which is
 *                tested after all else
 *
 * CAMPUS_RAN writes `count` entries of CAMPUS_ENTRY octets to the start of trace and leaves the octets after
 * them. An entry: switch 2, frame 1 (0 original, 1 reply), answer 1 (a constant of TRILL_ANSWERS), hop count
 * received 1, zero 1, egress nickname 2. Every other code leaves all of trace as it was.
 */
struct campus_answer campus_run(const uint8_t *description, size_t description_len, uint8_t *trace, size_t trace_len);

struct campus_text_answer {
    uint32_t written; /* octets written: needed, or 0 where text is too small */
    uint32_t needed;  /* octets of the text: at most CAMPUS_TEXT_MOST */
};

/*
 * Runs a description, as campus_run does, and writes the run as the text that the program prints: a line for
 * each entry and the line `handled` with their number, or the one line `refused` with the code.
 *
 *   text  CAMPUS_TEXT_MOST octets are always enough
 *
 * The text has `needed` octets, each line with a line feed at its end, and no zero octet after it. It is
 * written to the start of text, and the octets after it stay; if text_len is under needed, nothing is written.
 */
struct campus_text_answer campus_text(const uint8_t *description, size_t description_len, uint8_t *text,
                                      size_t text_len);

#ifdef __cplusplus
}
#endif

/* ---- Helpers ---- */

#define STAFFRIPPLE_MEANING(constant, number, meaning) \
    case constant:                                     \
        return meaning;

/* What an answer's number means, in a few words. */
static inline const char *trill_answer_name(uint32_t number)
{
    switch (number) {
        TRILL_ANSWERS(STAFFRIPPLE_MEANING)
    default:
        return "no answer of document 01";
    }
}

/* What a campus run's code means, in a few words. */
static inline const char *campus_code_name(uint32_t code)
{
    switch (code) {
        CAMPUS_CODES(STAFFRIPPLE_MEANING)
    default:
        return "no code of document 01";
    }
}

#undef STAFFRIPPLE_MEANING

#if __STDC_HOSTED__
/* Prints a counters record as a table: a line for each number answered, with its count and meaning, then the total. */
static inline void trill_counters_print(FILE *file, const struct trill_counters *counters)
{
    for (uint32_t number = 0; number < TRILL_ANSWER_NUMBERS; number++) {
        if (counters->by_answer[number])
            fprintf(file, "%2" PRIu32 " %20" PRIu64 "  %s\n", number, counters->by_answer[number],
                    trill_answer_name(number));
    }
    fprintf(file, "   %20" PRIu64 "  in all\n", counters->total);
}
#endif

/* The big-endian number at octets, and the number put there. */
static inline uint16_t staffripple_get16(const uint8_t *octets)
{
    return (uint16_t)(octets[0] << 8 | octets[1]);
}

static inline uint32_t staffripple_get32(const uint8_t *octets)
{
    return (uint32_t)staffripple_get16(octets) << 16 | staffripple_get16(octets + 2);
}

static inline void staffripple_put16(uint8_t *octets, uint16_t value)
{
    octets[0] = (uint8_t)(value >> 8);
    octets[1] = (uint8_t)(value & 0xFF);
}

static inline void staffripple_put32(uint8_t *octets, uint32_t value)
{
    staffripple_put16(octets, (uint16_t)(value >> 16));
    staffripple_put16(octets + 2, (uint16_t)(value & 0xFFFF));
}

/* A pointer that the calls take: octets, or for null the place of an empty string. */
static inline const uint8_t *staffripple_input(const uint8_t *octets)
{
    static const uint8_t empty[1] = {0};
    return octets ? octets : empty;
}

static inline uint8_t *staffripple_output(uint8_t *octets)
{
    static uint8_t empty[1];
    return octets ? octets : empty;
}

struct trill_part {
    const uint8_t *octets; /* within the frame, not copied; never null */
    size_t length;
};

/*
 * The part of a frame that an answer's start and length name, or an empty part if the range does not lie
 * within the frame. No start and length, however great, make it reach outside.
 */
static inline struct trill_part trill_part_of(const uint8_t *frame, size_t frame_len, size_t start, size_t length)
{
    struct trill_part part;
    int within = start <= frame_len && length <= frame_len - start;
    part.octets = within && frame ? frame + start : staffripple_input(frame);
    part.length = within ? length : 0;
    return part;
}

/* The three calls for pointers that may be null with length 0, such as those of an empty container. */
static inline struct trill_answer staffripple_handle(const uint8_t *frame, size_t frame_len, const uint8_t *settings,
                                                     size_t settings_len, const uint8_t *clock, size_t clock_len,
                                                     uint8_t *out, size_t out_len, uint8_t *beside, size_t beside_len)
{
    return trill_handle(staffripple_input(frame), frame_len, staffripple_input(settings), settings_len,
                        staffripple_input(clock), clock_len, staffripple_output(out), out_len,
                        staffripple_output(beside), beside_len);
}

static inline struct campus_answer staffripple_campus_run(const uint8_t *description, size_t description_len,
                                                          uint8_t *trace, size_t trace_len)
{
    return campus_run(staffripple_input(description), description_len, staffripple_output(trace), trace_len);
}

static inline struct campus_text_answer staffripple_campus_text(const uint8_t *description, size_t description_len,
                                                                uint8_t *text, size_t text_len)
{
    return campus_text(staffripple_input(description), description_len, staffripple_output(text), text_len);
}

#endif
