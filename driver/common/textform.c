#include "textform.h"

#include <inttypes.h>
#include <stdarg.h>
#include <string.h>

#include "capture.h"
#include "fields.h"
#include "program.h"

enum { WORD_SHOWN = 32, PATH_MOST = 4096, LINE_OCTETS = 16, CLOCK_DIGITS = 6, CLOCK_FIELD = 3 };

#define MICROSECONDS 1000000u
#define CLOCK_SECONDS_MOST 0xFFFFFFu

/* ---- Words ---- */

struct word {
    const uint8_t *at;
    size_t length;
    uint32_t line;
    bool first; /* on its line */
};

struct reader {
    struct octets *octets;
    const uint8_t *next, *end; /* what is left of the text behind the word */
    uint32_t line;
    struct word word; /* the word to be taken next; empty at the end */
    uint32_t begun;   /* the line of the statement */
    int status;
};

static bool is_blank(uint8_t character)
{
    return character == ' ' || character == '\t' || character == '\r' || character == '\n';
}

/* Goes over blanks and comments; whether a line has ended there. */
static bool skip_blanks(struct reader *reader)
{
    bool ended = false, comment = false;
    for (; reader->next < reader->end; reader->next++) {
        uint8_t character = *reader->next;
        comment = (comment || character == '#') && character != '\n';
        if (!comment && !is_blank(character))
            break;
        if (character == '\n') {
            reader->line++;
            ended = true;
        }
    }
    return ended;
}

/* Looks at the next word. One that begins with a quotation mark goes to the next such mark on its line. */
static void skip_word(struct reader *reader)
{
    bool first = skip_blanks(reader) || !reader->word.at;
    const uint8_t *at = reader->next, *end = at;
    if (at < reader->end && *at == '"') {
        const uint8_t *mark = memchr(at + 1, '"', (size_t)(reader->end - at - 1));
        const uint8_t *line = memchr(at + 1, '\n', (size_t)(reader->end - at - 1));
        end = mark && (!line || mark < line) ? mark + 1 : at + 1;
    }
    while (end < reader->end && !is_blank(*end) && *end != '#')
        end++;
    reader->next = end;
    reader->word = (struct word){at, (size_t)(end - at), reader->line, first};
}

static bool same(const struct word *word, const char *text)
{
    return word->length == strlen(text) && memcmp(word->at, text, word->length) == 0;
}

/* Whether the line of the statement goes on. */
static bool goes_on(const struct reader *reader)
{
    return reader->word.length > 0 && !reader->word.first;
}

static bool is_hex(const struct word *word)
{
    for (size_t i = 0; i < word->length; i++) {
        if (hex_digit(word->at[i]) < 0)
            return false;
    }
    return word->length > 0;
}

bool textform_begins(const uint8_t *characters, size_t count)
{
    struct reader reader = {.next = characters, .end = characters + count};
    skip_word(&reader);
    for (size_t i = 0; i < reader.word.length; i++) {
        if (reader.word.at[i] < 'a' || reader.word.at[i] > 'z')
            return false;
    }
    return reader.word.length > 0 && !is_hex(&reader.word);
}

/* ---- Faults: each answers false, after its message ---- */

__attribute__((format(printf, 4, 5))) static bool fault(struct reader *reader, int status, uint32_t line,
                                                        const char *format, ...)
{
    va_list arguments;
    va_start(arguments, format);
    fprintf(stderr, "%s:%" PRIu32 ": ", reader->octets->name, line);
    vfprintf(stderr, format, arguments);
    putc('\n', stderr);
    va_end(arguments);
    reader->status = status;
    return false;
}

/* A word as it may be shown on a terminal. */
static const char *shown(const struct word *word)
{
    static char text[WORD_SHOWN + 6];
    size_t length = word->length < WORD_SHOWN ? word->length : WORD_SHOWN;
    for (size_t i = 0; i < length; i++)
        text[i] = word->at[i] >= ' ' && word->at[i] <= '~' ? (char)word->at[i] : '?';
    strcpy(text + length, word->length > WORD_SHOWN ? "..." : "");
    return text;
}

static bool wanted(struct reader *reader, const char *what)
{
    if (goes_on(reader))
        return fault(reader, EXIT_USAGE, reader->word.line, "'%s' found; wanted: %s", shown(&reader->word), what);
    return fault(reader, EXIT_USAGE, reader->begun, "end of the line found; wanted: %s", what);
}

/* ---- Values: each takes a word and adds its octets, or answers false ---- */

static void add(struct reader *reader, uint64_t number, unsigned size)
{
    for (unsigned i = size; i > 0; i--)
        octets_add(reader->octets, (uint8_t)(number >> 8 * (i - 1)), reader->word.line);
}

static bool take_key(struct reader *reader, const char *key)
{
    if (!goes_on(reader) || !same(&reader->word, key))
        return wanted(reader, key);
    skip_word(reader);
    return true;
}

/* Takes a word that may be missing, and whether it was there. */
static bool take_if(struct reader *reader, const char *key)
{
    bool there = goes_on(reader) && same(&reader->word, key);
    if (there)
        skip_word(reader);
    return there;
}

static uint64_t hex_number(const uint8_t *digits, size_t count)
{
    uint64_t number = 0;
    for (size_t i = 0; i < count; i++)
        number = number << 4 | (uint64_t)hex_digit(digits[i]);
    return number;
}

static bool take_nickname(struct reader *reader)
{
    const struct word *word = &reader->word;
    if (!goes_on(reader) || word->length != 4 || !is_hex(word))
        return wanted(reader, "a nickname, 4 hex digits");
    add(reader, hex_number(word->at, word->length), 2);
    skip_word(reader);
    return true;
}

static bool is_mac(const struct word *word)
{
    for (size_t i = 0; i < word->length; i++) {
        bool good = i % 3 == 2 ? word->at[i] == ':' || word->at[i] == '-' : hex_digit(word->at[i]) >= 0;
        if (!good)
            return false;
    }
    return word->length == 3 * MAC_LENGTH - 1;
}

static bool take_mac(struct reader *reader)
{
    const struct word *word = &reader->word;
    if (!take_key(reader, "mac"))
        return false;
    if (!goes_on(reader) || !is_mac(word))
        return wanted(reader, "a MAC such as 02:00:00:00:00:01");
    for (size_t i = 0; i < MAC_LENGTH; i++)
        add(reader, hex_number(word->at + 3 * i, 2), 1);
    skip_word(reader);
    return true;
}

/* The number of decimal digits; false for other characters, for none, and for a number above the most. */
static bool decimal(uint64_t *number, const uint8_t *digits, size_t count, uint64_t most)
{
    *number = 0;
    for (size_t i = 0; i < count; i++) {
        if (digits[i] < '0' || digits[i] > '9')
            return false;
        *number = *number * 10 + (uint64_t)(digits[i] - '0');
        if (*number > most)
            return false;
    }
    return count > 0;
}

static bool take_decimal(struct reader *reader, uint64_t *number, uint64_t least, uint64_t most)
{
    char what[80];
    snprintf(what, sizeof what, "a number from %" PRIu64 " to %" PRIu64, least, most);
    if (!goes_on(reader) || !decimal(number, reader->word.at, reader->word.length, most) || *number < least)
        return wanted(reader, what);
    return true;
}

static bool take_number(struct reader *reader, unsigned size)
{
    uint64_t number;
    if (!take_decimal(reader, &number, 0, (UINT64_C(1) << 8 * size) - 1))
        return false;
    add(reader, number, size);
    skip_word(reader);
    return true;
}

/* The words of hex digits that follow, on this line and on those after it. */
static bool take_hex(struct reader *reader)
{
    const struct word *word = &reader->word;
    if (!take_key(reader, "hex"))
        return false;
    for (; is_hex(word); skip_word(reader)) {
        if (word->length % 2 != 0)
            return fault(reader, EXIT_USAGE, word->line, "odd number of hex digits in '%s'", shown(word));
        for (size_t i = 0; i < word->length; i += 2)
            add(reader, hex_number(word->at + i, 2), 1);
    }
    return !goes_on(reader) || wanted(reader, "hex digits");
}

/* ---- Fields: their octets, and the length once it is known ---- */

static size_t begin_field(struct reader *reader, unsigned tag)
{
    size_t place = reader->octets->length;
    octets_add(reader->octets, (uint8_t)tag, reader->begun);
    octets_add(reader->octets, 0, reader->begun);
    octets_add(reader->octets, 0, reader->begun);
    return place;
}

static bool end_field(struct reader *reader, size_t place)
{
    struct octets *octets = reader->octets;
    if (octets->length <= OCTETS_MOST)
        staffripple_put16(octets->at + place + 1, (uint16_t)(octets->length - place - FIELD_HEADER));
    return true;
}

static bool add_field(struct reader *reader, unsigned tag, uint8_t value)
{
    size_t place = begin_field(reader, tag);
    add(reader, value, 1);
    return end_field(reader, place);
}

static bool take_edition(struct reader *reader)
{
    size_t place = begin_field(reader, TAG_EDITION);
    return take_number(reader, 1) && end_field(reader, place);
}

static bool take_switch(struct reader *reader)
{
    size_t place = begin_field(reader, TAG_SWITCH);
    bool flag = false, edition = false;
    if (!take_nickname(reader) || !take_mac(reader))
        return false;
    end_field(reader, place);
    while (goes_on(reader)) {
        if (!flag && take_if(reader, "strip"))
            flag = add_field(reader, TAG_FLAG, 1);
        else if (!edition && take_if(reader, "edition"))
            edition = take_edition(reader);
        else
            return wanted(reader, "strip, edition or the end of the line, each once");
        if (reader->status != EXIT_GOOD)
            return false;
    }
    return true;
}

static bool take_neighbour(struct reader *reader)
{
    if (take_if(reader, "withdrawn")) {
        add(reader, 0, 2);
        return true;
    }
    if (!take_if(reader, "via"))
        return wanted(reader, "via or withdrawn");
    return take_nickname(reader);
}

static bool take_hop(struct reader *reader)
{
    size_t place = begin_field(reader, TAG_HOP);
    if (!take_nickname(reader) || !take_neighbour(reader) || !take_mac(reader) || !take_key(reader, "serial") ||
        !take_number(reader, 4))
        return false;
    if (take_if(reader, "vlan") && !take_number(reader, 2))
        return false;
    return end_field(reader, place);
}

static bool take_strip(struct reader *reader)
{
    return add_field(reader, TAG_FLAG, take_if(reader, "off") ? 0 : 1);
}

/* Seconds, and a fraction of up to six digits behind a point. */
static bool read_seconds(uint8_t clock[TRILL_CLOCK], const uint8_t *digits, size_t count)
{
    const uint8_t *point = memchr(digits, '.', count);
    size_t whole = point ? (size_t)(point - digits) : count, rest = point ? count - whole - 1 : 0;
    uint64_t seconds, fraction = 0;
    if (!decimal(&seconds, digits, whole, CLOCK_SECONDS_MOST) || rest > CLOCK_DIGITS)
        return false;
    if (point && !decimal(&fraction, point + 1, rest, MICROSECONDS - 1))
        return false;
    for (size_t i = rest; i < CLOCK_DIGITS; i++)
        fraction *= 10;
    for (unsigned i = 0; i < CLOCK_FIELD; i++) {
        clock[i] = (uint8_t)(seconds >> 8 * (CLOCK_FIELD - 1 - i));
        clock[CLOCK_FIELD + i] = (uint8_t)(fraction >> 8 * (CLOCK_FIELD - 1 - i));
    }
    return true;
}

bool clock_read(uint8_t clock[TRILL_CLOCK], const char *word)
{
    struct word digits = {(const uint8_t *)word, strlen(word), 0, false};
    if (strchr(word, '.'))
        return read_seconds(clock, digits.at, digits.length);
    if (digits.length != 2 * TRILL_CLOCK || !is_hex(&digits))
        return false;
    for (size_t i = 0; i < TRILL_CLOCK; i++)
        clock[i] = (uint8_t)hex_number(digits.at + 2 * i, 2);
    return true;
}

static bool take_clock(struct reader *reader)
{
    uint8_t clock[TRILL_CLOCK];
    size_t place = begin_field(reader, TAG_CLOCK);
    if (!goes_on(reader) || !read_seconds(clock, reader->word.at, reader->word.length))
        return wanted(reader, "seconds up to 16777215 and at most six digits of a fraction, such as 1.000009");
    for (size_t i = 0; i < TRILL_CLOCK; i++)
        add(reader, clock[i], 1);
    skip_word(reader);
    return end_field(reader, place);
}

/* The path of a word, in quotation marks or without: one that is not absolute is meant from the text's own folder. */
static bool make_path(char path[PATH_MOST], const char *text_name, const struct word *word)
{
    bool quoted = word->length >= 2 && word->at[0] == '"' && word->at[word->length - 1] == '"';
    const uint8_t *at = quoted ? word->at + 1 : word->at;
    size_t length = quoted ? word->length - 2 : word->length;
    const char *slash = strrchr(text_name, '/');
    size_t folder = slash && length > 0 && at[0] != '/' ? (size_t)(slash - text_name) + 1 : 0;
    if (length == 0 || folder + length >= PATH_MOST)
        return false;
    memcpy(path, text_name, folder);
    memcpy(path + folder, at, length);
    path[folder + length] = 0;
    return strlen(path) == folder + length;
}

static bool take_capture(struct reader *reader)
{
    static struct capture_input input;
    char path[PATH_MOST];
    struct capture_record record;
    uint64_t number;
    if (!goes_on(reader) || !make_path(path, reader->octets->name, &reader->word))
        return wanted(reader, "the path of a capture");
    skip_word(reader);
    if (!take_decimal(reader, &number, 1, UINT32_MAX))
        return false;
    if (!capture_pick(&input, path, number, &record))
        return fault(reader, EXIT_FAILED, reader->word.line, "%s: %s", path, input.error);
    for (uint32_t i = 0; i < record.length; i++)
        add(reader, record.frame[i], 1);
    skip_word(reader);
    return true;
}

static bool take_frame(struct reader *reader)
{
    size_t place = begin_field(reader, TAG_ENTRY);
    if (!take_key(reader, "at") || !take_nickname(reader))
        return false;
    if (take_if(reader, "from"))
        return take_capture(reader) && end_field(reader, place);
    if (!goes_on(reader) || !same(&reader->word, "hex"))
        return wanted(reader, "hex or from");
    return take_hex(reader) && end_field(reader, place);
}

static bool take_field(struct reader *reader)
{
    uint64_t tag;
    if (!take_decimal(reader, &tag, 0, UINT8_MAX))
        return false;
    size_t place = begin_field(reader, (unsigned)tag);
    skip_word(reader);
    return take_hex(reader) && end_field(reader, place);
}

static const struct statement {
    const char *word;
    bool (*take)(struct reader *reader);
} statements[] = {
    {"switch", take_switch}, {"to", take_hop},      {"strip", take_strip}, {"edition", take_edition},
    {"clock", take_clock},   {"frame", take_frame}, {"field", take_field}, {"octets", take_hex},
};

static bool take_statement(struct reader *reader)
{
    for (size_t i = 0; i < sizeof statements / sizeof *statements; i++) {
        if (!same(&reader->word, statements[i].word))
            continue;
        skip_word(reader);
        if (!statements[i].take(reader))
            return false;
        return !goes_on(reader) || wanted(reader, "the end of the line");
    }
    return fault(reader, EXIT_USAGE, reader->begun,
                 "'%s' begins no line; wanted: switch, to, strip, edition, clock, frame, field or octets",
                 shown(&reader->word));
}

int textform_read(struct octets *octets, const uint8_t *characters, size_t count)
{
    struct reader reader = {.octets = octets, .next = characters, .end = characters + count, .line = 1};
    skip_word(&reader);
    while (reader.status == EXIT_GOOD && reader.word.length > 0 && octets->length <= OCTETS_MOST) {
        reader.begun = reader.word.line;
        take_statement(&reader);
    }
    return reader.status;
}

/* ---- The way back ---- */

static void print_mac(FILE *file, const uint8_t *mac)
{
    fprintf(file, "mac %02X:%02X:%02X:%02X:%02X:%02X", mac[0], mac[1], mac[2], mac[3], mac[4], mac[5]);
}

static void print_hex(FILE *file, const uint8_t *octets, size_t length)
{
    fputs(" hex", file);
    for (size_t i = 0; i < length; i++)
        fprintf(file, i % LINE_OCTETS == 0 && length > LINE_OCTETS ? "\n    %02X" : " %02X", octets[i]);
}

static void print_hop(FILE *file, const struct field *field)
{
    const uint8_t *value = field->value;
    fprintf(file, "to %04X ", staffripple_get16(value + HOP_DESTINATION));
    if (staffripple_get16(value + HOP_NEIGHBOUR) == 0)
        fputs("withdrawn ", file);
    else
        fprintf(file, "via %04X ", staffripple_get16(value + HOP_NEIGHBOUR));
    print_mac(file, value + HOP_MAC);
    fprintf(file, " serial %" PRIu32, staffripple_get32(value + HOP_SERIAL));
    if (field->length == HOP_LENGTH_VLAN)
        fprintf(file, " vlan %u", staffripple_get16(value + HOP_VLAN));
}

static uint32_t get24(const uint8_t *octets)
{
    return (uint32_t)octets[0] << 16 | staffripple_get16(octets + 1);
}

/* Whether a line other than `field` says the field; of a clock, that its microseconds make less than a second. */
static bool has_line(const struct field *field)
{
    switch (field->tag) {
    case TAG_SWITCH:
        return field->length == SWITCH_LENGTH;
    case TAG_HOP:
        return field->length == HOP_LENGTH || field->length == HOP_LENGTH_VLAN;
    case TAG_FLAG:
        return field->length == 1 && field->value[0] <= 1;
    case TAG_CLOCK:
        return field->length == TRILL_CLOCK && get24(field->value + CLOCK_FIELD) < MICROSECONDS;
    case TAG_ENTRY:
        return field->length >= ENTRY_NICKNAME;
    case TAG_EDITION:
        return field->length == 1;
    default:
        return false;
    }
}

static void print_field(FILE *file, const struct field *field)
{
    const uint8_t *value = field->value;
    switch (has_line(field) ? field->tag : 0) {
    case TAG_SWITCH:
        fprintf(file, "switch %04X ", staffripple_get16(value));
        print_mac(file, value + 2);
        break;
    case TAG_HOP:
        print_hop(file, field);
        break;
    case TAG_FLAG:
        fputs(value[0] ? "strip" : "strip off", file);
        break;
    case TAG_CLOCK:
        fprintf(file, "clock %" PRIu32 ".%06" PRIu32, get24(value), get24(value + CLOCK_FIELD));
        break;
    case TAG_ENTRY:
        fprintf(file, "frame at %04X", staffripple_get16(value));
        print_hex(file, value + ENTRY_NICKNAME, (size_t)field->length - ENTRY_NICKNAME);
        break;
    case TAG_EDITION:
        fprintf(file, "edition %u", value[0]);
        break;
    default:
        fprintf(file, "field %u", field->tag);
        print_hex(file, value, field->length);
    }
}

/* Whether a field stands on the line of the switch just before it: one strip and one edition do. */
static bool joins(const struct field *field, bool met[TAG_EDITION + 1])
{
    bool word = (field->tag == TAG_FLAG && field->length == 1 && field->value[0] == 1) ||
                (field->tag == TAG_EDITION && field->length == 1);
    if (!met[TAG_SWITCH] || !word || met[field->tag]) {
        met[TAG_SWITCH] = met[TAG_FLAG] = met[TAG_EDITION] = false;
        return false;
    }
    met[field->tag] = true;
    return true;
}

void textform_print(FILE *file, const uint8_t *octets, size_t length)
{
    struct field field;
    size_t place = 0;
    bool met[TAG_EDITION + 1] = {false};
    while (field_next(&field, octets, length, &place)) {
        fputs(field.place == 0 ? "" : joins(&field, met) ? " " : "\n", file);
        print_field(file, &field);
        met[TAG_SWITCH] = met[TAG_SWITCH] || (field.tag == TAG_SWITCH && has_line(&field));
    }
    if (place > 0)
        putc('\n', file);
    if (place == length)
        return;
    fputs("octets", file);
    print_hex(file, octets + place, length - place);
    fputs("\n", file);
}
