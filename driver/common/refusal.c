#include "refusal.h"

#include <inttypes.h>
#include <stdarg.h>
#include <stdio.h>

enum { FIELD_HEADER = 3, SWITCHES_MOST = 16, HOPS_MOST = 64 };

/* ---- The tables: what a value may be, what a field is made of ---- */

enum value { NICKNAME, NEIGHBOUR, MAC, VLAN, FLAG, EDITION };

static const struct {
    uint64_t least, most;
    const char *wanted;
} values[] = {
    [NICKNAME] = {0x0001, 0xFFBF, "0001 to FFBF"},
    [NEIGHBOUR] = {0x0000, 0xFFBF, "0000 to FFBF"},
    [MAC] = {1, 0xFFFFFFFFFFFF, "individual, not all zero"},
    [VLAN] = {0x0000, 0x0FFE, "0000 to 0FFE"},
    [FLAG] = {0, 1, "00 or 01"},
    [EDITION] = {1, 2, "01 or 02"},
};

#define GROUP_BIT (UINT64_C(1) << 40)

enum tag { TAG_SWITCH = 1, TAG_HOP, TAG_FLAG, TAG_CLOCK, TAG_ENTRY, TAG_EDITION, TAGS };

static const struct rule {
    const char *name;
    uint16_t least, most, step; /* its lengths */
    bool of_settings;           /* and of descriptions, as all are */
} rules[TAGS] = {
    [TAG_SWITCH] = {"switch", 8, 8, 1, true},
    [TAG_HOP] = {"next hop", 14, 16, 2, true}, /* without a VLAN, and with one */
    [TAG_FLAG] = {"strip flag", 1, 1, 1, true},
    [TAG_CLOCK] = {"clock", 6, 6, 1, false},
    [TAG_ENTRY] = {"entry", 2, 2 + TRILL_FRAME_MOST, 1, false},
    [TAG_EDITION] = {"edition", 1, 1, 1, true},
};

/* Parts of a field's value with a rule of their own; one behind the field's end is not there. */
static const struct part {
    enum tag tag;
    const char *name;
    uint8_t at, size;
    enum value value;
} parts[] = {
    {TAG_SWITCH, "nickname", 0, 2, NICKNAME}, {TAG_SWITCH, "MAC", 2, 6, MAC},
    {TAG_HOP, "destination", 0, 2, NICKNAME}, {TAG_HOP, "neighbour", 2, 2, NEIGHBOUR},
    {TAG_HOP, "neighbour's MAC", 4, 6, MAC},  {TAG_HOP, "outer VLAN", 14, 2, VLAN},
    {TAG_FLAG, "strip flag", 0, 1, FLAG},     {TAG_EDITION, "edition", 0, 1, EDITION},
};

/* Where a record keeps what it is told from others by. */
enum { HOP_DESTINATION = 0, HOP_SERIAL = 10 };

/* ---- The reading of fields, up to the first at fault ---- */

struct field {
    size_t place;
    unsigned number, tag;
    uint16_t length;
    const uint8_t *value;
};

struct reading {
    enum layout layout;
    const struct octets *octets;
    struct refusal *refusal;
    struct field switches[SWITCHES_MOST], hops[HOPS_MOST]; /* hops: those of the latest switch */
    unsigned switch_count, hop_count;
    bool clock, entry; /* whether one was met */
};

__attribute__((format(printf, 3, 4))) static bool refuse(struct reading *reading, uint32_t code, const char *format,
                                                         ...)
{
    va_list arguments;
    va_start(arguments, format);
    vsnprintf(reading->refusal->why, sizeof reading->refusal->why, format, arguments);
    va_end(arguments);
    reading->refusal->code = code;
    return false;
}

static uint64_t number_at(const uint8_t *octets, unsigned size)
{
    uint64_t number = 0;
    for (unsigned i = 0; i < size; i++)
        number = number << 8 | octets[i];
    return number;
}

static bool lengths_good(struct reading *reading, const struct field *field)
{
    if (field->tag == 0 || field->tag >= TAGS)
        return refuse(reading, CAMPUS_REFUSED_TAG, "no such tag; wanted: 1 to %d", TAGS - 1);
    const struct rule *rule = &rules[field->tag];
    unsigned length = field->length, least = rule->least, most = rule->most;
    if (length >= least && length <= most && (length - least) % rule->step == 0)
        return true;
    if (least == most)
        return refuse(reading, CAMPUS_REFUSED_TAG, "%s of %u octets; wanted: %u", rule->name, length, least);
    return refuse(reading, CAMPUS_REFUSED_TAG, "%s of %u octets; wanted: %u %s %u", rule->name, length, least,
                  most - least == rule->step ? "or" : "to", most);
}

static bool place_good(struct reading *reading, const struct field *field)
{
    const char *name = rules[field->tag].name;
    bool settings = reading->layout == SETTINGS;
    if (settings && !rules[field->tag].of_settings)
        return refuse(reading, CAMPUS_REFUSED_PLACE, "%s, which is no part of settings", name);
    if (settings && field->tag == TAG_SWITCH && reading->switch_count > 0)
        return refuse(reading, CAMPUS_REFUSED_PLACE, "second switch; wanted: one");
    if (reading->entry)
        return refuse(reading, CAMPUS_REFUSED_PLACE, "%s after the entry (tag %d), which is to be last", name,
                      TAG_ENTRY);
    if (rules[field->tag].of_settings && field->tag != TAG_SWITCH && reading->switch_count == 0)
        return refuse(reading, CAMPUS_REFUSED_PLACE, "%s before any switch (tag %d)", name, TAG_SWITCH);
    if (field->tag == TAG_CLOCK && reading->clock)
        return refuse(reading, CAMPUS_REFUSED_PLACE, "second clock; wanted: at most one");
    return true;
}

static bool value_good(struct reading *reading, const struct field *field, const struct part *part)
{
    uint64_t found = number_at(field->value + part->at, part->size);
    bool group = part->value == MAC && found & GROUP_BIT;
    if (!group && found >= values[part->value].least && found <= values[part->value].most)
        return true;
    return refuse(reading, CAMPUS_REFUSED_VALUE, "%s %0*" PRIX64 "%s; wanted: %s", part->name, 2 * part->size, found,
                  group ? " is a group address" : "", values[part->value].wanted);
}

static bool values_good(struct reading *reading, const struct field *field)
{
    for (size_t i = 0; i < sizeof parts / sizeof *parts; i++) {
        bool there = parts[i].tag == field->tag && parts[i].at + parts[i].size <= field->length;
        if (there && !value_good(reading, field, &parts[i]))
            return false;
    }
    return true;
}

/* The text "in field N, line L", or without a line. */
static const char *field_text(const struct reading *reading, const struct field *field)
{
    static char text[48];
    if (reading->octets->text)
        snprintf(text, sizeof text, "in field %u, line %" PRIu32, field->number, reading->octets->line[field->place]);
    else
        snprintf(text, sizeof text, "in field %u", field->number);
    return text;
}

static const struct field *switch_named(const struct reading *reading, uint16_t nickname)
{
    for (unsigned i = 0; i < reading->switch_count; i++) {
        if (staffripple_get16(reading->switches[i].value) == nickname)
            return &reading->switches[i];
    }
    return NULL;
}

static bool take_switch(struct reading *reading, const struct field *field)
{
    uint16_t nickname = staffripple_get16(field->value);
    const struct field *other = switch_named(reading, nickname);
    if (other)
        return refuse(reading, CAMPUS_REFUSED_NICKNAME, "nickname %04X, as the switch %s; wanted: another", nickname,
                      field_text(reading, other));
    if (reading->switch_count == SWITCHES_MOST)
        return refuse(reading, CAMPUS_REFUSED_NUMBER, "%d switches; wanted: at most %d", SWITCHES_MOST + 1,
                      SWITCHES_MOST);
    reading->switches[reading->switch_count++] = *field;
    reading->hop_count = 0;
    return true;
}

static bool take_hop(struct reading *reading, const struct field *field)
{
    uint16_t destination = staffripple_get16(field->value + HOP_DESTINATION);
    uint32_t serial = staffripple_get32(field->value + HOP_SERIAL);
    if (reading->hop_count == HOPS_MOST)
        return refuse(reading, CAMPUS_REFUSED_NUMBER, "%d next hops of one switch; wanted: at most %d", HOPS_MOST + 1,
                      HOPS_MOST);
    for (unsigned i = 0; i < reading->hop_count; i++) {
        const struct field *other = &reading->hops[i];
        if (staffripple_get16(other->value + HOP_DESTINATION) == destination &&
            staffripple_get32(other->value + HOP_SERIAL) == serial)
            return refuse(reading, CAMPUS_REFUSED_SERIAL,
                          "serial %08" PRIX32 " for destination %04X, as the next hop %s; wanted: another", serial,
                          destination, field_text(reading, other));
    }
    reading->hops[reading->hop_count++] = *field;
    return true;
}

static bool take_entry(struct reading *reading, const struct field *field)
{
    uint16_t nickname = staffripple_get16(field->value);
    if (!switch_named(reading, nickname))
        return refuse(reading, CAMPUS_REFUSED_ENTRY, "entry switch %04X; wanted: a switch of the description",
                      nickname);
    reading->entry = true;
    return true;
}

/* Reads a whole field, and keeps what later ones are judged by. */
static bool take_field(struct reading *reading, const struct field *field)
{
    if (!lengths_good(reading, field) || !place_good(reading, field) || !values_good(reading, field))
        return false;
    switch (field->tag) {
    case TAG_SWITCH:
        return take_switch(reading, field);
    case TAG_HOP:
        return take_hop(reading, field);
    case TAG_ENTRY:
        return take_entry(reading, field);
    default:
        reading->clock = reading->clock || field->tag == TAG_CLOCK;
        return true;
    }
}

/* Reads the field at a place and answers where the next one begins, or 0 if it is at fault. */
static size_t next_place(struct reading *reading, size_t place, unsigned number)
{
    const uint8_t *octets = reading->octets->at + place;
    size_t left = reading->octets->length - place;
    struct field field = {place, number, octets[0], 0, octets + FIELD_HEADER};
    *reading->refusal = (struct refusal){.place = place, .field = number, .tag = field.tag};
    if (left < FIELD_HEADER) {
        refuse(reading, CAMPUS_REFUSED_CUT, "%zu octets there; wanted: %d for a tag and a length", left, FIELD_HEADER);
        return 0;
    }
    field.length = staffripple_get16(octets + 1);
    left -= FIELD_HEADER;
    if (field.length > left) {
        refuse(reading, CAMPUS_REFUSED_CUT, "%u octets announced, %zu there", field.length, left);
        return 0;
    }
    return take_field(reading, &field) ? place + FIELD_HEADER + field.length : 0;
}

bool refusal_find(struct refusal *refusal, enum layout layout, const struct octets *octets)
{
    static struct reading reading;
    reading = (struct reading){.layout = layout, .octets = octets, .refusal = refusal};
    *refusal = (struct refusal){.place = OCTETS_MOST};
    if (octets->length > OCTETS_MOST)
        return !refuse(&reading, CAMPUS_REFUSED_LONG, "more octets; wanted: at most %d", OCTETS_MOST);
    size_t place = 0;
    for (unsigned number = 1; place < octets->length; number++) {
        place = next_place(&reading, place, number);
        if (place == 0)
            return true;
    }
    *refusal = (struct refusal){.place = place};
    if (layout == DESCRIPTION && !reading.entry)
        return !refuse(&reading, CAMPUS_REFUSED_PLACE, "no entry (tag %d) at the end", TAG_ENTRY);
    if (layout == SETTINGS && reading.switch_count == 0)
        return !refuse(&reading, CAMPUS_REFUSED_PLACE, "no switch (tag %d)", TAG_SWITCH);
    return false;
}

/* ---- What is said of it ---- */

/* The file with the line or the octet of a place: that of the last octet where the place is behind it. */
static void say_place(const struct octets *octets, size_t place)
{
    if (!octets->text) {
        fprintf(stderr, "%s: octet %zu: ", octets->name, place);
        return;
    }
    size_t last = octets->length ? octets->length - 1 : 0;
    uint32_t line = octets->length ? octets->line[place < last ? place : last] : 1;
    fprintf(stderr, "%s:%" PRIu32 ": ", octets->name, line);
}

void refusal_say(enum layout layout, const struct octets *octets, uint32_t number, const char *meaning)
{
    struct refusal refusal;
    bool found = refusal_find(&refusal, layout, octets) && (layout == SETTINGS || refusal.code == number);
    say_place(octets, found ? refusal.place : 0);
    if (found && refusal.field)
        fprintf(stderr, "field %u (tag %u): ", refusal.field, refusal.tag);
    if (found)
        fprintf(stderr, "%s ", refusal.why);
    fprintf(stderr, "(%" PRIu32 ": %s)\n", number, meaning);
    if (!octets->text && octets->control > 0)
        fprintf(stderr, "%s: read as raw octets, since octet %zu is the control character %02X\n", octets->name,
                octets->control, octets->at[octets->control]);
}
