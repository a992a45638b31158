#include "walk.h"

#include <inttypes.h>
#include <stddef.h>
#include <stdio.h>
#include <string.h>

#include "fields.h"

/* The switch with this nickname, or count if there is none. */
static unsigned find_switch(const struct walk *walk, uint16_t nickname)
{
    unsigned at = 0;
    while (at < walk->count && walk->nicknames[at] != nickname)
        at++;
    return at;
}

/* Takes a field of an accepted description; those of a switch are put together, since a clock may stand between them.
 */
static void take_field(struct walk *walk, const struct octets *octets, const struct field *field, size_t *used)
{
    if (field->tag == TAG_CLOCK) {
        memcpy(walk->clock, field->value, sizeof walk->clock);
        return;
    }
    if (field->tag == TAG_ENTRY) {
        walk->now.at = find_switch(walk, staffripple_get16(field->value));
        walk->now.length = (size_t)field->length - ENTRY_NICKNAME;
        memcpy(walk->now.frame, field->value + ENTRY_NICKNAME, walk->now.length);
        return;
    }
    if (field->tag == TAG_SWITCH) {
        walk->nicknames[walk->count] = staffripple_get16(field->value);
        walk->rbridges[walk->count++] = (struct rbridge){.settings = walk->settings + *used};
    }
    size_t length = FIELD_HEADER + (size_t)field->length;
    memcpy(walk->settings + *used, octets->at + field->place, length);
    walk->rbridges[walk->count - 1].length += length;
    *used += length;
}

void walk_begin(struct walk *walk, const struct octets *octets)
{
    memset(walk, 0, offsetof(struct walk, rbridges));
    walk->now.at = walk->waiting = 0;
    walk->run = campus_run(octets->at, octets->length, walk->trace, sizeof walk->trace);
    if (walk->run.code != CAMPUS_RAN)
        return;
    struct field field;
    size_t used = 0;
    for (size_t place = 0; field_next(&field, octets->at, octets->length, &place);)
        take_field(walk, octets, &field, &used);
    for (unsigned i = 0; i < walk->count; i++)
        rbridge_prepare(&walk->rbridges[i], walk->rbridges[i].settings, walk->rbridges[i].length);
}

/* Whether the entry says what the hop shows. */
static bool met(const uint8_t *entry, const struct hop *hop)
{
    const struct trill_header *fields = &hop->layout.fields;
    return staffripple_get16(entry) == hop->nickname && entry[2] == hop->reply &&
           entry[3] == hop->handling.answer.number && entry[4] == fields->hop_count &&
           staffripple_get16(entry + 6) == fields->egress;
}

/* Sends a frame to a neighbour, and answers whether that is a switch of the campus. */
static bool send(const struct walk *walk, struct moving *moving, uint16_t neighbour, const uint8_t *frame,
                 size_t length)
{
    moving->at = find_switch(walk, neighbour);
    moving->length = length;
    memcpy(moving->frame, frame, length);
    return moving->at < walk->count;
}

/* Sends a reply, which waits if it stays in the campus; answers whether it does. */
static bool send_reply(struct walk *walk, uint16_t neighbour, const uint8_t *frame, size_t length)
{
    bool stays = walk->waiting < CAMPUS_REPLIES && send(walk, &walk->queue[walk->waiting], neighbour, frame, length);
    walk->replies++;
    walk->waiting += stays;
    return stays;
}

/* Where the frames written go, and which frame is handled next: the one forwarded, or else the reply made first. */
static void move_on(struct walk *walk, struct hop *hop)
{
    const struct handling *handling = &hop->handling;
    const struct trill_answer *answer = &handling->answer;
    bool forwarded = answer->number == TRILL_FORWARDED, stays = false;
    walk->now.at = walk->count;
    if (forwarded)
        stays = send(walk, &walk->now, answer->neighbour, handling->out, answer->written);
    else if (answer->written > 0)
        stays = send_reply(walk, answer->neighbour, handling->out, answer->written);
    hop->left = answer->written > 0 && !stays;
    hop->beside_left =
        answer->beside > 0 && !send_reply(walk, answer->beside_neighbour, handling->beside, answer->beside);
    if (walk->now.at == walk->count && walk->taken < walk->waiting) {
        walk->now = walk->queue[walk->taken++];
        walk->reply = true;
    }
    hop->last = walk->now.at == walk->count;
}

bool walk_next(struct walk *walk, struct hop *hop)
{
    const struct moving *now = &walk->now;
    if (walk->done >= walk->run.count || now->at == walk->count)
        return false;
    *hop = (struct hop){.number = walk->done + 1, .at = now->at, .reply = walk->reply, .length = now->length};
    hop->nickname = walk->nicknames[now->at];
    memcpy(hop->frame, now->frame, now->length);
    layout_read(&hop->layout, hop->frame, hop->length);
    rbridge_handle(&walk->rbridges[hop->at], hop->frame, hop->length, walk->clock, &hop->handling);
    if (!met(walk->trace + CAMPUS_ENTRY * walk->done, hop))
        return false;
    walk->done++;
    move_on(walk, hop);
    return true;
}

bool walk_agrees(const struct walk *walk)
{
    return walk->done == walk->run.count && walk->now.at == walk->count;
}

/* ---- How it ended ---- */

const char *walk_ending(const struct hop *last)
{
    if (last->left)
        return "left";
    switch (last->handling.answer.number) {
    case TRILL_DELIVERED:
        return "delivered";
    case TRILL_HANDED_UP:
        return "handed up";
    case TRILL_ERROR_HEARD:
        return "error heard";
    case TRILL_ECHO_HEARD:
        return "echo reply heard";
    default:
        return "dropped";
    }
}

void walk_ending_words(char text[ENDING_MOST], const struct hop *last)
{
    uint32_t number = last->handling.answer.number;
    const char *ending = walk_ending(last);
    if (last->left)
        snprintf(text, ENDING_MOST, "%s left the campus towards %04X, sent by %04X",
                 last->reply || number != TRILL_FORWARDED ? "reply" : "original", last->handling.answer.neighbour,
                 last->nickname);
    else if (strcmp(ending, "dropped") == 0)
        snprintf(text, ENDING_MOST, "%s dropped with %" PRIu32 ", %s, at %04X", last->reply ? "reply" : "original",
                 number, trill_answer_name(number), last->nickname);
    else
        snprintf(text, ENDING_MOST, "%s at %04X", ending, last->nickname);
}
