/*
 * Runs gone through hop by hop, on generated campuses of both editions: the handlings made again, with the neighbours
 * that they name and the replies that wait, agree with the trace of the campus call, whatever way the run ends.
 */
#include "walk.h"

#include <stdio.h>
#include <string.h>

#include "fields.h"

enum { TRIALS = 200000, ENOUGH = 1000, ENOUGH_REPLIES = 100, NICKNAMES = 6, ENDINGS = 6 };

static unsigned failed;

/* ---- Numbers in a fixed order (xorshift) ---- */

static uint64_t below(uint64_t limit)
{
    static uint64_t state = 0x9E3779B97F4A7C15;
    state ^= state << 13;
    state ^= state >> 7;
    state ^= state << 17;
    return (state >> 11) % limit;
}

/* ---- Campuses: a few switches, whose records name each other, themselves, nobody and switches that are not there ----
 */

static struct octets made;
static enum { EDITION_1, EDITION_2, MIXED, EDITIONS } editions; /* of the campus */

static void put(uint64_t number, unsigned size)
{
    for (unsigned i = size; i > 0; i--)
        octets_add(&made, (uint8_t)(number >> 8 * (i - 1)), 0);
}

static void put_header(unsigned tag, unsigned length)
{
    put(tag, 1);
    put(length, 2);
}

static void put_mac(uint64_t nickname)
{
    put(UINT64_C(0x020000000000) + nickname, 6);
}

/* Serials fall and rise, so that no place is that of the record that rules; MACs are mostly, not always, the
 * neighbour's; half of the records have an outer VLAN, which may be 0. */
static void put_switch(uint64_t nickname)
{
    uint64_t records = below(12), falling = below(2);
    put_header(TAG_SWITCH, SWITCH_LENGTH);
    put(nickname, 2);
    put_mac(nickname);
    for (uint64_t record = 0; record < records; record++) {
        uint64_t neighbour = below(NICKNAMES + 1), tagged = below(2);
        put_header(TAG_HOP, tagged ? HOP_LENGTH_VLAN : HOP_LENGTH);
        put(1 + below(NICKNAMES), 2);
        put(neighbour, 2);
        put_mac(below(8) == 0 || neighbour == 0 ? 1 + below(NICKNAMES) : neighbour);
        put(falling ? 100 - record : record, 4);
        if (tagged)
            put(below(0x0FFF), 2);
    }
    put_header(TAG_FLAG, 1);
    put(below(2), 1);
    if (editions == EDITION_1)
        return;
    put_header(TAG_EDITION, 1);
    put(editions == MIXED ? 1 + below(2) : 2, 1);
}

/* Up to two words, most of them with an alert where a switch of edition 2 reads them. */
static void put_area(uint64_t words)
{
    static const uint32_t flags[] = {0x81000000, 0x81000000, 0x00800000, 0x00800000,
                                     0x81800000, 0,          0x40800020, 0x01000000};
    if (words > 0)
        put(flags[below(8)], 4);
    if (words > 1)
        put(0x41820007, 4);
}

/* An inner frame: an ordinary one, or one to All-Egress-RBridges with an echo, an error, something else or TRILL IS-IS.
 */
static void put_inner(void)
{
    static const uint16_t types[] = {ETHERTYPE_CHANNEL, ETHERTYPE_CHANNEL, ETHERTYPE_CHANNEL, ETHERTYPE_ISIS, 0x0800};
    static const uint16_t protocols[] = {0x0FF8, 0x0FF8, 0x0FF8, 0x0001, 0x0123};
    bool all_egress = below(4) != 0;
    put(all_egress ? UINT64_C(0x0180C2000042) : UINT64_C(0x020000000077), 6);
    put_mac(9);
    put(0x81000001, 4);
    put(all_egress ? types[below(5)] : 0x0800, 2);
    put(protocols[below(5)], 2);
    put(below(4) == 0 ? 0xC000 : 0x4000, 2);
    put(below(4) == 0 ? 0x40000001 : 0x30000001, 4);
    put(0x0200, 2);
    put(0x000001000002, 6);
    put(0, 6);
}

static void put_entry(uint64_t switches)
{
    uint64_t at = 1 + below(switches);
    size_t place = made.length;
    put_header(TAG_ENTRY, 0);
    put(at, 2);
    put_mac(below(30) == 0 ? 99 : at);
    put_mac(9);
    put(ETHERTYPE_TRILL, 2);
    uint64_t words = editions == EDITION_1 ? below(8) / 7 : (below(8) + 1) / 4;
    put(words << 6 | below(12), 2);
    put(1 + below(NICKNAMES), 2);
    put(1 + below(NICKNAMES), 2);
    put_area(words);
    put_inner();
    if (below(10) == 0)
        made.length = place + FIELD_HEADER + ENTRY_NICKNAME + below(40);
    staffripple_put16(made.at + place + 1, (uint16_t)(made.length - place - FIELD_HEADER));
}

static void make_campus(void)
{
    uint64_t switches = 1 + below(NICKNAMES - 1), clock = below(switches);
    made.length = 0;
    editions = below(EDITIONS);
    for (uint64_t nickname = 1; nickname <= switches; nickname++) {
        put_switch(nickname);
        if (nickname - 1 == clock) {
            put_header(TAG_CLOCK, TRILL_CLOCK);
            put(0x000005000006, 6);
        }
    }
    put_entry(switches);
}

/* ---- Trials ---- */

static const char *const endings[ENDINGS] = {"left",        "delivered",        "handed up",
                                             "error heard", "echo reply heard", "dropped"};

static void result(const char *name, bool good)
{
    failed += !good;
    printf(good ? "ok %s\n" : "not ok %s: not so\n", name);
}

/* What runs have met, beside their endings. */
static struct {
    unsigned beside, waited, beside_left, left_before;
} met;

/* Whether the run of the campus made is gone through to its end; counts how it ends, and what it meets. */
static bool goes_through(unsigned hits[ENDINGS])
{
    static struct walk walk;
    static struct hop hop;
    bool beside = false, beside_left = false, left_before = false;
    walk_begin(&walk, &made);
    if (walk.run.code != CAMPUS_RAN)
        return false;
    while (walk_next(&walk, &hop)) {
        beside = beside || hop.handling.answer.beside > 0;
        beside_left = beside_left || hop.beside_left;
        left_before = left_before || (hop.left && !hop.last);
    }
    met.beside += beside;
    met.beside_left += beside_left;
    met.left_before += left_before;
    met.waited += walk.waiting > 1;
    for (unsigned i = 0; i < ENDINGS; i++)
        hits[i] += strcmp(walk_ending(&hop), endings[i]) == 0;
    return walk_agrees(&walk) && hop.last && (beside || walk.replies <= 1);
}

int main(void)
{
    unsigned hits[ENDINGS] = {0}, good = 0;
    for (unsigned trial = 0; trial < TRIALS; trial++) {
        make_campus();
        good += goes_through(hits);
    }
    result("each run is gone through as the trace says", good == TRIALS);
    for (unsigned i = 0; i < ENDINGS; i++) {
        char name[80];
        snprintf(name, sizeof name, "runs that end so were met often enough: %s", endings[i]);
        result(name, hits[i] >= ENOUGH);
    }
    result("runs with a reply beside a forwarded frame were met often enough", met.beside >= ENOUGH_REPLIES);
    result("runs with several replies that wait were met often enough", met.waited >= ENOUGH_REPLIES);
    result("runs with a reply that leaves beside a forwarded frame were met often enough",
           met.beside_left >= ENOUGH_REPLIES);
    result("runs that go on after a frame has left were met often enough", met.left_before >= ENOUGH_REPLIES);
    return failed ? 1 : 0;
}
