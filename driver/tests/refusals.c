/*
 * The words for a refusal against the proved calls, on generated descriptions and settings, most of them bad: the first
 * field at fault is found where the call refuses and only there, with the call's own code.
 */
#include "refusal.h"

#include <stdio.h>

enum { TRIALS = 200000, ENOUGH = 100, CODES = 64 };

static unsigned failed;

/* ---- Numbers in a fixed order (xorshift) ---- */

static uint64_t below(uint64_t limit)
{
    static uint64_t state = 0x9E3779B97F4A7C15;
    state ^= state << 13;
    state ^= state >> 7;
    state ^= state << 17;
    return (state >> 11) % limit;
}

static bool rarely(void)
{
    return below(150) == 0;
}

/* ---- Fields, mostly good, with values from both sides of each rule ---- */

static struct octets made;

static void put(uint64_t number, unsigned size)
{
    for (unsigned i = size; i > 0 && made.length < OCTETS_MOST; i--)
        made.at[made.length++] = (uint8_t)(number >> 8 * (i - 1));
}

static void put_header(unsigned tag, unsigned length)
{
    put(rarely() ? below(9) : tag, 1);
    put(rarely() ? below(3 * length + 2) : length, 2);
}

static void put_nickname(uint64_t nickname)
{
    static const uint16_t odd[] = {0x0000, 0xFFBF, 0xFFC0, 0xFFFF};
    put(rarely() ? odd[below(4)] : nickname, 2);
}

static void put_mac(void)
{
    static const uint64_t odd[] = {0, 0x010000000000, 1, 0xFEFFFFFFFFFF, 0xFFFFFFFFFFFF};
    put(rarely() ? odd[below(5)] : 0x020000000000 + below(1 << 16), 6);
}

static void put_vlan(void)
{
    static const uint16_t odd[] = {0x0FFE, 0x0FFF, 0x1000, 0x2005, 0xFFFF};
    put(rarely() ? odd[below(5)] : below(0x0FFF), 2);
}

static void put_switch(uint64_t nickname)
{
    put_header(1, 8);
    put_nickname(nickname);
    put_mac();
}

static void put_hop(uint64_t serial)
{
    bool tagged = below(2) == 0;
    put_header(2, tagged ? 16 : 14);
    put_nickname(1 + below(4));
    put_nickname(below(4));
    put_mac();
    put(rarely() ? below(serial + 4) : serial, 4);
    if (tagged)
        put_vlan();
}

static void put_flag(void)
{
    put_header(3, 1);
    put(rarely() ? below(256) : below(2), 1);
}

static void put_edition(void)
{
    put_header(6, 1);
    put(rarely() ? below(256) : 1 + below(2), 1);
}

static void put_clock(void)
{
    put_header(4, 6);
    put(below(1 << 24), 6);
}

static void put_entry(uint64_t switches)
{
    unsigned length = 2 + (unsigned)below(rarely() ? 2060 : 40);
    put_header(5, length);
    put_nickname(rarely() ? 40 : 1 + below(switches));
    for (unsigned i = 2; i < length; i++)
        put(below(256), 1);
}

/* The fields of a switch: few records as a rule, now and then some about the limit. */
static void put_fields(uint64_t nickname)
{
    uint64_t hops = below(40) == 0 ? 62 + below(5) : below(4);
    put_switch(rarely() ? 1 : nickname);
    for (uint64_t serial = 0; serial < hops; serial++) {
        put_hop(serial);
        if (below(8) == 0)
            put_flag();
        if (below(8) == 0)
            put_edition();
        if (rarely())
            put_clock();
    }
}

/* Changes one octet, or cuts the end off, or leaves all as it is. */
static void spoil(void)
{
    if (made.length > 0 && below(8) == 0)
        made.at[below(made.length)] = (uint8_t)below(256);
    if (below(12) == 0)
        made.length = below(made.length + 1);
    if (below(400) == 0)
        made.length = OCTETS_MOST + 1;
}

static void make_description(void)
{
    uint64_t switches = below(20) == 0 ? 15 + below(4) : 1 + below(3);
    made.length = 0;
    if (rarely())
        put_hop(1);
    if (below(3) == 0)
        put_clock();
    for (uint64_t nickname = 1; nickname <= switches; nickname++)
        put_fields(nickname);
    if (!rarely())
        put_entry(switches);
    if (rarely())
        put_flag();
    if (rarely())
        put_edition();
    spoil();
}

static void make_settings(void)
{
    made.length = 0;
    if (rarely())
        put_flag();
    if (rarely())
        put_edition();
    put_fields(1);
    if (rarely())
        put_switch(2);
    if (below(8) == 0)
        made.at[below(made.length)] = (uint8_t)below(256);
    if (below(12) == 0)
        made.length = below(made.length + 1);
}

/* ---- Trials ---- */

static void result(const char *name, bool good, const char *why)
{
    failed += !good;
    printf(good ? "ok %s\n" : "not ok %s: %s\n", name, why);
}

static void show_made(uint32_t expected, const struct refusal *refusal)
{
    printf("answer %u, found %u %s, octets ", expected, refusal->code, refusal->why);
    for (size_t i = 0; i < made.length; i++)
        printf("%02X", made.at[i]);
    putchar('\n');
}

/* Counts the codes that come up, and answers how often call and words differ. */
static unsigned try_descriptions(unsigned hits[CODES])
{
    static uint8_t trace[CAMPUS_TRACE_MOST];
    unsigned differing = 0;
    for (unsigned trial = 0; trial < TRIALS; trial++) {
        struct refusal refusal;
        make_description();
        uint32_t code = campus_run(made.at, made.length, trace, sizeof trace).code;
        bool found = refusal_find(&refusal, DESCRIPTION, &made);
        hits[code]++;
        if (code != (found ? refusal.code : CAMPUS_RAN) && differing++ < 5)
            show_made(code, &refusal);
    }
    return differing;
}

static unsigned try_settings(unsigned hits[CODES])
{
    static const uint8_t clock[TRILL_CLOCK];
    static uint8_t out[TRILL_OUTPUT_LEAST], beside[TRILL_BESIDE_LEAST];
    unsigned differing = 0;
    for (unsigned trial = 0; trial < TRIALS; trial++) {
        struct refusal refusal;
        make_settings();
        uint32_t number = staffripple_handle(NULL, 0, made.at, made.length, clock, sizeof clock, out, sizeof out,
                                             beside, sizeof beside)
                              .number;
        bool found = refusal_find(&refusal, SETTINGS, &made);
        hits[found ? refusal.code : CAMPUS_RAN]++;
        if ((number == TRILL_REFUSED_SETTINGS) != found && differing++ < 5)
            show_made(number, &refusal);
    }
    return differing;
}

#define BIT(code) (UINT64_C(1) << (code))

/* Whether each code came up often enough, without those that cannot. */
static void judge_hits(const char *kind, const unsigned hits[CODES], uint64_t without)
{
#define CODE(constant, number, meaning) {number, meaning},
    static const struct {
        uint32_t number;
        const char *meaning;
    } codes[] = {CAMPUS_CODES(CODE)};
#undef CODE
    for (size_t i = 0; i < sizeof codes / sizeof *codes; i++) {
        char name[120], why[40];
        if (without & BIT(codes[i].number))
            continue;
        snprintf(name, sizeof name, "%s, %u: %s", kind, codes[i].number, codes[i].meaning);
        snprintf(why, sizeof why, "met %u times", hits[codes[i].number]);
        result(name, hits[codes[i].number] >= ENOUGH, why);
    }
}

int main(void)
{
    unsigned of_descriptions[CODES] = {0}, of_settings[CODES] = {0};
    result("words and call agree on descriptions", try_descriptions(of_descriptions) == 0, "they differ");
    result("words and call agree on settings", try_settings(of_settings) == 0, "they differ");
    /* 49 is of a trace buffer, which has room here; 40, 45 and 48 are of descriptions alone. */
    judge_hits("descriptions", of_descriptions, BIT(49));
    judge_hits("settings", of_settings, BIT(40) | BIT(45) | BIT(48) | BIT(49));
    return failed ? 1 : 0;
}
