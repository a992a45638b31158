/*
 * The text form on generated octets and on texts with characters changed: what is printed reads back to the same
 * octets, whatever they are, and every text that is read is printed so too.
 */
#include "textform.h"

#include <stdio.h>
#include <stdlib.h>
#include <string.h>

#include "program.h"

enum { TRIALS = 40000, TEXT_ROOM = 1 << 18, ENOUGH = 1000 };

static unsigned failed;

/* ---- Numbers in a fixed order (xorshift) ---- */

static uint64_t below(uint64_t limit)
{
    static uint64_t state = 0x9E3779B97F4A7C15;
    state ^= state << 13;
    state ^= state >> 7;
    state ^= state << 17;
    return (state >> 11) % limit;
}

/* ---- Octets: fields of the usual lengths and of others, the last one cut now and then ---- */

static struct octets made, back;

static void put(uint64_t number)
{
    octets_add(&made, (uint8_t)number, 0);
}

static void put_field(void)
{
    static const uint8_t lengths[] = {0, 8, 14, 1, 6, 20, 1};
    uint64_t tag = below(8), length = below(4) == 0 ? below(40) : tag < sizeof lengths ? lengths[tag] : below(5);
    if (tag == 2 && below(2) == 0)
        length = 16;
    put(below(100) == 0 ? below(256) : tag);
    put(length >> 8);
    put(length);
    for (uint64_t i = 0; i < length; i++)
        put(below(3) == 0 ? below(2) : below(256));
}

static void make_octets(void)
{
    made.length = 0;
    for (uint64_t fields = below(12); fields > 0; fields--)
        put_field();
    if (below(5) == 0)
        made.length = below(made.length + 1);
}

/* ---- Trials ---- */

static char text[TEXT_ROOM];

static size_t print_made(void)
{
    FILE *file = fmemopen(text, sizeof text, "w");
    if (!file)
        exit(1);
    textform_print(file, made.at, made.length);
    long length = ftell(file);
    fclose(file);
    return (size_t)length;
}

static bool same_octets(void)
{
    return back.length == made.length && memcmp(back.at, made.at, made.length) == 0;
}

/* Whether what is printed of the octets made reads back to them. */
static bool reads_back(void)
{
    size_t length = print_made();
    return octets_take(&back, "printed", (const uint8_t *)text, length) == EXIT_GOOD && same_octets();
}

static void change(size_t *length)
{
    static const char likely[] = " \n#\"0F:.-aswitchframefieldvlanhex9";
    for (uint64_t changes = 1 + below(3); changes > 0 && *length > 0; changes--) {
        size_t place = below(*length);
        switch (below(3)) {
        case 0:
            text[place] = likely[below(sizeof likely - 1)];
            break;
        case 1:
            memmove(text + place, text + place + 1, --*length - place);
            break;
        default:
            text[place] = (char)(' ' + below(224));
        }
    }
}

/* How often a text is read, of those whose characters are changed; -1 if what is read then does not read back. */
static long try_changed(void)
{
    long good = 0;
    for (unsigned trial = 0; trial < TRIALS; trial++) {
        make_octets();
        size_t length = print_made();
        change(&length);
        if (octets_take(&made, "changed", (const uint8_t *)text, length) != EXIT_GOOD)
            continue;
        good++;
        if (!reads_back())
            return -1;
    }
    return good;
}

static bool try_octets(void)
{
    for (unsigned trial = 0; trial < TRIALS; trial++) {
        make_octets();
        if (!reads_back()) {
            printf("does not read back:\n%s\n", text);
            return false;
        }
    }
    return true;
}

static void result(const char *name, bool good)
{
    failed += !good;
    printf(good ? "ok %s\n" : "not ok %s: see above\n", name);
}

int main(void)
{
    if (!freopen("/dev/null", "w", stderr)) /* faults are meant to be met */
        return 1;
    result("octets as text read back", try_octets());
    long good = try_changed();
    result("changed texts that are read, read back", good >= 0);
    result("changed texts: some are read, and some are not", good >= ENOUGH && good <= TRIALS - ENOUGH);
    return failed ? 1 : 0;
}
