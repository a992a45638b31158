/*
 * The cases of documents 01 and 02 through the header: each answer, and each octet lent, is compared. Octets are in hex
 * as document 01 prints them. A line for each case, then the counts.
 */
#include "staffripple.h"

#include <pthread.h>
#include <stdarg.h>
#include <stdbool.h>
#include <stdio.h>
#include <stdlib.h>
#include <string.h>

enum { GUARD = 64, ROOM_MOST = CAMPUS_TEXT_MOST, BESIDE_MOST = 1024, OCTETS_MOST = CAMPUS_TRACE_MOST };

static unsigned passed, failed;

/* ---- Octets in hex ---- */

struct octets {
    uint8_t at[OCTETS_MOST];
    size_t length;
};

static unsigned digit(char character)
{
    const char *digits = "0123456789ABCDEF", *found = strchr(digits, character);
    if (!character || !found) {
        fprintf(stderr, "'%c' in a case is no hex digit\n", character);
        exit(2);
    }
    return (unsigned)(found - digits);
}

static void add_hex(struct octets *octets, const char *hex)
{
    for (; *hex; hex++) {
        if (*hex == ' ')
            continue;
        octets->at[octets->length++] = (uint8_t)(digit(hex[0]) << 4 | digit(hex[1]));
        hex++;
    }
}

static struct octets from_hex(const char *hex)
{
    struct octets octets = {.length = 0};
    add_hex(&octets, hex);
    return octets;
}

/* ---- Results ---- */

__attribute__((format(printf, 3, 4))) static void result(const char *name, bool good, const char *format, ...)
{
    va_list arguments;
    if (good) {
        passed++;
        printf("ok %s\n", name);
        return;
    }
    failed++;
    printf("not ok %s: ", name);
    va_start(arguments, format);
    vprintf(format, arguments);
    va_end(arguments);
    putchar('\n');
}

/* ---- Two lent buffers over a pattern, with guards on both sides ---- */

static uint8_t lent[GUARD + ROOM_MOST + GUARD], lent_beside[GUARD + BESIDE_MOST + GUARD];
static uint8_t *const beside = lent_beside + GUARD;

static uint8_t pattern(size_t place)
{
    return (uint8_t)(place * 7 + place / 251 + 0x5A);
}

/* Lends both anew; the second one is `beside`. */
static uint8_t *lend(void)
{
    for (size_t place = 0; place < sizeof lent; place++)
        lent[place] = pattern(place);
    for (size_t place = 0; place < sizeof lent_beside; place++)
        lent_beside[place] = pattern(place);
    return lent + GUARD;
}

/* The first place, seen from the buffer's start, that holds neither what was to be written nor the pattern. */
static bool buffer_good(const uint8_t *buffer, size_t size, const uint8_t *written, size_t length, long *where)
{
    for (size_t place = 0; place < size; place++) {
        bool within = place >= GUARD && place - GUARD < length;
        if (buffer[place] != (within ? written[place - GUARD] : pattern(place))) {
            *where = (long)place - GUARD;
            return false;
        }
    }
    return true;
}

static bool beside_good(const struct octets *reply, long *where)
{
    return buffer_good(lent_beside, sizeof lent_beside, reply->at, reply->length, where);
}

/* The same of a call that writes to the first one alone. */
static bool lent_good(const uint8_t *written, size_t length, long *where)
{
    static const struct octets nothing;
    return buffer_good(lent, sizeof lent, written, length, where) && beside_good(&nothing, where);
}

/* ---- One frame at one switch ---- */

/* Switch 0x0001, which reaches 0x0009 over 0x0005, without and with the strip flag. */
#define SWITCH "01 0008 0001 020000000001 "
#define PLAIN SWITCH "02 000E 0009 0005 020000000005 00000001 "
#define STRIP PLAIN "03 0001 01 "

/* A frame received and a frame sent, up to the TRILL header; an ordinary inner frame of 20 octets. */
#define RECEIVED "020000000001 020000000002 22F3 "
#define SENT "020000000005 020000000001 22F3 "
#define INNER_IN(vlan) "020000000077 020000000088 8100 " vlan " 0800 4500 "
#define INNER INNER_IN("0005")
#define NOTHING ""

#define ZEROS_10 "00000000000000000000 "
#define ZEROS_118                                                                                      \
    ZEROS_10 ZEROS_10 ZEROS_10 ZEROS_10 ZEROS_10 ZEROS_10 ZEROS_10 ZEROS_10 ZEROS_10 ZEROS_10 ZEROS_10 \
        "0000000000000000 "

/* C12: records for 0x0009. */
#define LIVE_7 "02 000E 0009 0007 020000000007 00000007 "
#define LIVE_8 "02 000E 0009 0008 020000000008 00000008 "
#define WITHDRAWN_8 "02 000E 0009 0000 020000000008 00000008 "
#define FRAME_C12 RECEIVED "0005 0009 0004 " INNER
#define SENT_C12 "020000000001 22F3 0004 0009 0004 " INNER

/* T-01: records for 0x0009 with an outer VLAN, and the link headers received and sent with a tag. */
#define HOP_VLAN(serial, vlan) "02 0010 0009 0005 020000000005 000000" serial " " vlan " "
#define OVER(vlan) SWITCH HOP_VLAN("01", vlan)
#define RECEIVED_TAGGED "020000000001 020000000002 8100 E064 22F3 "
#define SENT_TAGGED(vlan) "020000000005 020000000001 8100 " vlan " 22F3 "

/* Channel messages from 0x0009 to 0x0001, and an echo body. */
#define CHANNEL_IN RECEIVED "0005 0001 0009 0180C2000042 020000000009 8100 0001 "
#define CHANNEL CHANNEL_IN "8946 "
#define REPLY_REST "003F 0009 0001 0180C2000042 020000000001 8100 0001 8946 "
#define REPLY SENT REPLY_REST
#define TIMES_SENT "000001000002 000000000000 "
#define TIMES_ANSWERED "000001000002 000001000009 "

/* T-09: the switch in edition 2, which reaches 0x0004 over 0x0006; channel messages from 0x0004, an echo request among
 * them; and replies to 0x0004. */
#define RETURN "02 000E 0004 0006 020000000006 00000001 "
#define EDITION(value) "06 0001 " value " "
#define FLAGS PLAIN RETURN EDITION("02")
#define MESSAGE "0180C2000042 020000000004 8100 0001 8946 "
#define ECHO_OF(spid, mode) MESSAGE "0FF8 4000 " spid "0000001 " mode " 00 " TIMES_SENT
#define ECHO ECHO_OF("3", "02")
#define UNKNOWN MESSAGE "0004 4000 "
#define RETURNED "020000000006 020000000001 22F3 003F 0004 0001 0180C2000042 020000000001 8100 0001 8946 "
#define ECHO_RETURNED RETURNED "0FF8 C000 40000001 02 00 " TIMES_ANSWERED
#define ERROR_RETURNED(area) RETURNED "0001 C005 22F3 0045 0009 0004 " area " " UNKNOWN

/* The frame with one word of header extension, in transit, at the egress, and forwarded. */
#define TRANSIT(area) RECEIVED "0045 0009 0004 " area " "
#define EGRESS(area) RECEIVED "0045 0001 0004 " area " "
#define PASSED(area) SENT "0044 0009 0004 " area " "

#define CLOCK "000001000009"

struct handling {
    const char *name, *settings, *frame;
    struct trill_answer answer; /* without what is written */
    const char *written, *beside;
};

/* What is written goes to the neighbour whose nickname its DA ends in, as all MACs here do. */
#define BARE(number, start, length)       \
    {                                     \
        number, 0, start, length, 0, 0, 0 \
    }
#define DROPPED(number) BARE(number, 0, 0), NOTHING, NOTHING
#define ILL_FORMED(number, place) BARE(number, place, 0), NOTHING, NOTHING
#define DELIVERED(number, start, length) BARE(number, start, length), NOTHING, NOTHING
#define WRITTEN(number, octets) BARE(number, 0, 0), octets, NOTHING
#define WRITTEN_BOTH(octets, reply) BARE(TRILL_FORWARDED, 0, 0), octets, reply

static const struct handling handlings[] = {
    {"C1 the reply", "01 0008 0003 020000000003 02 000E 0001 0002 020000000002 00000001",
     "020000000003 020000000002 22F3 0004 0003 0001 0180C2000042 020000000001 8100 0001 8946 0FF8 4000 "
     "30000001 02 00 000001000002 000000000000",
     WRITTEN(TRILL_ECHO_REPLY, "020000000002 020000000003 22F3 003F 0001 0003 0180C2000042 020000000003 8100 0001 8946 "
                               "0FF8 C000 40000001 02 00 000001000002 000001000009")},
    {"C2 hop 0 at the egress", PLAIN, RECEIVED "0000 0001 0004 " INNER, DROPPED(TRILL_DROP_HOP_COUNT)},
    {"C2 hop 0 in transit", PLAIN, RECEIVED "0000 0009 0004 " INNER, DROPPED(TRILL_DROP_HOP_COUNT)},
    {"C3 hop 1 at the egress", PLAIN, RECEIVED "0001 0001 0004 " INNER, DELIVERED(TRILL_DELIVERED, 20, 20)},
    {"C3 hop 1 in transit", PLAIN, RECEIVED "0001 0009 0004 " INNER,
     WRITTEN(TRILL_FORWARDED, SENT "0000 0009 0004 " INNER)},
    {"C4 Length 118 in 31 words", PLAIN, RECEIVED "07C5 0001 0004 00000000 45F6 " ZEROS_118 INNER,
     DELIVERED(TRILL_DELIVERED, 144, 20)},
    {"C5 Length 119 in 31 words", PLAIN, RECEIVED "07C5 0001 0004 00000000 45F7 " ZEROS_118 INNER,
     ILL_FORMED(TRILL_DROP_OPTION_RESERVED, 4)},
    {"C6 Length 2 in 4 octets", PLAIN, RECEIVED "0085 0001 0004 00000000 4582AAAA " INNER,
     DELIVERED(TRILL_DELIVERED, 28, 20)},
    {"C6 Length 2 in 8", PLAIN, RECEIVED "00C5 0001 0004 00000000 4582AAAA 00000000 " INNER,
     ILL_FORMED(TRILL_DROP_OPTION_BELOW, 8)},
    {"C6 Length 3 in 4", PLAIN, RECEIVED "0085 0001 0004 00000000 4583AAAA " INNER,
     ILL_FORMED(TRILL_DROP_OPTION_PAST, 4)},
    {"C6 Length 3 in 8", PLAIN, RECEIVED "00C5 0001 0004 00000000 4583AAAA AA000000 " INNER,
     DELIVERED(TRILL_DELIVERED, 32, 20)},
    {"C6 Length 3 in 12", PLAIN, RECEIVED "0105 0001 0004 00000000 4583AAAA AA000000 00000000 " INNER,
     ILL_FORMED(TRILL_DROP_OPTION_BELOW, 12)},
    {"C6 Length 6 in 8", PLAIN, RECEIVED "00C5 0001 0004 00000000 4586AAAA AAAAAAAA " INNER,
     DELIVERED(TRILL_DELIVERED, 32, 20)},
    {"C6 Length 6 in 12", PLAIN, RECEIVED "0105 0001 0004 00000000 4586AAAA AAAAAAAA 00000000 " INNER,
     ILL_FORMED(TRILL_DROP_OPTION_BELOW, 12)},
    {"C6 Length 7 in 8", PLAIN, RECEIVED "00C5 0001 0004 00000000 4587AAAA AAAAAAAA " INNER,
     ILL_FORMED(TRILL_DROP_OPTION_PAST, 4)},
    {"C6 Length 7 in 12", PLAIN, RECEIVED "0105 0001 0004 00000000 4587AAAA AAAAAAAA AA000000 " INNER,
     DELIVERED(TRILL_DELIVERED, 36, 20)},
    {"C7 stripped", STRIP, RECEIVED "0105 0009 0004 00000000 41820007 4583AABB CC000000 " INNER,
     WRITTEN(TRILL_FORWARDED, SENT "0084 0009 0004 00000000 41820007 " INNER)},
    {"C7 an immutable option stays", STRIP, RECEIVED "0105 0009 0004 00000000 41820007 4503AABB CC0000EE " INNER,
     WRITTEN(TRILL_FORWARDED, SENT "0104 0009 0004 00000000 41820007 4503AABB CC0000EE " INNER)},
    {"C7 without the flag", PLAIN, RECEIVED "0105 0009 0004 00000000 41820007 4583AABB CC000000 " INNER,
     WRITTEN(TRILL_FORWARDED, SENT "0104 0009 0004 00000000 41820007 4583AABB CC000000 " INNER)},
    {"T-03 a Flow ID of Length 5 goes", STRIP, RECEIVED "00C5 0009 0004 00000000 4185AABB CCDDEE00 " INNER,
     WRITTEN(TRILL_FORWARDED, SENT "0044 0009 0004 00000000 " INNER)},
    {"T-03 Type 0x01 with MT 0 stays", STRIP, RECEIVED "00C5 0009 0004 00000000 4105AABB CCDDEE00 " INNER,
     WRITTEN(TRILL_FORWARDED, SENT "00C4 0009 0004 00000000 4105AABB CCDDEE00 " INNER)},
    {"C8 rising keys", PLAIN, RECEIVED "00C5 0001 0004 00000000 41820007 45820008 " INNER,
     DELIVERED(TRILL_DELIVERED, 32, 20)},
    {"C8 equal keys", PLAIN, RECEIVED "00C5 0001 0004 00000000 41820007 41820008 " INNER,
     ILL_FORMED(TRILL_DROP_OPTION_EQUAL, 8)},
    {"C8 falling keys", PLAIN, RECEIVED "00C5 0001 0004 00000000 45820007 41820008 " INNER,
     ILL_FORMED(TRILL_DROP_OPTION_BELOW, 8)},
    {"C9 VLAN 0", PLAIN, RECEIVED "0005 0001 0004 " INNER_IN("0000"), DROPPED(TRILL_DROP_INNER_TAG)},
    {"C9 VLAN 1", PLAIN, RECEIVED "0005 0001 0004 " INNER_IN("0001"), DELIVERED(TRILL_DELIVERED, 20, 20)},
    {"C9 VLAN 4,094", PLAIN, RECEIVED "0005 0001 0004 " INNER_IN("0FFE"), DELIVERED(TRILL_DELIVERED, 20, 20)},
    {"C9 VLAN 4,095", PLAIN, RECEIVED "0005 0001 0004 " INNER_IN("0FFF"), DROPPED(TRILL_DROP_INNER_TAG)},
    {"C12 serial 7", SWITCH LIVE_7, FRAME_C12, WRITTEN(TRILL_FORWARDED, "020000000007 " SENT_C12)},
    {"C12 serial 7, then withdrawn", SWITCH LIVE_7 WITHDRAWN_8, FRAME_C12, DROPPED(TRILL_DROP_NO_NEXT_HOP)},
    {"C12 withdrawn, then serial 7", SWITCH WITHDRAWN_8 LIVE_7, FRAME_C12, DROPPED(TRILL_DROP_NO_NEXT_HOP)},
    {"C12 serials 7 and 8", SWITCH LIVE_7 LIVE_8, FRAME_C12, WRITTEN(TRILL_FORWARDED, "020000000008 " SENT_C12)},
    {"C12 serials 8 and 7", SWITCH LIVE_8 LIVE_7, FRAME_C12, WRITTEN(TRILL_FORWARDED, "020000000008 " SENT_C12)},
    {"C12 serial 8 twice", SWITCH LIVE_8 WITHDRAWN_8, FRAME_C12, DROPPED(TRILL_REFUSED_SETTINGS)},

    {"T-02 CHbH missing", PLAIN, RECEIVED "0085 0009 0004 00000000 00000000 " INNER, DROPPED(TRILL_DROP_CHBH_MISSING)},
    {"T-02 CItE missing", PLAIN, RECEIVED "0085 0009 0004 00000000 80000000 " INNER, DROPPED(TRILL_DROP_CITE_MISSING)},
    {"T-02 CHbH missing, then a reserved Length", PLAIN, RECEIVED "00C5 0009 0004 00000000 00000000 457F0000 " INNER,
     ILL_FORMED(TRILL_DROP_OPTION_RESERVED, 8)},

    /* Each other number of the header, and a tag in front. */
    {"answer 10", PLAIN, RECEIVED "0005 0001 00", DROPPED(TRILL_DROP_SHORT)},
    {"answer 11", PLAIN, "020000000001 020000000002 0800", DROPPED(TRILL_DROP_ETHERTYPE)},
    {"answer 12", PLAIN, "020000000003 020000000002 22F3 0005 0001 0004 " INNER, DROPPED(TRILL_DROP_OUTER_DA)},
    {"answer 13", PLAIN, RECEIVED "4005 0001 0004 " INNER, DROPPED(TRILL_DROP_VERSION)},
    {"answer 14", PLAIN, RECEIVED "0805 0001 0004 " INNER, DROPPED(TRILL_DROP_MULTI)},
    {"answer 15", PLAIN, RECEIVED "0005 0001 FFC0 " INNER, DROPPED(TRILL_DROP_INGRESS)},
    {"answer 16", PLAIN, RECEIVED "0005 FFC1 0004 " INNER, DROPPED(TRILL_DROP_EGRESS)},
    {"answer 18", PLAIN, RECEIVED "0085 0001 0004 00000000 418200", DROPPED(TRILL_DROP_OPTIONS_PAST)},
    {"answer 20", PLAIN, RECEIVED "0045 0001 0004 40000000 " INNER, DROPPED(TRILL_DROP_CRITICAL)},
    {"answer 22", PLAIN, RECEIVED "0005 0001 0004 020000000077", DROPPED(TRILL_DROP_INNER_SHORT)},
    {"answer 24", PLAIN, RECEIVED "0005 FFC0 0004 " INNER, DROPPED(TRILL_DROP_INNER_DA)},
    {"answer 25", PLAIN, CHANNEL "0004 8000", DROPPED(TRILL_DROP_CHANNEL_FAULT)},
    {"answer 26", PLAIN, CHANNEL "0FF8 4001", DROPPED(TRILL_DROP_CHANNEL_ERR)},
    {"answer 27", PLAIN, CHANNEL "0FF8 4000 30000001", DROPPED(TRILL_DROP_ECHO_BODY)},
    {"answer 28", PLAIN, CHANNEL "0FF8 4000 30000001 01 00 " TIMES_SENT, DROPPED(TRILL_DROP_ECHO_UNANSWERED)},
    {"answer 52", PLAIN, CHANNEL_IN "22F4 83", DELIVERED(TRILL_HANDED_UP, 20, 19)},
    {"answer 53", PLAIN, CHANNEL "0004 4000",
     WRITTEN(TRILL_ERROR_REPLY,
             REPLY "0001 C005 22F3 0005 0001 0009 0180C2000042 020000000009 8100 0001 8946 0004 4000")},
    {"answer 54", PLAIN, CHANNEL "0FF8 4000 30000001 02 00 " TIMES_SENT "AABBCC",
     WRITTEN(TRILL_ECHO_REPLY, REPLY "0FF8 C000 40000001 02 00 " TIMES_ANSWERED "AABBCC")},
    {"answer 55", PLAIN, CHANNEL "0001 C005 22F3", DROPPED(TRILL_ERROR_HEARD)},
    {"answer 56", PLAIN, CHANNEL "0FF8 C000 40000001 02 00 " TIMES_ANSWERED, DROPPED(TRILL_ECHO_HEARD)},
    {"a tagged frame is forwarded untagged", PLAIN, "020000000001 020000000002 8100 0064 22F3 0001 0009 0004 " INNER,
     WRITTEN(TRILL_FORWARDED, SENT "0000 0009 0004 " INNER)},

    {"T-01 VLAN 1", OVER("0001"), FRAME_C12, WRITTEN(TRILL_FORWARDED, SENT_TAGGED("0001") "0004 0009 0004 " INNER)},
    {"T-01 VLAN 4,094, a tagged frame", OVER("0FFE"), RECEIVED_TAGGED "0005 0009 0004 " INNER,
     WRITTEN(TRILL_FORWARDED, SENT_TAGGED("0FFE") "0004 0009 0004 " INNER)},
    {"T-01 VLAN 0 in 16 octets", OVER("0000"), FRAME_C12, WRITTEN(TRILL_FORWARDED, SENT "0004 0009 0004 " INNER)},
    {"T-01 VLAN 4,095", OVER("0FFF"), FRAME_C12, DROPPED(TRILL_REFUSED_SETTINGS)},
    {"T-01 VLAN 5 with a priority", OVER("2005"), FRAME_C12, DROPPED(TRILL_REFUSED_SETTINGS)},
    {"T-01 VLAN 4,095 in a withdrawal", SWITCH "02 0010 0009 0000 020000000005 00000001 0FFF", FRAME_C12,
     DROPPED(TRILL_REFUSED_SETTINGS)},
    {"T-01 a record of 15 octets", SWITCH "02 000F 0009 0005 020000000005 00000001 00", FRAME_C12,
     DROPPED(TRILL_REFUSED_SETTINGS)},
    {"T-01 VLAN 5, then serial 8 with none", SWITCH HOP_VLAN("07", "0005") HOP_VLAN("08", "0000"), FRAME_C12,
     WRITTEN(TRILL_FORWARDED, SENT "0004 0009 0004 " INNER)},
    {"T-01 serial 8 with none, then VLAN 5", SWITCH HOP_VLAN("08", "0000") HOP_VLAN("07", "0005"), FRAME_C12,
     WRITTEN(TRILL_FORWARDED, SENT "0004 0009 0004 " INNER)},
    {"T-01 serial 1 in 14 octets, then VLAN 5", PLAIN HOP_VLAN("02", "0005"), FRAME_C12,
     WRITTEN(TRILL_FORWARDED, SENT_TAGGED("0005") "0004 0009 0004 " INNER)},

    {"T-09 1, CRCAF, echo, transit", FLAGS, TRANSIT("81000000") ECHO,
     WRITTEN_BOTH(PASSED("81000000") ECHO, ECHO_RETURNED)},
    {"T-09 1, CRCAF, echo, egress", FLAGS, EGRESS("81000000") ECHO, WRITTEN(TRILL_ECHO_REPLY, ECHO_RETURNED)},
    {"T-09 2, NCCAF, echo, transit", FLAGS, TRANSIT("00800000") ECHO,
     WRITTEN_BOTH(PASSED("00800000") ECHO, ECHO_RETURNED)},
    {"T-09 3, CRCAF without CRHbH, transit", FLAGS, TRANSIT("01000000") ECHO, DROPPED(TRILL_DROP_FLAGS)},
    {"T-09 3, CRCAF without CRHbH, egress", FLAGS, EGRESS("01000000") ECHO, DROPPED(TRILL_DROP_FLAGS)},
    {"T-09 4, CRHbH alone in one word, transit", FLAGS, TRANSIT("80000000") INNER, DROPPED(TRILL_DROP_FLAGS)},
    {"T-09 4, CRHbH alone in one word, egress", FLAGS, EGRESS("80000000") INNER, DROPPED(TRILL_DROP_FLAGS)},
    {"T-09 4, CRHbH alone in two words, transit", FLAGS, RECEIVED "0085 0009 0004 80000000 01020304 " INNER,
     DROPPED(TRILL_DROP_CRITICAL)},
    {"T-09 4, CRHbH alone in two words, egress", FLAGS, RECEIVED "0085 0001 0004 80000000 01020304 " INNER,
     DROPPED(TRILL_DROP_CRITICAL)},
    {"T-09 5, CRItE alone in two words, transit", FLAGS, RECEIVED "0085 0009 0004 40000000 01020304 " INNER,
     WRITTEN(TRILL_FORWARDED, SENT "0084 0009 0004 40000000 01020304 " INNER)},
    {"T-09 5, CRItE alone in two words, egress", FLAGS, RECEIVED "0085 0001 0004 40000000 01020304 " INNER,
     DROPPED(TRILL_DROP_CRITICAL)},
    {"T-09 6, CRCAF, unknown protocol", FLAGS, TRANSIT("81000000") UNKNOWN,
     WRITTEN(TRILL_ERROR_REPLY, ERROR_RETURNED("81000000"))},
    {"T-09 6, CRCAF, unknown protocol, silent", FLAGS, TRANSIT("81000000") MESSAGE "0004 8000",
     DROPPED(TRILL_DROP_CHANNEL_FAULT)},
    {"T-09 7, NCCAF, unknown protocol", FLAGS, TRANSIT("00800000") UNKNOWN,
     WRITTEN(TRILL_FORWARDED, PASSED("00800000") UNKNOWN)},
    {"T-09 8, CRCAF and NCCAF, unknown protocol", FLAGS, TRANSIT("81800000") UNKNOWN,
     WRITTEN(TRILL_ERROR_REPLY, ERROR_RETURNED("81800000"))},
    {"T-09 9, CRCAF, ERR 1", FLAGS, TRANSIT("81000000") MESSAGE "0FF8 4001", DROPPED(TRILL_DROP_CHANNEL_ERR)},
    {"T-09 9, NCCAF, ERR 1", FLAGS, TRANSIT("00800000") MESSAGE "0FF8 4001",
     WRITTEN(TRILL_FORWARDED, PASSED("00800000") MESSAGE "0FF8 4001")},
    {"T-09 10, CRCAF, data, transit", FLAGS, TRANSIT("81000000") INNER,
     WRITTEN(TRILL_FORWARDED, PASSED("81000000") INNER)},
    {"T-09 10, CRCAF, data, egress", FLAGS, EGRESS("81000000") INNER, DELIVERED(TRILL_DELIVERED, 24, 20)},
    {"T-09 11, an unknown critical flag", FLAGS, TRANSIT("90000000") INNER, DROPPED(TRILL_DROP_CRITICAL)},
    {"T-09 12, the same beside CRCAF", FLAGS, TRANSIT("83000000") ECHO, DROPPED(TRILL_DROP_CRITICAL)},
    {"T-09 13, CRRsv and its flag, transit", FLAGS, TRANSIT("20020000") INNER,
     WRITTEN(TRILL_FORWARDED, PASSED("20020000") INNER)},
    {"T-09 13, CRRsv and its flag, egress", FLAGS, EGRESS("20020000") INNER, DELIVERED(TRILL_DELIVERED, 24, 20)},
    {"T-09 14, CRItE and its flag, transit", FLAGS, TRANSIT("40000020") ECHO,
     WRITTEN(TRILL_FORWARDED, PASSED("40000020") ECHO)},
    {"T-09 14, the same with NCCAF, transit", FLAGS, TRANSIT("40800020") ECHO,
     WRITTEN(TRILL_FORWARDED, PASSED("40800020") ECHO)},
    {"T-09 14, the same with NCCAF, egress", FLAGS, EGRESS("40800020") ECHO, DROPPED(TRILL_DROP_CRITICAL)},
    {"T-09 15, CRCAF, an echo reply", FLAGS, TRANSIT("81000000") ECHO_OF("4", "02"),
     WRITTEN(TRILL_FORWARDED, PASSED("81000000") ECHO_OF("4", "02"))},
    {"T-09 15, CRCAF, mode 1", FLAGS, TRANSIT("81000000") ECHO_OF("3", "01"),
     WRITTEN(TRILL_FORWARDED, PASSED("81000000") ECHO_OF("3", "01"))},
    {"T-09 16, CRCAF in three words, echo", FLAGS, RECEIVED "00C5 0009 0004 81000000 01020304 45830000 " ECHO,
     WRITTEN_BOTH(SENT "00C4 0009 0004 81000000 01020304 45830000 " ECHO, ECHO_RETURNED)},
    {"T-09 16, the same with the strip flag", FLAGS "03 0001 01",
     RECEIVED "00C5 0009 0004 81000000 01020304 45830000 " ECHO,
     WRITTEN_BOTH(SENT "00C4 0009 0004 81000000 01020304 45830000 " ECHO, ECHO_RETURNED)},
    {"T-09 17, no header extension, transit", FLAGS, RECEIVED "0005 0009 0004 " ECHO,
     WRITTEN(TRILL_FORWARDED, SENT "0004 0009 0004 " ECHO)},
    {"T-09 17, no header extension, egress", FLAGS, RECEIVED "0005 0001 0004 " INNER,
     DELIVERED(TRILL_DELIVERED, 20, 20)},
    {"T-09 no return path", PLAIN EDITION("02"), TRANSIT("81000000") ECHO,
     WRITTEN(TRILL_FORWARDED, PASSED("81000000") ECHO)},
    {"T-09 no next hop", SWITCH RETURN EDITION("02"), TRANSIT("81000000") UNKNOWN, DROPPED(TRILL_DROP_NO_NEXT_HOP)},
    {"T-09 20, edition 2, then 1", FLAGS EDITION("01"), TRANSIT("81000000") ECHO, DROPPED(TRILL_DROP_CRITICAL)},
    {"T-09 20, edition 1, then 2", PLAIN EDITION("01") RETURN EDITION("02"), TRANSIT("81000000") ECHO,
     WRITTEN_BOTH(PASSED("81000000") ECHO, ECHO_RETURNED)},
    {"T-09 20, edition 3", PLAIN EDITION("03"), FRAME_C12, DROPPED(TRILL_REFUSED_SETTINGS)},
    {"T-09 20, edition 0", PLAIN EDITION("00"), FRAME_C12, DROPPED(TRILL_REFUSED_SETTINGS)},
    {"T-09 20, edition before the switch", EDITION("02") PLAIN, FRAME_C12, DROPPED(TRILL_REFUSED_SETTINGS)},
    {"T-09 20, edition in two octets", PLAIN "06 0002 0002", FRAME_C12, DROPPED(TRILL_REFUSED_SETTINGS)},
};

/* T-01: long frames. Behind the octets given, received and sent go on with the same octets, up to their lengths. */
static const struct {
    const char *name, *settings, *received;
    size_t size;
    uint16_t number;
    const char *sent;
    size_t written;
} long_handlings[] = {
    {"T-01 2,044 octets, VLAN 5", OVER("0005"), RECEIVED "0005 0009 0004", 2044, TRILL_FORWARDED,
     SENT_TAGGED("0005") "0004 0009 0004", 2048},
    {"T-01 2,045 octets, VLAN 5", OVER("0005"), RECEIVED "0005 0009 0004", 2045, TRILL_DROP_FORWARDED_LONG, NOTHING, 0},
    {"T-01 2,048 octets, VLAN 5", OVER("0005"), RECEIVED "0005 0009 0004", 2048, TRILL_DROP_FORWARDED_LONG, NOTHING, 0},
    {"T-01 2,049 octets, VLAN 5", OVER("0005"), RECEIVED "0005 0009 0004", 2049, TRILL_REFUSED_FRAME, NOTHING, 0},
    {"T-01 2,048 octets, VLAN 0", OVER("0000"), RECEIVED "0005 0009 0004", 2048, TRILL_FORWARDED, SENT "0004 0009 0004",
     2048},
    {"T-01 2,048 octets tagged, VLAN 5", OVER("0005"), RECEIVED_TAGGED "0005 0009 0004", 2048, TRILL_FORWARDED,
     SENT_TAGGED("0005") "0004 0009 0004", 2048},
    {"T-01 2,048 octets tagged, VLAN 0", OVER("0000"), RECEIVED_TAGGED "0005 0009 0004", 2048, TRILL_FORWARDED,
     SENT "0004 0009 0004", 2044},
    {"T-01 2,048 octets, VLAN 5, 8 stripped", OVER("0005") "03 0001 01",
     RECEIVED "00C5 0009 0004 00000000 45860000 00000000", 2048, TRILL_FORWARDED,
     SENT_TAGGED("0005") "0044 0009 0004 00000000", 2044},
    {"T-01 2,048 octets, VLAN 5, without the flag", OVER("0005"), RECEIVED "00C5 0009 0004 00000000 45860000 00000000",
     2048, TRILL_DROP_FORWARDED_LONG, NOTHING, 0},
    {"T-01 2,048 octets, VLAN 5, an option that stays", OVER("0005") "03 0001 01",
     RECEIVED "0085 0009 0004 00000000 41820007", 2048, TRILL_DROP_FORWARDED_LONG, NOTHING, 0},
    {"T-01 2,048 octets, VLAN 5, no next hop", OVER("0005"), RECEIVED "0005 0008 0004", 2048, TRILL_DROP_NO_NEXT_HOP,
     NOTHING, 0},
    {"T-01 the longest echo reply", OVER("0FFE"), CHANNEL "0FF8 4000 30000001 02 00 " TIMES_SENT, 572, TRILL_ECHO_REPLY,
     SENT_TAGGED("0FFE") REPLY_REST "0FF8 C000 40000001 02 00 " TIMES_ANSWERED, 576},
    {"T-01 the longest error reply", OVER("0FFE"), CHANNEL "0004 4000", 572, TRILL_ERROR_REPLY,
     SENT_TAGGED("0FFE") REPLY_REST "0001 C005 22F3 0005 0001 0009 0180C2000042 020000000009 8100 0001 8946 0004 4000",
     174},
};

static bool same_answer(struct trill_answer left, struct trill_answer right)
{
    return left.number == right.number && left.written == right.written && left.start == right.start &&
           left.length == right.length && left.neighbour == right.neighbour && left.beside == right.beside &&
           left.beside_neighbour == right.beside_neighbour;
}

/* An answer with what is written, and to whom. */
static struct trill_answer with_written(struct trill_answer answer, const struct octets *written,
                                        const struct octets *reply)
{
    answer.written = (uint16_t)written->length;
    answer.neighbour = written->length ? staffripple_get16(written->at + 4) : 0;
    answer.beside = (uint16_t)reply->length;
    answer.beside_neighbour = reply->length ? staffripple_get16(reply->at + 4) : 0;
    return answer;
}

static const char *answer_text(struct trill_answer answer)
{
    static char text[2][160];
    static unsigned turn;
    turn = !turn;
    snprintf(text[turn], sizeof text[turn], "%u, written %u to %04X, start %u, length %u, beside %u to %04X",
             answer.number, answer.written, answer.neighbour, answer.start, answer.length, answer.beside,
             answer.beside_neighbour);
    return text[turn];
}

/* The room of both buffers. */
struct rooms {
    size_t out, beside;
};

static const struct rooms least = {TRILL_OUTPUT_LEAST, TRILL_BESIDE_LEAST};

/* Handles a frame with the rooms given, and compares the answer, the lent buffers and the inputs after the call. */
static void try_handling(const char *name, const struct octets *settings, const struct octets *frame,
                         struct rooms rooms, struct trill_answer expected, const struct octets *written,
                         const struct octets *reply)
{
    static struct octets settings_lent, frame_lent, clock, clock_lent;
    settings_lent = *settings;
    frame_lent = *frame;
    clock = from_hex(CLOCK);
    clock_lent = clock;
    expected = with_written(expected, written, reply);
    uint8_t *out = lend();
    struct trill_answer got = trill_handle(frame_lent.at, frame_lent.length, settings_lent.at, settings_lent.length,
                                           clock_lent.at, clock_lent.length, out, rooms.out, beside, rooms.beside);
    long where = 0;
    if (!same_answer(got, expected))
        result(name, false, "answer %s and not %s", answer_text(got), answer_text(expected));
    else if (!buffer_good(lent, sizeof lent, written->at, written->length, &where))
        result(name, false, "octet %ld of the output is %02X", where, lent[GUARD + where]);
    else if (!beside_good(reply, &where))
        result(name, false, "octet %ld of the second output is %02X", where, beside[where]);
    else
        result(name,
               !memcmp(&settings_lent, settings, sizeof settings_lent) &&
                   !memcmp(&frame_lent, frame, sizeof frame_lent) && !memcmp(&clock_lent, &clock, sizeof clock),
               "an input is changed");
}

/* ---- Settings prepared once ---- */

#define STORE_PATTERN UINT64_C(0xA5A5A5A5A5A5A5A5)

/* A store with a word more than it needs, every word set. */
static uint64_t store[TRILL_PREPARED_WORDS + 1];

static bool store_untouched(size_t from)
{
    for (size_t i = from; i < sizeof store / sizeof *store; i++)
        if (store[i] != STORE_PATTERN)
            return false;
    return true;
}

/* Prepares settings in so many words. */
static uint32_t prepare(const struct octets *settings, size_t words)
{
    for (size_t i = 0; i < sizeof store / sizeof *store; i++)
        store[i] = STORE_PATTERN;
    return trill_prepare(settings->at, settings->length, store, words);
}

/* Handles a frame by a store, and expects what the settings octets give; of bad settings that none is prepared. */
static void try_prepared(const char *name, const struct octets *settings, const struct octets *frame,
                         struct trill_answer expected, const struct octets *written, const struct octets *reply)
{
    char prepared[128];
    snprintf(prepared, sizeof prepared, "%s, prepared", name);
    uint32_t refusal = prepare(settings, TRILL_PREPARED_WORDS);
    bool bad = expected.number == TRILL_REFUSED_SETTINGS;
    if (bad || refusal != 0 || !store_untouched(TRILL_PREPARED_WORDS)) {
        result(prepared, bad && refusal == 1 && store_untouched(0), "prepare answers %u, or a word is changed",
               refusal);
        return;
    }
    struct octets clock = from_hex(CLOCK);
    uint8_t *out = lend();
    struct trill_answer got = trill_handle_prepared(frame->at, frame->length, store, TRILL_PREPARED_WORDS, clock.at,
                                                    clock.length, out, least.out, beside, least.beside);
    long where = 0;
    result(prepared,
           same_answer(got, with_written(expected, written, reply)) &&
               buffer_good(lent, sizeof lent, written->at, written->length, &where) && beside_good(reply, &where),
           "answer %s", answer_text(got));
}

/* Few words, and stores that nothing prepared. */
static void try_stores(void)
{
    static struct octets settings, frame, clock;
    settings = from_hex(PLAIN);
    frame = from_hex(FRAME_C12);
    clock = from_hex(CLOCK);
    result("a word too few", prepare(&settings, TRILL_PREPARED_WORDS - 1) == 2 && store_untouched(0),
           "not 2, or a word is changed");
    for (int words = 0; words < 8; words++) {
        long where = 0;
        uint8_t *out = lend();
        struct trill_answer got = trill_handle_prepared(frame.at, frame.length, store, (size_t)words, clock.at,
                                                        clock.length, out, least.out, beside, least.beside);
        result("a store of a pattern", got.number == TRILL_REFUSED_SETTINGS && lent_good(NULL, 0, &where), "answer %u",
               got.number);
    }
}

/* ---- Counters ---- */

static struct trill_answer count(struct trill_counters *counters, const struct octets *settings,
                                 const struct octets *frame, size_t room)
{
    struct octets clock = from_hex(CLOCK);
    return trill_handle_counted(counters, frame->at, frame->length, settings->at, settings->length, clock.at,
                                clock.length, lend(), room, beside, least.beside);
}

/* Counts one answer from the record given, and expects that its counter and the total grow by one and nothing else
 * changes, with what trill_handle writes. */
static void try_count(const char *name, struct trill_counters from, const char *settings_hex, const char *frame_hex,
                      size_t room, struct trill_answer answer, const char *written_hex, const char *reply_hex)
{
    static struct octets settings, frame, written, reply;
    struct trill_counters counters = from, expected = from;
    settings = from_hex(settings_hex);
    frame = from_hex(frame_hex);
    written = from_hex(written_hex);
    reply = from_hex(reply_hex);
    expected.by_answer[answer.number]++;
    expected.total++;
    struct trill_answer got = count(&counters, &settings, &frame, room);
    long where = 0;
    result(name,
           same_answer(got, with_written(answer, &written, &reply)) && !memcmp(&counters, &expected, sizeof counters) &&
               buffer_good(lent, sizeof lent, written.at, written.length, &where) && beside_good(&reply, &where),
           "answer %s, total %llu", answer_text(got), (unsigned long long)counters.total);
}

/* With word `place` at its greatest value every call is refused, one with bad settings too, and nothing changes. */
static bool refuses_full(size_t place, const struct octets *settings, const struct octets *frame)
{
    struct trill_counters counters, before;
    uint64_t words[TRILL_ANSWER_NUMBERS + 1];
    for (size_t i = 0; i < sizeof words / sizeof *words; i++)
        words[i] = i == place ? UINT64_MAX : UINT64_MAX - 1 - i;
    memcpy(&counters, words, sizeof counters);
    before = counters;
    struct trill_answer got = count(&counters, settings, frame, least.out);
    long where = 0;
    return same_answer(got, (struct trill_answer)BARE(TRILL_REFUSED_COUNTERS, 0, 0)) &&
           !memcmp(&counters, &before, sizeof counters) && lent_good(NULL, 0, &where);
}

static void try_full(void)
{
    static struct octets plain, bad, here, on;
    plain = from_hex(PLAIN);
    bad = from_hex("00");
    here = from_hex(RECEIVED "0001 0001 0004 " INNER);
    on = from_hex(RECEIVED "0001 0009 0004 " INNER);
    for (size_t place = 0; place <= TRILL_ANSWER_NUMBERS; place++) {
        char name[80];
        snprintf(name, sizeof name, "T-07 word %zu at its greatest value", place);
        result(name,
               refuses_full(place, &plain, &here) && refuses_full(place, &plain, &on) &&
                   refuses_full(place, &bad, &here),
               "not 4, or something is changed");
    }
}

/* The table of a record, as it is printed. */
static void try_table(const struct trill_counters *counters, const char *expected)
{
    char text[1024] = "";
    FILE *file = tmpfile();
    if (!file) {
        result("T-07 the table", false, "no temporary file");
        return;
    }
    trill_counters_print(file, counters);
    rewind(file);
    text[fread(text, 1, sizeof text - 1, file)] = 0;
    fclose(file);
    result("T-07 the table", !strcmp(text, expected), "%s", text);
}

static void try_counters(void)
{
    static struct octets plain, here, hop_0;
    struct trill_counters zero, edge, history;
    memset(&zero, 0, sizeof zero);
    try_count("T-07 51", zero, PLAIN, RECEIVED "0001 0001 0004 " INNER, least.out,
              (struct trill_answer)BARE(TRILL_DELIVERED, 20, 20), NOTHING, NOTHING);
    try_count("T-07 50", zero, PLAIN, RECEIVED "0001 0009 0004 " INNER, least.out,
              (struct trill_answer)BARE(TRILL_FORWARDED, 0, 0), SENT "0000 0009 0004 " INNER, NOTHING);
    try_count("T-07 50 and a reply beside it", zero, FLAGS, TRANSIT("81000000") ECHO, least.out,
              (struct trill_answer)BARE(TRILL_FORWARDED, 0, 0), PASSED("81000000") ECHO, ECHO_RETURNED);
    try_count("T-07 1", zero, "00", FRAME_C12, least.out, (struct trill_answer)BARE(TRILL_REFUSED_SETTINGS, 0, 0),
              NOTHING, NOTHING);
    try_count("T-07 2", zero, PLAIN, FRAME_C12, least.out - 1, (struct trill_answer)BARE(TRILL_REFUSED_OUTPUT, 0, 0),
              NOTHING, NOTHING);
    try_full();
    edge = zero;
    edge.by_answer[TRILL_DELIVERED] = edge.total = UINT64_MAX - 1;
    try_count("T-07 the last one counted", edge, PLAIN, RECEIVED "0001 0001 0004 " INNER, least.out,
              (struct trill_answer)BARE(TRILL_DELIVERED, 20, 20), NOTHING, NOTHING);
    plain = from_hex(PLAIN);
    here = from_hex(RECEIVED "0001 0001 0004 " INNER);
    hop_0 = from_hex(RECEIVED "0000 0001 0004 " INNER);
    history = zero;
    count(&history, &plain, &here, least.out);
    count(&history, &plain, &hop_0, least.out);
    count(&history, &plain, &here, least.out);
    zero.by_answer[TRILL_DELIVERED] = 2;
    zero.by_answer[TRILL_DROP_HOP_COUNT] = 1;
    zero.total = 3;
    result("T-07 a history of 51, 17, 51", !memcmp(&history, &zero, sizeof history), "total %llu",
           (unsigned long long)history.total);
    try_table(&history, "17                    1  hop count 0\n"
                        "51                    2  delivered\n"
                        "                      3  in all\n");
}

/* ---- A frame in bursts ---- */

static uint64_t reader[TRILL_READER_WORDS + 1];
static uint8_t gathered[TRILL_GATHERED_LEAST + 1];

static uint32_t start(const char *settings_hex, size_t room, size_t more)
{
    struct octets settings = from_hex(settings_hex), clock = from_hex(CLOCK);
    return trill_reader_start(reader, TRILL_READER_WORDS, settings.at, settings.length, clock.at, clock.length, room,
                              more);
}

static uint32_t burst(const uint8_t *octets, size_t length)
{
    return trill_reader_burst(reader, TRILL_READER_WORDS, gathered, TRILL_GATHERED_LEAST, octets, length);
}

static struct trill_answer mark(size_t room, size_t more)
{
    return trill_reader_mark(reader, TRILL_READER_WORDS, gathered, TRILL_GATHERED_LEAST, lend(), room, beside, more);
}

/* Every call after the mark is 36, and words and octets stay. */
static void try_ended(const char *name)
{
    uint64_t words[TRILL_READER_WORDS + 1];
    uint8_t octets[TRILL_GATHERED_LEAST + 1];
    memcpy(words, reader, sizeof words);
    memcpy(octets, gathered, sizeof octets);
    uint32_t said = burst((const uint8_t *)"x", 1), said_of_nothing = burst((const uint8_t *)"x", 0);
    struct trill_answer got = mark(least.out, least.beside);
    long where = 0;
    result(name,
           said == TRILL_REFUSED_ENDED && said_of_nothing == TRILL_REFUSED_ENDED &&
               same_answer(got, (struct trill_answer)BARE(TRILL_REFUSED_ENDED, 0, 0)) &&
               !memcmp(words, reader, sizeof words) && !memcmp(octets, gathered, sizeof octets) &&
               lent_good(NULL, 0, &where),
           "%u, %u, %s, or something is changed", said, said_of_nothing, answer_text(got));
}

/* A frame cut at each place, with an empty burst between, gives the answer and the octets of the whole frame. */
static void try_cuts(const char *name, const char *settings, const char *frame_hex, struct trill_answer expected,
                     const char *written_hex, const char *reply_hex)
{
    static struct octets frame, written, reply;
    frame = from_hex(frame_hex);
    written = from_hex(written_hex);
    reply = from_hex(reply_hex);
    expected = with_written(expected, &written, &reply);
    size_t good = 0;
    for (size_t place = 0; place <= frame.length; place++) {
        uint32_t said = start(settings, least.out, least.beside);
        said |= burst(frame.at, place);
        said |= burst(frame.at, 0);
        said |= burst(frame.at + place, frame.length - place);
        struct trill_answer got = mark(least.out, least.beside);
        long where = 0;
        good += said == 0 && same_answer(got, expected) && !memcmp(gathered, frame.at, frame.length) &&
                buffer_good(lent, sizeof lent, written.at, written.length, &where) && beside_good(&reply, &where);
    }
    result(name, good == frame.length + 1, "%zu of %zu cuts are good", good, frame.length + 1);
    try_ended("T-04 after the mark");
}

static void try_early(const char *name, uint32_t said, uint16_t number)
{
    uint32_t again = burst((const uint8_t *)"x", 1);
    struct trill_answer got = mark(10, 10);
    long where = 0;
    result(name,
           said == number && again == number && same_answer(got, (struct trill_answer)BARE(number, 0, 0)) &&
               lent_good(NULL, 0, &where),
           "%u, %u, %s", said, again, answer_text(got));
    try_ended("T-04 after an early answer and its mark");
}

/* Words and octets that are too few: 2, and the reader goes on as it was. */
static void try_few(void)
{
    static const uint8_t zeros[1];
    uint64_t words[TRILL_READER_WORDS + 1];
    start(PLAIN, least.out, least.beside);
    memcpy(words, reader, sizeof words);
    uint32_t few = trill_reader_burst(reader, TRILL_READER_WORDS - 1, gathered, TRILL_GATHERED_LEAST, zeros, 1);
    uint32_t narrow = trill_reader_burst(reader, TRILL_READER_WORDS, gathered, TRILL_GATHERED_LEAST - 1, zeros, 1);
    struct trill_answer few_marked = trill_reader_mark(reader, TRILL_READER_WORDS - 1, gathered, TRILL_GATHERED_LEAST,
                                                       lend(), least.out, beside, least.beside);
    struct trill_answer marked = trill_reader_mark(reader, TRILL_READER_WORDS, gathered, TRILL_GATHERED_LEAST - 1,
                                                   lend(), least.out, beside, least.beside);
    result("T-04 a word too few, a short gathering buffer",
           few == 2 && narrow == 2 && few_marked.number == 2 && marked.number == 2 &&
               !memcmp(words, reader, sizeof words),
           "%u, %u, %u, %u, or a word is changed", few, narrow, few_marked.number, marked.number);
    struct octets settings = from_hex("00"), clock = from_hex(CLOCK);
    few = trill_reader_start(reader, TRILL_READER_WORDS - 1, settings.at, settings.length, clock.at, clock.length, 10,
                             10);
    result("T-04 a start with a word too few", few == 2 && !memcmp(words, reader, sizeof words), "%u", few);
}

static void try_readers(void)
{
    static const uint8_t zeros[5000];
    reader[TRILL_READER_WORDS] = STORE_PATTERN;
    gathered[TRILL_GATHERED_LEAST] = 0xA5;
    try_cuts("T-04 50, cut at each place", PLAIN, RECEIVED "0001 0009 0004 " INNER,
             (struct trill_answer)BARE(TRILL_FORWARDED, 0, 0), SENT "0000 0009 0004 " INNER, NOTHING);
    try_cuts("T-04 50 and a reply beside it, cut at each place", FLAGS, TRANSIT("81000000") ECHO,
             (struct trill_answer)BARE(TRILL_FORWARDED, 0, 0), PASSED("81000000") ECHO, ECHO_RETURNED);
    try_cuts("T-04 51, cut at each place", PLAIN, RECEIVED "0001 0001 0004 " INNER,
             (struct trill_answer)BARE(TRILL_DELIVERED, 20, 20), NOTHING, NOTHING);
    try_cuts("T-04 no octet at all", PLAIN, NOTHING, (struct trill_answer)BARE(TRILL_DROP_SHORT, 0, 0), NOTHING,
             NOTHING);

    try_early("T-04 early 1", start("00", 10, 10), TRILL_REFUSED_SETTINGS);
    try_early("T-04 early 2", start(PLAIN, least.out - 1, 10), TRILL_REFUSED_OUTPUT);
    try_early("T-04 early 37", start(PLAIN, least.out, least.beside - 1), TRILL_REFUSED_BESIDE);
    start(PLAIN, least.out, least.beside);
    result("T-04 2,048 octets", burst(zeros, 2048) == 0 && burst(zeros, 0) == 0, "not 0");
    try_early("T-04 octet 2,049", burst(zeros, 1), TRILL_REFUSED_FRAME);
    start(PLAIN, least.out, least.beside);
    try_early("T-04 one burst of 5,000", burst(zeros, 5000), TRILL_REFUSED_FRAME);

    start(PLAIN, least.out, least.beside);
    result("T-04 a short buffer at the mark", mark(least.out - 1, least.beside).number == TRILL_REFUSED_OUTPUT,
           "not 2");
    try_ended("T-04 after a mark that answered 2");
    start(PLAIN, least.out, least.beside);
    result("T-04 a short second buffer at the mark", mark(least.out, least.beside - 1).number == TRILL_REFUSED_BESIDE,
           "not 37");
    try_ended("T-04 after a mark that answered 37");
    try_few();
    result("T-04 nothing behind what is lent",
           reader[TRILL_READER_WORDS] == STORE_PATTERN && gathered[TRILL_GATHERED_LEAST] == 0xA5, "changed");
}

/* ---- The way out ---- */

static const struct {
    const char *name, *settings;
    uint16_t destination;
    size_t room;
    struct trill_way answer;
    const char *written;
} ways[] = {
    {"way out: bad settings, no room", "01", 9, 0, {1, 0}, ""},
    {"way out: unknown, no room", PLAIN, 8, 0, {21, 0}, ""},
    {"way out: withdrawn", SWITCH LIVE_7 WITHDRAWN_8, 9, 14, {21, 0}, ""},
    {"way out: room for 13", PLAIN, 9, 13, {2, 0}, ""},
    {"way out: room for 14", PLAIN, 9, 14, {0, 14}, "020000000005 020000000001 22F3"},
    {"way out: serials 7 and 8", SWITCH LIVE_7 LIVE_8, 9, 14, {0, 14}, "020000000008 020000000001 22F3"},
    {"way out: serials 8 and 7", SWITCH LIVE_8 LIVE_7, 9, 14, {0, 14}, "020000000008 020000000001 22F3"},
    {"way out: destination 0", PLAIN, 0, 14, {21, 0}, ""},
    {"way out: destination 0xFFC0", PLAIN, 0xFFC0, 14, {21, 0}, ""},
    {"way out: room for 100", PLAIN, 9, 100, {0, 14}, "020000000005 020000000001 22F3"},
    {"way out: equal serials", SWITCH LIVE_8 WITHDRAWN_8, 9, 14, {1, 0}, ""},
    {"way out: own nickname",
     SWITCH "02 000E 0001 0007 020000000007 00000001",
     1,
     14,
     {0, 14},
     "020000000007 020000000001 22F3"},
    {"way out: VLAN 5, room for 14", OVER("0005"), 9, 14, {2, 0}, ""},
    {"way out: VLAN 5, room for 17", OVER("0005"), 9, 17, {2, 0}, ""},
    {"way out: VLAN 5, room for 18", OVER("0005"), 9, 18, {0, 18}, "020000000005 020000000001 8100 0005 22F3"},
    {"way out: VLAN 5, room for 100", OVER("0005"), 9, 100, {0, 18}, "020000000005 020000000001 8100 0005 22F3"},
    {"way out: VLAN 0, room for 14", OVER("0000"), 9, 14, {0, 14}, "020000000005 020000000001 22F3"},
    {"way out: VLAN 5, unknown, no room", OVER("0005"), 8, 0, {21, 0}, ""},
    {"way out: VLAN 4,095", OVER("0FFF"), 9, 18, {1, 0}, ""},
};

static void judge_way(const char *name, struct trill_way got, struct trill_way expected, const char *written)
{
    struct octets octets = from_hex(written);
    long where = 0;
    result(name,
           got.number == expected.number && got.length == expected.length &&
               lent_good(octets.at, octets.length, &where),
           "number %u, length %u", got.number, got.length);
}

static void try_ways(void)
{
    for (size_t i = 0; i < sizeof ways / sizeof *ways; i++) {
        struct octets settings = from_hex(ways[i].settings);
        uint8_t *out = lend();
        judge_way(ways[i].name, trill_way_out(settings.at, settings.length, ways[i].destination, out, ways[i].room),
                  ways[i].answer, ways[i].written);
        prepare(&settings, TRILL_PREPARED_WORDS);
        out = lend();
        judge_way(ways[i].name,
                  trill_way_out_prepared(store, TRILL_PREPARED_WORDS, ways[i].destination, out, ways[i].room),
                  ways[i].answer, ways[i].written);
    }
}

static void try_handlings(void)
{
    static struct octets settings, frame, written, reply;
    for (size_t i = 0; i < sizeof handlings / sizeof *handlings; i++) {
        const struct handling *handling = &handlings[i];
        settings = from_hex(handling->settings);
        frame = from_hex(handling->frame);
        written = from_hex(handling->written);
        reply = from_hex(handling->beside);
        try_handling(handling->name, &settings, &frame, least, handling->answer, &written, &reply);
        try_prepared(handling->name, &settings, &frame, handling->answer, &written, &reply);
    }
}

/* Octets and more behind them, up to a length. */
static struct octets filled(const char *hex, size_t length)
{
    struct octets octets = from_hex(hex);
    for (uint8_t more = 0x11; octets.length < length; more = (uint8_t)(more * 5 + 7))
        octets.at[octets.length++] = more;
    return octets;
}

static void try_long_handlings(void)
{
    static struct octets settings, frame, written, nothing;
    for (size_t i = 0; i < sizeof long_handlings / sizeof *long_handlings; i++) {
        struct trill_answer answer = BARE(long_handlings[i].number, 0, 0);
        settings = from_hex(long_handlings[i].settings);
        frame = filled(long_handlings[i].received, long_handlings[i].size);
        written = filled(long_handlings[i].sent, long_handlings[i].written);
        try_handling(long_handlings[i].name, &settings, &frame, least, answer, &written, &nothing);
        try_prepared(long_handlings[i].name, &settings, &frame, answer, &written, &nothing);
    }
}

/* The limits of frame and output buffers, on both sides; the second buffer is tested in either edition, after the first
 * one and before the frame. */
static void try_limits(void)
{
    static struct octets settings, frame, sent, nothing;
    const struct trill_answer forwarded = BARE(TRILL_FORWARDED, 0, 0), frame_long = BARE(TRILL_REFUSED_FRAME, 0, 0),
                              out_short = BARE(TRILL_REFUSED_OUTPUT, 0, 0), bad = BARE(TRILL_REFUSED_SETTINGS, 0, 0),
                              beside_short = BARE(TRILL_REFUSED_BESIDE, 0, 0);
    settings = from_hex(PLAIN);
    frame = from_hex(FRAME_C12);
    sent = from_hex(SENT "0004 0009 0004 " INNER);
    try_handling("room for 2,047", &settings, &frame, (struct rooms){2047, 576}, out_short, &nothing, &nothing);
    try_handling("room for 4,096", &settings, &frame, (struct rooms){4096, 1024}, forwarded, &sent, &nothing);
    try_handling("T-09 18, room for 575", &settings, &frame, (struct rooms){2048, 575}, beside_short, &nothing,
                 &nothing);
    try_handling("T-09 18, both short", &settings, &frame, (struct rooms){2047, 575}, out_short, &nothing, &nothing);
    try_handling("T-09 18, no second room", &settings, &frame, (struct rooms){2048, 0}, beside_short, &nothing,
                 &nothing);
    frame.length = sent.length = 2048;
    try_handling("frame of 2,048", &settings, &frame, least, forwarded, &sent, &nothing);
    frame.length = 2049;
    try_handling("frame of 2,049", &settings, &frame, least, frame_long, &nothing, &nothing);
    try_handling("frame of 2,049, room for 575", &settings, &frame, (struct rooms){2048, 575}, beside_short, &nothing,
                 &nothing);
    settings = from_hex(FLAGS);
    frame = from_hex(TRANSIT("81000000") ECHO);
    try_handling("T-09 18, room for 575, edition 2", &settings, &frame, (struct rooms){2048, 575}, beside_short,
                 &nothing, &nothing);
    settings = from_hex("00");
    try_handling("bad settings, both short", &settings, &frame, (struct rooms){10, 10}, bad, &nothing, &nothing);
}

/* ---- A campus ---- */

#define FILE_C1                                    \
    "01 0008 0001 020000000001 "                   \
    "02 000E 0003 0002 020000000002 00000001 "     \
    "01 0008 0002 020000000002 "                   \
    "02 000E 0003 0003 020000000003 00000001 "     \
    "02 000E 0001 0001 020000000001 00000001 "     \
    "01 0008 0003 020000000003 "                   \
    "02 000E 0001 0002 020000000002 00000001 "     \
    "04 0006 000001000009 "                        \
    "05 003E 0002 020000000002 020000000001 22F3 " \
    "0005 0003 0001 0180C2000042 020000000001 "    \
    "8100 0001 8946 0FF8 4000 30000001 02 00 "     \
    "000001000002 000000000000"

#define TEXT_C1           \
    "0002 O 50 05 0003\n" \
    "0003 O 54 04 0003\n" \
    "0002 R 50 3F 0001\n" \
    "0001 R 56 3E 0001\n" \
    "handled 4\n"

#define TRACE_C1 "0002 00 32 05 00 0003 0003 00 36 04 00 0003 0002 01 32 3F 00 0001 0001 01 38 3E 00 0001"

/* Two switches, each naming the other for 0x0003. */
#define FILE_C10                                                         \
    "01 0008 0001 020000000001 02 000E 0003 0002 020000000002 00000001 " \
    "01 0008 0002 020000000002 02 000E 0003 0001 020000000001 00000001 " \
    "05 0016 0001 020000000001 020000000009 22F3 0005 0003 0009"

#define TRACE_C10                                                        \
    "0001 00 32 05 00 0003 0002 00 32 04 00 0003 0001 00 32 03 00 0003 " \
    "0002 00 32 02 00 0003 0001 00 32 01 00 0003 0002 00 11 00 00 0003"

/* One switch whose record for 0x0009 names itself, and an echo from 0x0009. */
#define FILE_C11                                                         \
    "01 0008 0001 020000000001 02 000E 0009 0001 020000000001 00000001 " \
    "05 003E 0001 020000000001 020000000009 22F3 0001 0001 0009 "        \
    "0180C2000042 020000000009 8100 0001 8946 0FF8 4000 30000001 02 00 " \
    "000001000002 000000000000"

static void try_campus(const char *name, const char *file, size_t room, struct campus_answer expected,
                       const struct octets *entries)
{
    static struct octets description, kept;
    description = from_hex(file);
    kept = description;
    uint8_t *trace = lend();
    struct campus_answer got = campus_run(description.at, description.length, trace, room);
    long where = 0;
    if (got.code != expected.code || got.count != expected.count)
        result(name, false, "code %u, count %u and not %u, %u", got.code, got.count, expected.code, expected.count);
    else if (!lent_good(entries->at, entries->length, &where))
        result(name, false, "octet %ld of the trace is %02X", where, lent[GUARD + where]);
    else
        result(name, !memcmp(&description, &kept, sizeof kept), "the description is changed");
}

/* The reply goes round from hop count 3F to 00. */
static struct octets trace_c11(void)
{
    struct octets trace = from_hex("0001 00 36 01 00 0001");
    for (unsigned hop_count = 0x3F; hop_count > 0; hop_count--) {
        add_hex(&trace, "0001 01 32 00 00 0009");
        trace.at[trace.length - 4] = (uint8_t)hop_count;
    }
    add_hex(&trace, "0001 01 11 00 00 0009");
    return trace;
}

/* T-09 19: one switch of edition 2 whose records name itself, and an alerted echo request with hop count 3F: the
 * original goes round and makes a reply at each of 63 handlings, and then each reply goes round. */
#define ROUND SWITCH "02 000E 0009 0001 020000000001 00000001 02 000E 0004 0001 020000000001 00000001 "
#define ENTRY_ROUND(hop) "05 0042 0001 " RECEIVED hop " 0009 0004 81000000 " ECHO
#define FILE_ROUND ROUND EDITION("02") ENTRY_ROUND("007F")

static void add_round(struct octets *trace, const char *forwarded, const char *dropped)
{
    for (unsigned hop_count = 0x3F; hop_count > 0; hop_count--) {
        add_hex(trace, forwarded);
        trace->at[trace->length - 4] = (uint8_t)hop_count;
    }
    add_hex(trace, dropped);
}

static struct octets trace_round(void)
{
    struct octets trace = {.length = 0};
    add_round(&trace, "0001 00 32 00 00 0009", "0001 00 11 00 00 0009");
    for (unsigned reply = 0; reply < 63; reply++)
        add_round(&trace, "0001 01 32 00 00 0004", "0001 01 11 00 00 0004");
    return trace;
}

static void try_refused_campus(const char *name, const char *file, size_t room, uint32_t code)
{
    static struct octets nothing;
    try_campus(name, file, room, (struct campus_answer){code, 0}, &nothing);
}

static void try_editions(void)
{
    static struct octets entries;
    entries = trace_round();
    try_campus("T-09 19, 4,096 handlings", FILE_ROUND, CAMPUS_TRACE_MOST, (struct campus_answer){CAMPUS_RAN, 4096},
               &entries);
    try_campus("T-09 19, more room", FILE_ROUND, ROOM_MOST, (struct campus_answer){CAMPUS_RAN, 4096}, &entries);
    entries = from_hex("0001 00 11 00 00 0009");
    try_campus("T-09 19, hop count 0", ROUND EDITION("02") ENTRY_ROUND("0040"), CAMPUS_TRACE_MOST,
               (struct campus_answer){CAMPUS_RAN, 1}, &entries);
    entries = from_hex("0001 00 14 3F 00 0009");
    try_campus("T-09 20, edition 2, then 1: 640 octets are enough",
               ROUND EDITION("02") EDITION("01") ENTRY_ROUND("007F"), CAMPUS_TRACE_LEAST,
               (struct campus_answer){CAMPUS_RAN, 1}, &entries);
    try_refused_campus("T-09 edition 2 with 640 octets", FILE_ROUND, CAMPUS_TRACE_LEAST, CAMPUS_REFUSED_TRACE);
    try_refused_campus("T-09 edition 2 with 32,767", FILE_ROUND, CAMPUS_TRACE_MOST - 1, CAMPUS_REFUSED_TRACE);
    try_refused_campus("T-09 edition 2 with 639, cut short", ROUND EDITION("02") "05", CAMPUS_TRACE_LEAST - 1,
                       CAMPUS_REFUSED_TRACE);
    try_refused_campus("T-09 edition 2 with 700, cut short", ROUND EDITION("02") "05", 700, CAMPUS_REFUSED_CUT);
    try_refused_campus("T-09 edition 2 with 700, entry unknown", ROUND EDITION("02") "05 0002 0002", 700,
                       CAMPUS_REFUSED_ENTRY);
    try_refused_campus("T-09 20, edition 3 in a file", ROUND EDITION("03") ENTRY_ROUND("007F"), CAMPUS_TRACE_MOST,
                       CAMPUS_REFUSED_VALUE);
    try_refused_campus("T-09 20, edition before a switch in a file", EDITION("02") FILE_ROUND, CAMPUS_TRACE_MOST,
                       CAMPUS_REFUSED_PLACE);
    try_refused_campus("T-09 20, edition after the entry", FILE_ROUND EDITION("02"), CAMPUS_TRACE_MOST,
                       CAMPUS_REFUSED_PLACE);
    try_refused_campus("T-09 20, edition in two octets in a file", ROUND "06 0002 0002 " ENTRY_ROUND("007F"),
                       CAMPUS_TRACE_MOST, CAMPUS_REFUSED_TAG);
}

static void try_campuses(void)
{
    static struct octets entries, nothing;
    entries = from_hex(TRACE_C1);
    try_campus("C1 the trace", FILE_C1, CAMPUS_TRACE_LEAST, (struct campus_answer){CAMPUS_RAN, 4}, &entries);
    try_campus("C1 without room", FILE_C1, CAMPUS_TRACE_LEAST - 1, (struct campus_answer){CAMPUS_REFUSED_TRACE, 0},
               &nothing);
    try_campus("C1 cut short", "01 0008 0001 0200", CAMPUS_TRACE_LEAST, (struct campus_answer){CAMPUS_REFUSED_CUT, 0},
               &nothing);
    try_campus("T-01 VLAN 4,095 in a file", OVER("0FFF") "05 0002 0001", CAMPUS_TRACE_LEAST,
               (struct campus_answer){CAMPUS_REFUSED_VALUE, 0}, &nothing);
    try_campus("T-01 a priority in a file", OVER("2005") "05 0002 0001", CAMPUS_TRACE_LEAST,
               (struct campus_answer){CAMPUS_REFUSED_VALUE, 0}, &nothing);
    try_campus("T-01 a record of 15 octets in a file", SWITCH "02 000F 0009 0005 020000000005 00000001 00 05 0002 0001",
               CAMPUS_TRACE_LEAST, (struct campus_answer){CAMPUS_REFUSED_TAG, 0}, &nothing);
    entries = from_hex("0001 00 0A 00 00 0000");
    try_campus("T-01 VLAN 4,094 in a file", OVER("0FFE") "05 0002 0001", CAMPUS_TRACE_LEAST,
               (struct campus_answer){CAMPUS_RAN, 1}, &entries);
    entries = from_hex(TRACE_C10);
    try_campus("C10", FILE_C10, CAMPUS_TRACE_LEAST, (struct campus_answer){CAMPUS_RAN, 6}, &entries);
    entries = trace_c11();
    try_campus("C11", FILE_C11, CAMPUS_TRACE_LEAST, (struct campus_answer){CAMPUS_RAN, 65}, &entries);
}

static void try_text(const char *name, const char *file, size_t room, const char *text)
{
    static struct octets description, kept;
    description = from_hex(file);
    kept = description;
    size_t needed = strlen(text), written = room < needed ? 0 : needed;
    uint8_t *lent_text = lend();
    struct campus_text_answer got = campus_text(description.at, description.length, lent_text, room);
    long where = 0;
    if (got.written != written || got.needed != needed)
        result(name, false, "written %u, needed %u and not %zu, %zu", got.written, got.needed, written, needed);
    else if (!lent_good((const uint8_t *)text, written, &where))
        result(name, false, "octet %ld of the text is %02X", where, lent[GUARD + where]);
    else
        result(name, !memcmp(&description, &kept, sizeof kept), "the description is changed");
}

/* The text of a run of 4,096 handlings, which is the longest. */
static const char *text_round(void)
{
    static char text[CAMPUS_TEXT_MOST + 1];
    size_t used = 0;
    for (unsigned way = 0; way <= 63; way++) {
        for (unsigned left = 64; left > 0; left--)
            used += (size_t)snprintf(text + used, sizeof text - used, "0001 %c %u %02X %04X\n", way ? 'R' : 'O',
                                     left > 1 ? 50u : 17u, left - 1, way ? 4u : 9u);
    }
    snprintf(text + used, sizeof text - used, "handled 4096\n");
    return text;
}

static void try_texts(void)
{
    result("the longest text is as long as the header says", strlen(text_round()) == CAMPUS_TEXT_MOST, "%zu octets",
           strlen(text_round()));
    try_text("T-09 19, the text", FILE_ROUND, CAMPUS_TEXT_MOST, text_round());
    try_text("T-09 19, the text, an octet too little", FILE_ROUND, CAMPUS_TEXT_MOST - 1, text_round());
    try_text("C1 the text", FILE_C1, CAMPUS_TEXT_MOST, TEXT_C1);
    try_text("C1 the text, room for it exactly", FILE_C1, strlen(TEXT_C1), TEXT_C1);
    try_text("C1 the text, an octet too little", FILE_C1, strlen(TEXT_C1) - 1, TEXT_C1);
    try_text("the text without room", FILE_C1, 0, TEXT_C1);
    try_text("the text of a refusal", "01 0008 0001 0200", CAMPUS_TEXT_MOST, "refused 41\n");
}

/* ---- On a thread with little stack ---- */

static struct octets file_apart;
static uint8_t text_apart[CAMPUS_TEXT_MOST];
static struct campus_text_answer answer_apart;

static void *print_apart(void *unused)
{
    (void)unused;
    answer_apart = campus_text(file_apart.at, file_apart.length, text_apart, sizeof text_apart);
    return NULL;
}

static void try_little_stack(void)
{
    const char *name = "C1 the text, with 128 KiB of stack";
    file_apart = from_hex(FILE_C1);
    pthread_attr_t little;
    pthread_t thread;
    if (pthread_attr_init(&little) || pthread_attr_setstacksize(&little, 128 * 1024) ||
        pthread_create(&thread, &little, print_apart, NULL) || pthread_join(thread, NULL))
        result(name, false, "there is no such thread");
    else
        result(name, answer_apart.written == strlen(TEXT_C1) && !memcmp(text_apart, TEXT_C1, strlen(TEXT_C1)),
               "written %u, and not the text", answer_apart.written);
}

/* ---- The helpers ---- */

static void try_null(void)
{
    static struct octets settings, clock;
    settings = from_hex(PLAIN);
    clock = from_hex(CLOCK);
    uint8_t *out = lend();
    size_t room = least.out, more = least.beside;
    struct trill_answer answer;
    answer = staffripple_handle(NULL, 0, settings.at, settings.length, clock.at, clock.length, out, room, beside, more);
    result("null frame", answer.number == TRILL_DROP_SHORT, "answer %u", answer.number);
    answer = staffripple_handle(NULL, 0, NULL, 0, clock.at, clock.length, out, room, beside, more);
    result("null settings", answer.number == TRILL_REFUSED_SETTINGS, "answer %u", answer.number);
    answer = staffripple_handle(NULL, 0, settings.at, settings.length, NULL, 0, out, room, beside, more);
    result("null clock", answer.number == TRILL_REFUSED_SETTINGS, "answer %u", answer.number);
    answer = staffripple_handle(NULL, 0, settings.at, settings.length, clock.at, clock.length, NULL, 0, beside, more);
    result("null output", answer.number == TRILL_REFUSED_OUTPUT, "answer %u", answer.number);
    answer = staffripple_handle(NULL, 0, settings.at, settings.length, clock.at, clock.length, out, room, NULL, 0);
    result("null second output", answer.number == TRILL_REFUSED_BESIDE, "answer %u", answer.number);
    struct campus_answer run = staffripple_campus_run(NULL, 0, out, room);
    result("null description", run.code == CAMPUS_REFUSED_PLACE && run.count == 0, "code %u", run.code);
    run = staffripple_campus_run(NULL, 0, NULL, 0);
    result("null trace", run.code == CAMPUS_REFUSED_TRACE && run.count == 0, "code %u", run.code);
    struct campus_text_answer text = staffripple_campus_text(NULL, 0, NULL, 0);
    result("null text", text.written == 0 && text.needed == strlen("refused 43\n"), "needed %u", text.needed);
    long where = 0;
    result("nothing written for null", lent_good(lent, 0, &where), "octet %ld of the output is changed", where);
}

static void try_part(const char *name, size_t start, size_t length, size_t expected)
{
    static const uint8_t frame[40];
    struct trill_part part = trill_part_of(frame, sizeof frame, start, length);
    const uint8_t *octets = expected ? frame + start : part.octets;
    result(name, part.length == expected && part.octets == octets, "%zu octets", part.length);
}

static void try_parts(void)
{
    try_part("part within", 20, 20, 20);
    try_part("part of all", 0, 40, 40);
    try_part("part, empty at the end", 40, 0, 0);
    try_part("part one too long", 20, 21, 0);
    try_part("part that begins past the end", 41, 0, 0);
    try_part("part whose end wraps in 32 bits", 20, UINT32_MAX - 10, 0);
    try_part("part whose start wraps in 32 bits", UINT32_MAX, 2, 0);
    try_part("part whose end wraps in a size", 20, SIZE_MAX - 10, 0);
    try_part("part whose start wraps in a size", SIZE_MAX, 2, 0);
    struct trill_part part = trill_part_of(NULL, 0, 0, 0);
    result("part of null", part.octets && part.length == 0, "%zu octets", part.length);
}

static void try_numbers(void)
{
    uint8_t octets[6] = {0xAA, 0, 0, 0, 0, 0xBB};
    staffripple_put32(octets + 1, 0x01F2E3D4);
    result("put and get 32 bits",
           !memcmp(octets, "\xAA\x01\xF2\xE3\xD4\xBB", sizeof octets) && staffripple_get32(octets + 1) == 0x01F2E3D4,
           "differ");
    staffripple_put16(octets + 2, 0xFFC0);
    result("put and get 16 bits",
           !memcmp(octets, "\xAA\x01\xFF\xC0\xD4\xBB", sizeof octets) && staffripple_get16(octets + 2) == 0xFFC0,
           "differ");
    result("names",
           !strcmp(trill_answer_name(50), "forwarded") && !strcmp(trill_answer_name(17), "hop count 0") &&
               !strcmp(campus_code_name(41), "field cut short") && !strcmp(trill_answer_name(19), trill_answer_name(0)),
           "differ");
}

int main(void)
{
    setvbuf(stdout, NULL, _IOLBF, 0); /* what passed is known even if a later case crashes */
    try_handlings();
    try_long_handlings();
    try_limits();
    try_stores();
    try_counters();
    try_readers();
    try_ways();
    try_campuses();
    try_editions();
    try_texts();
    try_little_stack();
    try_null();
    try_parts();
    try_numbers();
    printf("selftest: %u passed, %u failed\n", passed, failed);
    return failed ? 1 : 0;
}
