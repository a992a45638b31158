/*
 * Why a description or settings are refused, in words. The proved call alone decides: the words are looked for once it
 * has refused, and are left out where they would name another code than the call.
 */
#ifndef REFUSAL_H
#define REFUSAL_H

#include <stdbool.h>
#include <stddef.h>
#include <stdint.h>

#include "octets.h"

enum { REFUSAL_WHY = 160 };

enum layout { DESCRIPTION, SETTINGS };

struct refusal {
    uint32_t code;  /* of CAMPUS_CODES; for settings, that of a description with this fault */
    size_t place;   /* of the field at fault, or of the end where a field is missing */
    unsigned field; /* its number, counted from 1; 0 where a field is missing */
    unsigned tag;
    char why[REFUSAL_WHY]; /* what was found, and what the rule wants */
};

/* For a program's help: the fields of settings, which are those of each switch of a description. */
#define SETTINGS_HELP                                                                              \
    "  01 0008 NICKNAME MAC                        the switch\n"                                   \
    "  02 000E DESTINATION NEIGHBOUR MAC SERIAL    a next hop, up to 64; NEIGHBOUR 0000\n"         \
    "                                              withdraws the destination\n"                    \
    "  02 0010 DESTINATION .. SERIAL VLAN          a next hop that is reached with an outer tag\n" \
    "  03 0001 FLAG                                01: unknown mutable options are taken\n"        \
    "                                              out; the last one counts, default 00\n"         \
    "  06 0001 EDITION                             of the header extension: 01 the options\n"      \
    "                                              draft, 02 RFC 7179; the last one counts,\n"     \
    "                                              default 01\n"
#define VALUES_HELP                                                                              \
    "A nickname has 2 octets, 0001 to FFBF; a MAC 6, individual (first octet even) and not\n"    \
    "all zero; a serial 4; a VLAN 2, 0001 to 0FFE, or 0000 for none. All this holds of a\n"      \
    "withdrawal too. Of a destination's next hops the one with the greatest serial rules, and\n" \
    "no two have the same.\n"

/* Finds the first field at fault; false if there is none. */
bool refusal_find(struct refusal *refusal, enum layout layout, const struct octets *octets);

/* Says on standard error why a call has refused the octets with this number, whose meaning is given. */
void refusal_say(enum layout layout, const struct octets *octets, uint32_t number, const char *meaning);

#endif
