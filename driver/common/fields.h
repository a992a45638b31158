/* Fields of settings and descriptions: a tag of 1 octet, a length of 2, a value. What they may hold is for the calls to
 * judge. */
#ifndef FIELDS_H
#define FIELDS_H

#include <stdbool.h>
#include <stddef.h>
#include <stdint.h>

#include "staffripple.h"

enum { FIELD_HEADER = 3 };

enum tag { TAG_SWITCH = 1, TAG_HOP, TAG_FLAG, TAG_CLOCK, TAG_ENTRY, TAG_EDITION };

/* Lengths of a value, and where a record keeps what it holds. */
enum { SWITCH_LENGTH = 8, HOP_LENGTH = 14, HOP_LENGTH_VLAN = 16, ENTRY_NICKNAME = 2 };
enum { HOP_DESTINATION = 0, HOP_NEIGHBOUR = 2, HOP_MAC = 4, HOP_SERIAL = 10, HOP_VLAN = 14 };
enum { MAC_LENGTH = 6 };

struct field {
    size_t place; /* of its tag */
    unsigned tag;
    uint16_t length;
    const uint8_t *value;
};

/* The whole field at a place, and the place moved behind it; false at the end, or where a field is cut short. */
static inline bool field_next(struct field *field, const uint8_t *octets, size_t length, size_t *place)
{
    if (length - *place < FIELD_HEADER)
        return false;
    uint16_t announced = staffripple_get16(octets + *place + 1);
    if (announced > length - *place - FIELD_HEADER)
        return false;
    *field = (struct field){*place, octets[*place], announced, octets + *place + FIELD_HEADER};
    *place += FIELD_HEADER + announced;
    return true;
}

#endif
