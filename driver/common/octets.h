/* Octets as a user gives them: a file, or standard input, of the text form, of hex text or of raw octets. */
#ifndef OCTETS_H
#define OCTETS_H

#include <stdbool.h>
#include <stddef.h>
#include <stdint.h>

#include "staffripple.h"

enum { OCTETS_MOST = CAMPUS_DESCRIPTION_MOST };

struct octets {
    const char *name; /* what messages call the file */
    bool text;        /* a text, or else raw octets */
    size_t length;    /* at most one over OCTETS_MOST, which is too many whatever follows, so no more is read */
    size_t control;   /* of raw octets: the place of the first control character, by which they are no text */
    uint8_t at[OCTETS_MOST + 1];
    uint32_t line[OCTETS_MOST + 1]; /* of a text: the line that each octet is on */
};

/* For a program's help: what a file may be. */
#define OCTETS_HELP                                                                                 \
    "A file is raw octets if a control character (00 to 1F, 7F) other than tab, line feed and\n"    \
    "carriage return is among its first 32,769 octets, and a text if not: the text form if its\n"   \
    "first word is of small letters and not all hex digits, and hex text else. Hex text: words\n"   \
    "of hex digits, two for each octet, with blanks, tabs and line ends between words. In a text\n" \
    "# begins a comment, which goes to the end of the line.\n"

/* Reads the file of this path, or standard input for -; answers a status, after its message unless EXIT_GOOD. */
int octets_read(struct octets *octets, const char *path);

/* Takes the content of a file of this name in the same way. */
int octets_take(struct octets *octets, const char *name, const uint8_t *content, size_t count);

/* One octet more, made of a line; those too many are dropped. */
void octets_add(struct octets *octets, uint8_t octet, uint32_t line);

/* The value of a hex digit, or -1 for any other character. */
int hex_digit(int character);

#endif
