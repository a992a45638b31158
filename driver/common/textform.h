/*
 * The text form of settings and descriptions: a line for each field, whose length is counted. It says what octets can
 * say and judges none of it; that is for the calls. What is printed reads back to the same octets.
 */
#ifndef TEXTFORM_H
#define TEXTFORM_H

#include <stdio.h>

#include "octets.h"

/* For a program's help: the lines of settings, and those of a campus. */
#define TEXTFORM_SETTINGS_HELP                                   \
    "  switch NICKNAME mac MAC [strip] [edition N]\n"            \
    "  to DESTINATION via NEIGHBOUR mac MAC serial N [vlan N]\n" \
    "  to DESTINATION withdrawn mac MAC serial N [vlan N]\n"     \
    "  strip | strip off | edition N               of the latest switch, as lines of their own\n"
#define TEXTFORM_CAMPUS_HELP                                                                \
    "  clock SECONDS.MICROSECONDS\n"                                                        \
    "  frame at NICKNAME hex OCTETS                which may go on in the lines after it\n" \
    "  frame at NICKNAME from CAPTURE NUMBER       a frame of a pcap file, beside this file\n"
#define TEXTFORM_ANY_HELP                                                           \
    "  field TAG hex OCTETS                        any field, its length counted\n" \
    "  octets hex OCTETS                           octets as they are, such as a field cut short\n"

/* Whether characters, which have no control characters at their start, are in the text form: their first word decides.
 */
bool textform_begins(const uint8_t *characters, size_t count);

/* Reads a text and answers a status, after its message `FILE:LINE: FAULT` unless EXIT_GOOD. */
int textform_read(struct octets *octets, const uint8_t *characters, size_t count);

/* Prints octets, of which each reads back: fields as lines, and a cut one at the end as octets. */
void textform_print(FILE *file, const uint8_t *octets, size_t length);

/* Reads a clock from a word of the command line: 12 hex digits, or with a point as in the text form; false if it is
 * none. */
bool clock_read(uint8_t clock[TRILL_CLOCK], const char *word);

/* For a program's help: what such a word may be. */
#define CLOCK_HELP "SECONDS.MICROSECONDS, or 12 hex digits, 6 of each; default 0.0"

#endif
