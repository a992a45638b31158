/* What the programs have in common: how they end, what they say, and their standard streams. */
#ifndef PROGRAM_H
#define PROGRAM_H

#include <stddef.h>

enum { LONG_OPTION = 256 }; /* long options without a letter are numbered from here on */

enum program_status {
    EXIT_GOOD = 0,
    EXIT_FAILED = 1, /* input that cannot be read, output that is lost */
    EXIT_USAGE = 2,  /* wrong words, or a fault in a text */
    EXIT_REFUSED = 3 /* a proved call refuses what was read */
};

/* Begins a program of this name: makes its streams sure, and a closed pipe or a file's limit a failure to write like
 * any other. */
void program_begin(const char *name);

/* Each says one line on standard error and answers the status. */
int complain(int status, const char *name, const char *what);
int misused(const char *what, const char *word);
int misused_option(int found, char **words); /* as getopt_long has just found it, in options with a : first */

/* Writes all octets to standard output and answers a status, after its message if that fails. */
int print_octets(const void *octets, size_t length);
int print_text(const char *text);
int print_version(void);

/* The same for what was printed by way of stdio. */
int print_flush(void);

/* Ends a program that has printed so: answers the status, or EXIT_FAILED where output is found lost at last. */
int program_end(int status);

#endif
