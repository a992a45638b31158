/*
 * In place of the library while that is not proved yet: with it the program can say what needs no answer, as its help
 * or a fault in a text. Where it would call the library it ends, with a status that it never has otherwise.
 */
#include <stdlib.h>

#include "staffripple.h"

enum { EXIT_UNPROVED = 75 };

struct campus_answer campus_run(const uint8_t *description, size_t description_len, uint8_t *trace, size_t trace_len)
{
    (void)description, (void)description_len, (void)trace, (void)trace_len;
    exit(EXIT_UNPROVED);
}

struct campus_text_answer campus_text(const uint8_t *description, size_t description_len, uint8_t *text,
                                      size_t text_len)
{
    (void)description, (void)description_len, (void)text, (void)text_len;
    exit(EXIT_UNPROVED);
}

uint32_t trill_prepare(const uint8_t *settings, size_t settings_len, uint64_t *store, size_t words)
{
    (void)settings, (void)settings_len, (void)store, (void)words;
    exit(EXIT_UNPROVED);
}

struct trill_answer trill_handle_prepared(const uint8_t *frame, size_t frame_len, const uint64_t *store, size_t words,
                                          const uint8_t *clock, size_t clock_len, uint8_t *out, size_t out_len,
                                          uint8_t *beside, size_t beside_len)
{
    (void)frame, (void)frame_len, (void)store, (void)words, (void)clock, (void)clock_len, (void)out, (void)out_len;
    (void)beside, (void)beside_len;
    exit(EXIT_UNPROVED);
}
