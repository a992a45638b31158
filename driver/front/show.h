/* The ways to show a run, and a frame handled by one switch. Each answers a status, after its message unless EXIT_GOOD.
 */
#ifndef SHOW_H
#define SHOW_H

#include "octets.h"
#include "walk.h"

int show_words(const struct octets *description);
int show_json(const struct octets *description);
int show_capture(const struct octets *description);
int show_picture(const struct octets *description);
int show_explained(const struct octets *description);

int explain_frame(const struct octets *settings, const uint8_t clock[TRILL_CLOCK], const uint8_t *frame, size_t length);

/* What is done with a run: before its first hop, with each hop, and behind the last one. */
struct view {
    void (*begin)(const struct walk *walk);
    void (*hop)(const struct walk *walk, const struct hop *hop);
    void (*end)(const struct walk *walk, const struct hop *last);
    void (*refused)(uint32_t code, const char *meaning); /* in place of them; or null */
};

int view_run(const struct view *view, const struct octets *description);

/* Prints a frame field by field, the answer, and what was written in the same way. */
void print_handling(const struct rbridge *rbridge, const uint8_t *frame, size_t length,
                    const struct handling *handling);

#endif
