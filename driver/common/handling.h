/* A switch (RBridge) with its settings prepared, and a frame handled by it: the one place where the programs call the
 * handler. */
#ifndef HANDLING_H
#define HANDLING_H

#include <stdbool.h>
#include <stddef.h>
#include <stdint.h>

#include "staffripple.h"

enum { EDITION_DRAFT = 1, EDITION_FLAGS = 2 }; /* of the header extension: the options draft, or RFC 7179 */

struct rbridge {
    const uint8_t *settings;
    size_t length;
    unsigned edition;
    uint64_t store[TRILL_PREPARED_WORDS];
};

struct handling {
    struct trill_answer answer;
    uint8_t out[TRILL_OUTPUT_LEAST];    /* the first answer.written octets are written */
    uint8_t beside[TRILL_BESIDE_LEAST]; /* the first answer.beside octets are a reply made beside it */
};

/* Prepares settings, which must stay; false if they are bad. */
bool rbridge_prepare(struct rbridge *rbridge, const uint8_t *settings, size_t length);

void rbridge_handle(const struct rbridge *rbridge, const uint8_t *frame, size_t length,
                    const uint8_t clock[TRILL_CLOCK], struct handling *handling);

#endif
