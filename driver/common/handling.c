#include "handling.h"

#include "fields.h"
#include "octets.h"

/* The edition that settings choose: the last field counts. */
static unsigned edition_of(const uint8_t *settings, size_t length)
{
    struct field field;
    unsigned edition = EDITION_DRAFT;
    for (size_t place = 0; field_next(&field, settings, length, &place);) {
        if (field.tag == TAG_EDITION && field.length == 1)
            edition = field.value[0];
    }
    return edition;
}

bool rbridge_prepare(struct rbridge *rbridge, const uint8_t *settings, size_t length)
{
    rbridge->settings = settings;
    rbridge->length = length;
    rbridge->edition = edition_of(settings, length);
    return trill_prepare(staffripple_input(settings), length, rbridge->store, TRILL_PREPARED_WORDS) == 0;
}

void rbridge_handle(const struct rbridge *rbridge, const uint8_t *frame, size_t length,
                    const uint8_t clock[TRILL_CLOCK], struct handling *handling)
{
    handling->answer = trill_handle_prepared(staffripple_input(frame), length, rbridge->store, TRILL_PREPARED_WORDS,
                                             clock, TRILL_CLOCK, handling->out, sizeof handling->out, handling->beside,
                                             sizeof handling->beside);
}
