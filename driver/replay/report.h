/* What the user is told: a line for each frame, the progress, the summary; in words or as JSON, an object on each line.
 */
#ifndef REPORT_H
#define REPORT_H

#include <stdbool.h>
#include <stdint.h>
#include <stdio.h>

#include "capture.h"
#include "staffripple.h"

struct tally {
    uint64_t answers[TRILL_ANSWER_NUMBERS]; /* frames by answer number */
    uint64_t handled, snapped;
};

struct report {
    FILE *file; /* standard output, or standard error if a capture goes to standard output */
    bool json;
};

struct progress {
    bool wanted;
    bool shown;
    uint64_t size; /* octets of the input, 0 if that is not known */
    double begun;  /* in seconds of a clock that does not jump */
    double due;    /* when it is shown next */
};

/* The line of a handled frame, and of one that was not handed to the handler since it was snapped. */
void report_frame(const struct report *report, const struct capture_input *input, const struct capture_record *record,
                  struct trill_answer answer);
void report_snapped(const struct report *report, const struct capture_input *input,
                    const struct capture_record *record);

/* The frames counted, in so many seconds; there may be no capture of those delivered. */
void report_summary(const struct report *report, const struct tally *tally, const struct capture_input *input,
                    const struct capture_output *output, const struct capture_output *delivered, double seconds);

/* Progress goes to standard error. It is shown once a run has taken a few seconds; the call costs little. */
void progress_begin(struct progress *progress, bool wanted, uint64_t size);
void progress_step(struct progress *progress, const struct capture_input *input);
void progress_end(struct progress *progress);
double progress_seconds(const struct progress *progress);

#endif
