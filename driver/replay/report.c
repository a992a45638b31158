#include "report.h"

#include <inttypes.h>
#include <time.h>

#include "layout.h"

enum { RECORDS_BETWEEN_LOOKS = 256 }; /* at the time */

static const double progress_after = 2.0, progress_every = 0.25; /* seconds */

static void stamp_text(char text[32], const struct capture_input *input, const struct capture_record *record)
{
    int digits = input->format.nanoseconds ? 9 : 6;
    snprintf(text, 32, "%" PRIu32 ".%0*" PRIu32, record->seconds, digits, record->fraction);
}

static void frame_words(FILE *file, const struct capture_record *record, const struct trill_answer *answer)
{
    struct frame_layout layout;
    layout_read(&layout, record->frame, record->length);
    fprintf(file, "%" PRIu32 " octets: %u %s", record->length, answer->number, trill_answer_name(answer->number));
    if (layout.trill)
        fprintf(file, "; hop count %u, egress %04X, ingress %04X", layout.fields.hop_count, layout.fields.egress,
                layout.fields.ingress);
    if (answer->written)
        fprintf(file, "; %u octets written", answer->written);
    if (answer->beside)
        fprintf(file, "; reply of %u octets beside", answer->beside);
    if (answer->length)
        fprintf(file, "; part at octet %u, %u octets", answer->start, answer->length);
    putc('\n', file);
}

static void frame_json(FILE *file, const struct capture_record *record, const struct trill_answer *answer)
{
    struct frame_layout layout;
    layout_read(&layout, record->frame, record->length);
    fprintf(file, "\"octets\": %" PRIu32 ", \"answer\": %u, \"meaning\": \"%s\"", record->length, answer->number,
            trill_answer_name(answer->number));
    if (layout.trill)
        fprintf(file, ", \"hop_count\": %u, \"egress\": \"%04X\", \"ingress\": \"%04X\"", layout.fields.hop_count,
                layout.fields.egress, layout.fields.ingress);
    fprintf(file, ", \"written\": %u, \"beside\": %u, \"start\": %u, \"length\": %u}\n", answer->written,
            answer->beside, answer->start, answer->length);
}

void report_frame(const struct report *report, const struct capture_input *input, const struct capture_record *record,
                  struct trill_answer answer)
{
    char stamp[32];
    stamp_text(stamp, input, record);
    fprintf(report->file, report->json ? "{\"frame\": %" PRIu64 ", \"time\": \"%s\", " : "%" PRIu64 " %s ",
            input->records, stamp);
    if (report->json)
        frame_json(report->file, record, &answer);
    else
        frame_words(report->file, record, &answer);
}

void report_snapped(const struct report *report, const struct capture_input *input, const struct capture_record *record)
{
    char stamp[32];
    stamp_text(stamp, input, record);
    fprintf(report->file,
            report->json ? "{\"frame\": %" PRIu64 ", \"time\": \"%s\", \"octets\": %" PRIu32 ", \"snapped\": %" PRIu32
                           "}\n"
                         : "%" PRIu64 " %s %" PRIu32 " octets: snapped at %" PRIu32 ", not handled\n",
            input->records, stamp, record->length, record->captured);
}

static double frames_per_second(const struct capture_input *input, double seconds)
{
    return seconds > 0 ? (double)input->records / seconds : 0;
}

static void summary_words(FILE *file, const struct tally *tally, const struct capture_input *input,
                          const struct capture_output *output, const struct capture_output *delivered)
{
    fprintf(file, "%10s\n%10" PRIu64 "  read\n", "frames", input->records);
    if (input->format.fcs)
        fprintf(file, "%10s  (each without its FCS of %" PRIu32 " octets)\n", "", input->format.fcs);
    if (tally->snapped)
        fprintf(file, "%10" PRIu64 "  snapped: captured in part only, so not handled\n", tally->snapped);
    fprintf(file, "%10" PRIu64 "  handled, by answer:\n", tally->handled);
    for (uint32_t number = 0; number < TRILL_ANSWER_NUMBERS; number++) {
        if (tally->answers[number])
            fprintf(file, "%10" PRIu64 "    %2" PRIu32 " %s\n", tally->answers[number], number,
                    trill_answer_name(number));
    }
    fprintf(file, "%10" PRIu64 "  written, %" PRIu64 " octets\n", output->frames, output->octets);
    if (delivered)
        fprintf(file, "%10" PRIu64 "  delivered, %" PRIu64 " octets\n", delivered->frames, delivered->octets);
}

static void summary_json(FILE *file, const struct tally *tally, const struct capture_input *input,
                         const struct capture_output *output, const struct capture_output *delivered)
{
    const char *comma = "";
    fprintf(file,
            "{\"read\": %" PRIu64 ", \"fcs\": %" PRIu32 ", \"snapped\": %" PRIu64 ", \"handled\": %" PRIu64
            ", \"answers\": [",
            input->records, input->format.fcs, tally->snapped, tally->handled);
    for (uint32_t number = 0; number < TRILL_ANSWER_NUMBERS; number++) {
        if (!tally->answers[number])
            continue;
        fprintf(file, "%s{\"answer\": %" PRIu32 ", \"meaning\": \"%s\", \"frames\": %" PRIu64 "}", comma, number,
                trill_answer_name(number), tally->answers[number]);
        comma = ", ";
    }
    fprintf(file, "], \"written\": {\"frames\": %" PRIu64 ", \"octets\": %" PRIu64 "}", output->frames, output->octets);
    if (delivered)
        fprintf(file, ", \"delivered\": {\"frames\": %" PRIu64 ", \"octets\": %" PRIu64 "}", delivered->frames,
                delivered->octets);
}

void report_summary(const struct report *report, const struct tally *tally, const struct capture_input *input,
                    const struct capture_output *output, const struct capture_output *delivered, double seconds)
{
    double rate = frames_per_second(input, seconds);
    if (report->json) {
        summary_json(report->file, tally, input, output, delivered);
        fprintf(report->file, ", \"seconds\": %.6f, \"frames_per_second\": %.0f}\n", seconds, rate);
    } else {
        summary_words(report->file, tally, input, output, delivered);
        fprintf(report->file, "%10.0f  frames per second, in %.3f s\n", rate, seconds);
    }
}

static double now(void)
{
    struct timespec time;
    clock_gettime(CLOCK_MONOTONIC, &time);
    return (double)time.tv_sec + (double)time.tv_nsec / 1e9;
}

void progress_begin(struct progress *progress, bool wanted, uint64_t size)
{
    double begun = now();
    *progress = (struct progress){.wanted = wanted, .size = size, .begun = begun, .due = begun + progress_after};
}

void progress_step(struct progress *progress, const struct capture_input *input)
{
    if (!progress->wanted || input->records % RECORDS_BETWEEN_LOOKS != 0)
        return;
    double time = now();
    if (time < progress->due)
        return;
    progress->due = time + progress_every;
    progress->shown = true;
    fprintf(stderr, "\r%" PRIu64 " frames", input->records);
    if (progress->size)
        fprintf(stderr, ", %.0f %% of the input", 100.0 * (double)input->offset / (double)progress->size);
}

void progress_end(struct progress *progress)
{
    if (progress->shown)
        fputs("\r\033[K", stderr);
    progress->shown = false;
}

double progress_seconds(const struct progress *progress)
{
    return now() - progress->begun;
}
