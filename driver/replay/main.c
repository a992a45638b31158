/*
 * trill-replay: hands each frame of a capture to the handler, as a port driver would, and writes what it
 * writes to another capture, and what it delivers to a third.
 */
#include <errno.h>
#include <fcntl.h>
#include <getopt.h>
#include <signal.h>
#include <stdio.h>
#include <string.h>
#include <sys/stat.h>
#include <unistd.h>

#include "capture.h"
#include "handling.h"
#include "octets.h"
#include "program.h"
#include "refusal.h"
#include "report.h"
#include "textform.h"

enum { STREAM_BUFFER = 1 << 18 };

enum action { REPLAY, VERSION = LONG_OPTION, JSON, HELP = 'h' };

struct words {
    enum action action;
    bool verbose, json, unbuffered;
    bool stamps; /* the clock is each frame's time stamp */
    uint8_t clock[TRILL_CLOCK];
    const char *settings, *input, *output, *delivered; /* delivered may be null */
};

struct replay {
    struct words words;
    struct octets settings;
    struct rbridge rbridge;
    struct capture_input input;
    struct capture_output output, delivered;
    struct tally tally;
    struct progress progress;
    struct report report;
};

static volatile sig_atomic_t stopped;

static void stop(int signal_number)
{
    (void)signal_number;
    stopped = 1;
}

static const char usage[] =
    "usage: trill-replay [OPTION].. SETTINGS INPUT OUTPUT\n"
    "\n"
    "Hands each frame of the capture INPUT to the switch that SETTINGS describes, writes the frames\n"
    "that the switch sends to the capture OUTPUT with the time stamps of those received, a reply\n"
    "beside a forwarded frame after it, and prints how many frames had which answer.\n"
    "\n"
    "  -v, --verbose         a line for each frame, too\n"
    "  --json                say all this as JSON, an object on each line\n"
    "  -d, --delivered FILE  write the frames that the switch delivers to a capture of their own\n"
    "  -c, --clock CLOCK     the switch's clock:\n"
    "                        " CLOCK_HELP ";\n"
    "                        or `stamp`, each frame's own time stamp\n"
    "  -u, --unbuffered      write each frame and each line at once\n"
    "  -h, --help            this text\n"
    "  --version             the version, and the Rattle kit that it was made with\n"
    "\n"
    "INPUT is a classic pcap file of Ethernet frames. Captures are overwritten. Each file may be\n"
    "-, for standard input or output; where a capture goes to standard output, all else goes to\n"
    "standard error.\n"
    "\n"
    "SETTINGS in the text form, the switch first and once:\n"
    "\n" TEXTFORM_SETTINGS_HELP TEXTFORM_ANY_HELP "\n"
    "In octets it is a row of fields: tag 1 octet, length 2, value; all numbers big-endian. In hex\n"
    "text:\n"
    "\n" SETTINGS_HELP "\n" VALUES_HELP "\n" OCTETS_HELP "\n"
    "Exit status:\n"
    "  0  all frames are read\n"
    "  1  input could not be read, a capture is damaged, output was lost, or a signal stopped it\n"
    "  2  wrong usage, or a fault in a text, said as FILE:LINE: FAULT\n"
    "  3  the settings are refused\n";

static bool is_stream(const char *name)
{
    return strcmp(name, "-") == 0;
}

/* Each step of a run answers EXIT_GOOD, or another exit status after its message. */
static int read_operands(struct words *words, int count, char **given)
{
    if (words->action != REPLAY)
        return EXIT_GOOD;
    if (count < 3)
        return misused("settings, input and output are wanted", "");
    if (count > 3)
        return misused("settings, input and output are wanted, and not also ", given[3]);
    words->settings = given[0];
    words->input = given[1];
    words->output = given[2];
    if (is_stream(words->settings) && is_stream(words->input))
        return misused("settings and input cannot both be standard input", "");
    if (words->delivered && is_stream(words->delivered) && is_stream(words->output))
        return misused("two captures cannot both be standard output", "");
    return EXIT_GOOD;
}

static int read_clock(struct words *words, const char *word)
{
    words->stamps = strcmp(word, "stamp") == 0;
    if (words->stamps || clock_read(words->clock, word))
        return EXIT_GOOD;
    return misused("a clock is stamp, SECONDS.MICROSECONDS or 12 hex digits, and this is none: ", word);
}

static int read_option(struct words *words, int option, char **given)
{
    switch (option) {
    case 'v':
        words->verbose = true;
        return EXIT_GOOD;
    case 'u':
        words->unbuffered = true;
        return EXIT_GOOD;
    case 'd':
        words->delivered = optarg;
        return EXIT_GOOD;
    case 'c':
        return read_clock(words, optarg);
    case JSON:
        words->json = true;
        return EXIT_GOOD;
    case HELP:
    case VERSION:
        words->action = (enum action)option;
        return EXIT_GOOD;
    default:
        return misused_option(option, given);
    }
}

static int read_words(struct words *words, int count, char **given)
{
    static const struct option options[] = {
        {"verbose", no_argument, NULL, 'v'},         {"json", no_argument, NULL, JSON},
        {"delivered", required_argument, NULL, 'd'}, {"clock", required_argument, NULL, 'c'},
        {"unbuffered", no_argument, NULL, 'u'},      {"help", no_argument, NULL, HELP},
        {"version", no_argument, NULL, VERSION},     {NULL, 0, NULL, 0}};
    int option, status = EXIT_GOOD;
    while (status == EXIT_GOOD && (option = getopt_long(count, given, ":vd:c:uh", options, NULL)) != -1)
        status = read_option(words, option, given);
    return status == EXIT_GOOD ? read_operands(words, count - optind, given + optind) : status;
}

static int read_settings(struct replay *replay)
{
    struct octets *settings = &replay->settings;
    int status = octets_read(settings, replay->words.settings);
    if (status != EXIT_GOOD)
        return status;
    if (settings->length > OCTETS_MOST)
        return complain(EXIT_USAGE, settings->name, "over 32,768 octets, so it was not read to its end");
    if (rbridge_prepare(&replay->rbridge, settings->at, settings->length))
        return EXIT_GOOD;
    refusal_say(SETTINGS, settings, TRILL_REFUSED_SETTINGS, trill_answer_name(TRILL_REFUSED_SETTINGS));
    return EXIT_REFUSED;
}

static int open_input(struct replay *replay)
{
    static char buffer[STREAM_BUFFER];
    const char *name = replay->words.input;
    FILE *file = is_stream(name) ? stdin : fopen(name, "rb");
    if (!file)
        return complain(EXIT_FAILED, name, strerror(errno));
    setvbuf(file, buffer, _IOFBF, sizeof buffer);
    if (!capture_begin(&replay->input, file))
        return complain(EXIT_FAILED, name, replay->input.error);
    return EXIT_GOOD;
}

static bool same_file(const struct stat *left, const struct stat *right)
{
    return S_ISREG(left->st_mode) && left->st_dev == right->st_dev && left->st_ino == right->st_ino;
}

/* Refuses an output that would destroy what is read or written, before anything of it is lost. */
static int judge_output(const struct replay *replay, const char *name, int file)
{
    const struct words *words = &replay->words;
    struct stat output, other;
    if (isatty(file))
        return complain(EXIT_USAGE, name, "a capture is not for a terminal: name a file or a pipe");
    if (fstat(file, &output) != 0)
        return complain(EXIT_FAILED, name, strerror(errno));
    if (fstat(fileno(replay->input.file), &other) == 0 && same_file(&output, &other))
        return complain(EXIT_USAGE, name, "is the input, too");
    if (stat(words->settings, &other) == 0 && same_file(&output, &other))
        return complain(EXIT_USAGE, name, "is the settings file, too");
    if (name == words->delivered && fstat(replay->output.file, &other) == 0 && same_file(&output, &other))
        return complain(EXIT_USAGE, name, "is the output, too");
    return EXIT_GOOD;
}

static int open_output(const struct replay *replay, const char *name, int *file)
{
    *file = is_stream(name) ? STDOUT_FILENO : open(name, O_WRONLY | O_CREAT, 0666);
    if (*file < 0)
        return complain(EXIT_FAILED, name, strerror(errno));
    return judge_output(replay, name, *file);
}

static int create_output(const struct replay *replay, const char *name, struct capture_output *output)
{
    struct stat file;
    bool cut = !is_stream(name) && fstat(output->file, &file) == 0 && S_ISREG(file.st_mode);
    if ((cut && ftruncate(output->file, 0) != 0) || !capture_create(output, output->file, &replay->input.format))
        return complain(EXIT_FAILED, name, strerror(errno));
    return EXIT_GOOD;
}

/* Opens all outputs before one of them is overwritten. */
static int open_outputs(struct replay *replay)
{
    const struct words *words = &replay->words;
    int status = open_output(replay, words->output, &replay->output.file);
    if (status == EXIT_GOOD && words->delivered)
        status = open_output(replay, words->delivered, &replay->delivered.file);
    if (status == EXIT_GOOD)
        status = create_output(replay, words->output, &replay->output);
    if (status == EXIT_GOOD && words->delivered)
        status = create_output(replay, words->delivered, &replay->delivered);
    return status;
}

/* A time stamp as a clock; a fraction of more than a second, which a capture may hold, is carried over. */
static void stamp_clock(uint8_t clock[TRILL_CLOCK], const struct capture_record *record, bool nanoseconds)
{
    enum { MICROSECONDS = 1000000 };
    uint32_t fraction = nanoseconds ? record->fraction / 1000 : record->fraction;
    uint32_t seconds = record->seconds + fraction / MICROSECONDS;
    fraction %= MICROSECONDS;
    for (unsigned i = 0; i < 3; i++) {
        clock[i] = (uint8_t)(seconds >> 8 * (2 - i));
        clock[3 + i] = (uint8_t)(fraction >> 8 * (2 - i));
    }
}

/* Says where writing failed, of which errno has the reason. */
static int lost(struct replay *replay, const char *name)
{
    int cause = errno;
    progress_end(&replay->progress);
    return complain(EXIT_FAILED, name, strerror(cause));
}

/* Writes what the handler has written, a reply beside a forwarded frame after it, and what it delivers. */
static int write_frames(struct replay *replay, const struct capture_record *record, const struct handling *handling)
{
    const struct words *words = &replay->words;
    const struct trill_answer *answer = &handling->answer;
    struct trill_part part = trill_part_of(record->frame, record->length, answer->start, answer->length);
    if (answer->written && !capture_write(&replay->output, record, handling->out, answer->written))
        return lost(replay, words->output);
    if (answer->beside && !capture_write(&replay->output, record, handling->beside, answer->beside))
        return lost(replay, words->output);
    if (words->delivered && part.length &&
        !capture_write(&replay->delivered, record, part.octets, (uint32_t)part.length))
        return lost(replay, words->delivered);
    if (!words->unbuffered)
        return EXIT_GOOD;
    if (!capture_flush(&replay->output))
        return lost(replay, words->output);
    if (words->delivered && !capture_flush(&replay->delivered))
        return lost(replay, words->delivered);
    fflush(replay->report.file);
    return EXIT_GOOD;
}

/* Hands a frame to the handler and writes what comes of it. */
static int handle_frame(struct replay *replay, const struct capture_record *record)
{
    static struct handling handling;
    struct words *words = &replay->words;
    if (record->captured < record->length) {
        replay->tally.snapped++;
        if (words->verbose)
            report_snapped(&replay->report, &replay->input, record);
        return EXIT_GOOD;
    }
    if (words->stamps)
        stamp_clock(words->clock, record, replay->input.format.nanoseconds);
    rbridge_handle(&replay->rbridge, record->frame, record->length, words->clock, &handling);
    replay->tally.handled++;
    replay->tally.answers[handling.answer.number]++;
    if (words->verbose)
        report_frame(&replay->report, &replay->input, record, handling.answer);
    return write_frames(replay, record, &handling);
}

static int handle_frames(struct replay *replay)
{
    struct capture_record record;
    enum capture_status status = CAPTURE_END;
    while (!stopped && (status = capture_next(&replay->input, &record)) == CAPTURE_READ) {
        int handled = handle_frame(replay, &record);
        if (handled != EXIT_GOOD)
            return handled;
        progress_step(&replay->progress, &replay->input);
    }
    progress_end(&replay->progress);
    if (stopped)
        return complain(EXIT_FAILED, replay->words.input, "stopped by a signal");
    if (status == CAPTURE_DAMAGED)
        return complain(EXIT_FAILED, replay->words.input, replay->input.error);
    return EXIT_GOOD;
}

static void begin_progress(struct replay *replay)
{
    struct stat input;
    bool known = fstat(fileno(replay->input.file), &input) == 0 && S_ISREG(input.st_mode);
    bool listed = replay->words.verbose && isatty(fileno(replay->report.file));
    progress_begin(&replay->progress, isatty(STDERR_FILENO) && !listed, known ? (uint64_t)input.st_size : 0);
}

static int close_output(struct capture_output *output, const char *name, int status)
{
    if (capture_flush(output) && close(output->file) == 0)
        return status;
    return complain(EXIT_FAILED, name, strerror(errno));
}

/* Keeps what was done, however the run has ended. */
static int finish(struct replay *replay, int status)
{
    const struct words *words = &replay->words;
    FILE *report = replay->report.file;
    status = close_output(&replay->output, words->output, status);
    if (words->delivered)
        status = close_output(&replay->delivered, words->delivered, status);
    report_summary(&replay->report, &replay->tally, &replay->input, &replay->output,
                   words->delivered ? &replay->delivered : NULL, progress_seconds(&replay->progress));
    if (fflush(report) != 0 || ferror(report))
        status = complain(EXIT_FAILED, "summary", strerror(errno));
    return status;
}

/* A run that is stopped keeps what was done; a second signal ends it all the same. */
static void take_signals(void)
{
    struct sigaction action = {.sa_handler = stop, .sa_flags = (int)SA_RESETHAND};
    sigemptyset(&action.sa_mask);
    sigaction(SIGINT, &action, NULL);
    sigaction(SIGTERM, &action, NULL);
}

static int run(struct replay *replay)
{
    take_signals();
    int status = read_settings(replay);
    if (status == EXIT_GOOD)
        status = open_input(replay);
    if (status == EXIT_GOOD)
        status = open_outputs(replay);
    if (status != EXIT_GOOD)
        return status;
    const struct words *words = &replay->words;
    bool streamed = is_stream(words->output) || (words->delivered && is_stream(words->delivered));
    replay->report = (struct report){streamed ? stderr : stdout, words->json};
    begin_progress(replay);
    return finish(replay, handle_frames(replay));
}

int main(int count, char **given)
{
    static struct replay replay;
    program_begin("trill-replay");
    int status = read_words(&replay.words, count, given);
    if (status != EXIT_GOOD)
        return status;
    switch (replay.words.action) {
    case HELP:
        return program_end(print_text(usage));
    case VERSION:
        return program_end(print_version());
    default:
        return run(&replay);
    }
}
