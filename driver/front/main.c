/* staffripple: prints the run of a campus description, shows it in other ways, explains a frame, and turns octets into
 * text. */
#include <errno.h>
#include <getopt.h>
#include <stdio.h>
#include <stdlib.h>
#include <string.h>

#include "capture.h"
#include "octets.h"
#include "program.h"
#include "refusal.h"
#include "show.h"
#include "staffripple.h"
#include "textform.h"

static const char usage[] =
    "usage: staffripple [OPTION] [FILE]\n"
    "       staffripple --explain [FILE | SETTINGS FRAME | SETTINGS CAPTURE NUMBER]\n"
    "\n"
    "Prints the run of one frame through a campus of switches: a line for each handling, and\n"
    "`handled` with their number. FILE describes campus and frame; with no FILE, or with -, the\n"
    "description is read from standard input. One that is refused prints `refused` and a number,\n"
    "and where and why is said on standard error.\n"
    "\n"
    "  --words     the run with the answers' meanings, and how it ended\n"
    "  --json      the same as JSON, with the frames\n"
    "  --svg       the same as a picture of the campus\n"
    "  --pcap      the frame on each link, as a capture that analysers read\n"
    "  --explain   each handling of the run field by field; or of one frame by the switch of\n"
    "              SETTINGS: FRAME is a file as below, CAPTURE a pcap file\n"
    "  -c, --clock CLOCK  the clock for one frame explained:\n"
    "              " CLOCK_HELP "\n"
    "  --text      print the octets of FILE in the text form, and run nothing\n"
    "  --octets    write the octets of FILE, and run nothing\n"
    "  --answers   list the answers and the refusals by number\n"
    "  -h, --help  this text\n"
    "  --version   the version, and the Rattle kit that it was made with\n"
    "\n"
    "A line has the switch's nickname, O for the original frame or R for a reply to it, the\n"
    "answer's number, and the hop count and the egress nickname that the frame came with. Replies\n"
    "run in the order made, after the original has stopped.\n"
    "\n";

static const char usage_of_files[] =
    "A description in the text form has for each switch, up to 16:\n"
    "\n" TEXTFORM_SETTINGS_HELP "\n"
    "and for the whole campus, a clock at most once and the frame last:\n"
    "\n" TEXTFORM_CAMPUS_HELP "\n"
    "and for all else:\n"
    "\n" TEXTFORM_ANY_HELP "\n"
    "In octets it is a row of fields: tag 1 octet, length 2, value; all numbers big-endian. In hex\n"
    "text:\n"
    "\n" SETTINGS_HELP "  04 0006 CLOCK                               3 octets of seconds, 3 of microseconds; at\n"
    "                                              most once, default 000000000000\n"
    "  05 LENGTH NICKNAME FRAME                    the switch that the frame enters at, and the\n"
    "                                              frame from its destination address on, no\n"
    "                                              FCS, up to 2,048 octets; once, and last\n"
    "\n" VALUES_HELP "No two switches have the same nickname. A description has up to 32,768 octets.\n"
    "\n" OCTETS_HELP "\n"
    "Exit status:\n"
    "  0  the run is printed, or what else was asked for\n"
    "  1  input could not be read, or output was lost; in a checkout also: proof or build failed\n"
    "  2  wrong usage, or a fault in a text, said as FILE:LINE: FAULT\n"
    "  3  the description or the settings are refused\n";

enum action {
    RUN,
    WORDS = LONG_OPTION,
    JSON,
    SVG,
    PCAP,
    EXPLAIN,
    TEXT,
    OCTETS,
    ANSWERS,
    VERSION,
    HELP = 'h',
    CLOCK = 'c'
};

struct words {
    enum action action;
    const char *asked; /* the option that asks for it, or null */
    const char *file;
    const char *frame, *number; /* of --explain, or null */
    uint8_t clock[TRILL_CLOCK];
};

static const struct option options[] = {
    {"words", no_argument, NULL, WORDS},     {"json", no_argument, NULL, JSON},
    {"svg", no_argument, NULL, SVG},         {"pcap", no_argument, NULL, PCAP},
    {"explain", no_argument, NULL, EXPLAIN}, {"clock", required_argument, NULL, CLOCK},
    {"text", no_argument, NULL, TEXT},       {"octets", no_argument, NULL, OCTETS},
    {"answers", no_argument, NULL, ANSWERS}, {"help", no_argument, NULL, HELP},
    {"version", no_argument, NULL, VERSION}, {NULL, 0, NULL, 0}};

static int read_operands(struct words *words, int count, char **given)
{
    int most = words->action == EXPLAIN ? 3 : 1;
    if (count > most)
        return misused(most == 1 ? "one file at a time, and not also "
                                 : "settings, a capture and a number, and not also ",
                       given[most]);
    words->file = count > 0 ? given[0] : "-";
    words->frame = count > 1 ? given[1] : NULL;
    words->number = count > 2 ? given[2] : NULL;
    if (words->frame && strcmp(words->file, "-") == 0 && strcmp(words->frame, "-") == 0)
        return misused("settings and frame cannot both be standard input", "");
    return EXIT_GOOD;
}

/* Takes what to do; two such options are one too many. */
static int take_action(struct words *words, int action, const char *word)
{
    if (words->asked && (enum action)action != words->action)
        return misused("one of these at a time: ", word);
    words->action = (enum action)action;
    words->asked = word;
    return EXIT_GOOD;
}

static int read_words(struct words *words, int count, char **given)
{
    int option, status = EXIT_GOOD;
    while (status == EXIT_GOOD && (option = getopt_long(count, given, ":hc:", options, NULL)) != -1) {
        if (option == '?' || option == ':')
            return misused_option(option, given);
        if (option != CLOCK)
            status = take_action(words, option, given[optind - 1]);
        else if (!clock_read(words->clock, optarg))
            return misused("a clock is SECONDS.MICROSECONDS or 12 hex digits, and this is none: ", optarg);
    }
    return status == EXIT_GOOD ? read_operands(words, count - optind, given + optind) : status;
}

static int print_answers(void)
{
#define LINE(constant, number, meaning) #number "  " meaning "\n"
    return print_text("Answers of one handling\n" TRILL_ANSWERS(LINE) "Refusals of a description\n" CAMPUS_CODES(LINE));
#undef LINE
}

/* Prints what the proved call writes; only where it is a refusal is there more to say. */
static int print_run(const struct octets *octets)
{
    static uint8_t trace[CAMPUS_TRACE_MOST], text[CAMPUS_TEXT_MOST];
    struct campus_answer run = campus_run(octets->at, octets->length, trace, sizeof trace);
    struct campus_text_answer printed = campus_text(octets->at, octets->length, text, sizeof text);
    int status = print_octets(text, printed.written);
    if (status != EXIT_GOOD || run.code == CAMPUS_RAN)
        return status;
    refusal_say(DESCRIPTION, octets, run.code, campus_code_name(run.code));
    return EXIT_REFUSED;
}

static int write_octets(const struct octets *octets)
{
    if (octets->length > OCTETS_MOST)
        return complain(EXIT_FAILED, octets->name, "longer than any description, so it was not read to its end");
    return print_octets(octets->at, octets->length);
}

static int print_as_text(const struct octets *octets)
{
    if (octets->length > OCTETS_MOST)
        return write_octets(octets);
    textform_print(stdout, octets->at, octets->length);
    return print_flush();
}

/* The frame of this number in a capture. */
static int explain_captured(const struct words *words, const struct octets *settings)
{
    static struct capture_input input;
    struct capture_record record;
    char *end;
    errno = 0;
    unsigned long number = strtoul(words->number, &end, 10);
    if (*end != 0 || words->number[0] < '0' || words->number[0] > '9' || number == 0 || errno != 0)
        return misused("the number of a frame is wanted, from 1 on, and this is none: ", words->number);
    if (!capture_pick(&input, words->frame, number, &record))
        return complain(EXIT_FAILED, words->frame, input.error);
    return explain_frame(settings, words->clock, record.frame, record.length);
}

static int explain(const struct words *words, const struct octets *octets)
{
    static struct octets frame;
    if (!words->frame)
        return show_explained(octets);
    if (words->number)
        return explain_captured(words, octets);
    int status = octets_read(&frame, words->frame);
    if (status != EXIT_GOOD)
        return status;
    if (capture_begins(frame.at, frame.length))
        return misused("the number of a frame is wanted after the capture ", words->frame);
    return explain_frame(octets, words->clock, frame.at, frame.length);
}

static int perform_on(const struct words *words, const struct octets *octets)
{
    switch (words->action) {
    case WORDS:
        return show_words(octets);
    case JSON:
        return show_json(octets);
    case SVG:
        return show_picture(octets);
    case PCAP:
        return show_capture(octets);
    case EXPLAIN:
        return explain(words, octets);
    case TEXT:
        return print_as_text(octets);
    case OCTETS:
        return write_octets(octets);
    default:
        return print_run(octets);
    }
}

static int perform(const struct words *words)
{
    static struct octets octets;
    int status;
    switch (words->action) {
    case HELP:
        status = print_text(usage);
        return status == EXIT_GOOD ? print_text(usage_of_files) : status;
    case VERSION:
        return print_version();
    case ANSWERS:
        return print_answers();
    default:
        status = octets_read(&octets, words->file);
        return status == EXIT_GOOD ? perform_on(words, &octets) : status;
    }
}

int main(int count, char **given)
{
    static struct words words;
    program_begin("staffripple");
    int status = read_words(&words, count, given);
    return program_end(status == EXIT_GOOD ? perform(&words) : status);
}
