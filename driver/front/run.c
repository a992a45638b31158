/* A run in words, as JSON and as a capture. */
#include <errno.h>
#include <inttypes.h>
#include <stdio.h>
#include <string.h>
#include <unistd.h>

#include "capture.h"
#include "program.h"
#include "refusal.h"
#include "show.h"

int view_run(const struct view *view, const struct octets *description)
{
    static struct walk walk;
    static struct hop hop;
    walk_begin(&walk, description);
    if (walk.run.code != CAMPUS_RAN) {
        const char *meaning = campus_code_name(walk.run.code);
        if (view->refused)
            view->refused(walk.run.code, meaning);
        int status = print_flush();
        refusal_say(DESCRIPTION, description, walk.run.code, meaning);
        return status == EXIT_GOOD ? EXIT_REFUSED : status;
    }
    view->begin(&walk);
    while (walk_next(&walk, &hop))
        view->hop(&walk, &hop);
    if (!walk_agrees(&walk))
        return complain(EXIT_FAILED, description->name, "the handlings made again differ from the run");
    view->end(&walk, &hop);
    return print_flush();
}

static const char *frame_name(const struct hop *hop)
{
    return hop->reply ? "reply" : "original";
}

static void no_begin(const struct walk *walk)
{
    (void)walk;
}

/* ---- In words ---- */

static void refused_words(uint32_t code, const char *meaning)
{
    printf("refused with %" PRIu32 ", %s\n", code, meaning);
}

static void hop_words(const struct walk *walk, const struct hop *hop)
{
    static const char outside[] = ", which is no switch of the campus";
    const struct trill_answer *answer = &hop->handling.answer;
    (void)walk;
    printf("%4u  %04X  %-8s  hop count %2u  egress %04X  %2u %s", hop->number, hop->nickname, frame_name(hop),
           hop->layout.fields.hop_count, hop->layout.fields.egress, answer->number, trill_answer_name(answer->number));
    if (answer->written)
        printf("; %u octets sent to %04X%s", answer->written, answer->neighbour,
               hop->left && !hop->last ? outside : "");
    if (answer->beside)
        printf("; reply of %u octets sent to %04X%s", answer->beside, answer->beside_neighbour,
               hop->beside_left ? outside : "");
    if (answer->length)
        printf("; %u octets", answer->length);
    putchar('\n');
}

static void end_words(const struct walk *walk, const struct hop *last)
{
    char ending[ENDING_MOST];
    walk_ending_words(ending, last);
    printf("%s, after %u handling%s", ending, walk->done, walk->done == 1 ? "" : "s");
    if (walk->replies > 1)
        printf(" and with %u replies", walk->replies);
    putchar('\n');
}

int show_words(const struct octets *description)
{
    static const struct view view = {no_begin, hop_words, end_words, refused_words};
    return view_run(&view, description);
}

/* ---- As JSON ---- */

static void refused_json(uint32_t code, const char *meaning)
{
    printf("{\"code\": %" PRIu32 ", \"meaning\": \"%s\"}\n", code, meaning);
}

static void print_hex(const char *name, const uint8_t *octets, size_t length)
{
    printf(", \"%s\": ", name);
    if (length == 0) {
        fputs("null", stdout);
        return;
    }
    putchar('"');
    for (size_t i = 0; i < length; i++)
        printf("%02X", octets[i]);
    putchar('"');
}

static void print_neighbour(const char *name, uint16_t nickname)
{
    printf(nickname ? ", \"%s\": \"%04X\"" : ", \"%s\": null", name, nickname);
}

static void begin_json(const struct walk *walk)
{
    printf("{\"code\": %" PRIu32 ", \"meaning\": \"%s\", \"handlings\": [", walk->run.code,
           campus_code_name(walk->run.code));
}

static void hop_json(const struct walk *walk, const struct hop *hop)
{
    const struct trill_answer *answer = &hop->handling.answer;
    (void)walk;
    printf("%s\n  {\"number\": %u, \"switch\": \"%04X\", \"frame\": \"%s\", \"hop_count\": %u, \"egress\": \"%04X\"",
           hop->number == 1 ? "" : ",", hop->number, hop->nickname, frame_name(hop), hop->layout.fields.hop_count,
           hop->layout.fields.egress);
    printf(", \"answer\": %u, \"meaning\": \"%s\", \"start\": %u, \"length\": %u", answer->number,
           trill_answer_name(answer->number), answer->start, answer->length);
    print_neighbour("neighbour", answer->neighbour);
    print_neighbour("beside_neighbour", answer->beside_neighbour);
    print_hex("received", hop->frame, hop->length);
    print_hex("written", hop->handling.out, answer->written);
    print_hex("beside", hop->handling.beside, answer->beside);
    putchar('}');
}

static void end_json(const struct walk *walk, const struct hop *last)
{
    char ending[ENDING_MOST];
    walk_ending_words(ending, last);
    printf("],\n \"handled\": %u, \"replies\": %u, \"end\": {\"how\": \"%s\", \"switch\": \"%04X\", \"answer\": %u",
           walk->done, walk->replies, walk_ending(last), last->nickname, last->handling.answer.number);
    print_neighbour("towards", last->left ? last->handling.answer.neighbour : 0);
    printf(", \"words\": \"%s\"}}\n", ending);
}

int show_json(const struct octets *description)
{
    static const struct view view = {begin_json, hop_json, end_json, refused_json};
    return view_run(&view, description);
}

/* ---- As a capture: a record for each frame on a link, that of hop n with a time stamp of n microseconds ---- */

static struct capture_output capture;
static bool captured;

static void begin_capture(const struct walk *walk)
{
    static const struct capture_format format = {.big_endian = false};
    (void)walk;
    captured = capture_create(&capture, STDOUT_FILENO, &format);
}

static void hop_capture(const struct walk *walk, const struct hop *hop)
{
    const struct handling *handling = &hop->handling;
    struct capture_record stamp = {.fraction = hop->number};
    (void)walk;
    captured = captured && capture_write(&capture, &stamp, hop->frame, (uint32_t)hop->length);
    stamp.fraction++;
    if (hop->left)
        captured = captured && capture_write(&capture, &stamp, handling->out, handling->answer.written);
    if (hop->beside_left)
        captured = captured && capture_write(&capture, &stamp, handling->beside, handling->answer.beside);
}

static void end_capture(const struct walk *walk, const struct hop *last)
{
    (void)walk, (void)last;
    captured = captured && capture_flush(&capture);
}

int show_capture(const struct octets *description)
{
    static const struct view view = {begin_capture, hop_capture, end_capture, NULL};
    captured = true;
    if (isatty(STDOUT_FILENO))
        return complain(EXIT_USAGE, "standard output", "a capture is not for a terminal: name a file or a pipe");
    int status = view_run(&view, description);
    if (status == EXIT_GOOD && !captured)
        return complain(EXIT_FAILED, "standard output", strerror(errno));
    return status;
}
