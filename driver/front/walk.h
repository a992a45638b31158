/*
 * A run gone through hop by hop, with the frame of each. The campus call says what happens: each handling is made again
 * by the handler's call, and compared with the entry of the trace.
 */
#ifndef WALK_H
#define WALK_H

#include "handling.h"
#include "layout.h"
#include "octets.h"

enum { CAMPUS_SWITCHES = 16, CAMPUS_REPLIES = 63 /* as many as a run can have */ };

/* A frame on its way, and the switch that it comes to, by its place in the arrays. */
struct moving {
    unsigned at;
    size_t length;
    uint8_t frame[TRILL_FRAME_MOST];
};

struct walk {
    struct campus_answer run;
    unsigned count;          /* switches */
    unsigned done;           /* hops so far */
    unsigned replies, taken; /* those made, and so many of those that wait have had their turn */
    bool reply;              /* the frame is a reply */
    uint8_t clock[TRILL_CLOCK];
    uint16_t nicknames[CAMPUS_SWITCHES];
    struct rbridge rbridges[CAMPUS_SWITCHES];
    struct moving now; /* at count where no frame is left */
    unsigned waiting;  /* replies that wait, or have waited: those to a switch of the campus, in the order made */
    struct moving queue[CAMPUS_REPLIES];
    uint8_t trace[CAMPUS_TRACE_MOST];
    uint8_t settings[OCTETS_MOST]; /* of all switches, those of each together */
};

struct hop {
    unsigned number; /* from 1 on */
    unsigned at;
    uint16_t nickname;
    bool reply;
    struct frame_layout layout;
    bool last;        /* of the run */
    bool left;        /* the frame written left the campus, */
    bool beside_left; /* and so the reply beside it */
    size_t length;
    uint8_t frame[TRILL_FRAME_MOST];
    struct handling handling;
};

/* Begins to go through the run of a description, which must stay; walk->run has the campus call's answer. */
void walk_begin(struct walk *walk, const struct octets *octets);

/* The next hop; false if there is none any more. */
bool walk_next(struct walk *walk, struct hop *hop);

/* Whether all entries of the trace were met, and nothing else. */
bool walk_agrees(const struct walk *walk);

/* How the run ended, in one word or two, and in words. */
enum { ENDING_MOST = 200 };
const char *walk_ending(const struct hop *last);
void walk_ending_words(char text[ENDING_MOST], const struct hop *last);

#endif
