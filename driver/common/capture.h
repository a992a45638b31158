/* Classic pcap files of Ethernet frames, read and written as streams. */
#ifndef CAPTURE_H
#define CAPTURE_H

#include <stdbool.h>
#include <stddef.h>
#include <stdint.h>
#include <stdio.h>

enum {
    CAPTURE_FRAME_MOST = 262144, /* the longest captured frame that other tools write, too */
    CAPTURE_HELD = 262144,       /* octets that wait to be written together */
    CAPTURE_ERROR = 200
};

/* What a file's header says of its records; an output has the format of its input. */
struct capture_format {
    bool big_endian;
    bool nanoseconds;
    uint32_t zone, accuracy; /* of the time stamps; carried over */
    uint32_t fcs;            /* octets of FCS at the end of each frame */
};

struct capture_input {
    FILE *file;
    struct capture_format format;
    uint64_t records, offset; /* read so far: whole records, octets */
    char error[CAPTURE_ERROR];
};

struct capture_record {
    uint32_t seconds, fraction; /* time stamp, its fraction in microseconds or nanoseconds */
    const uint8_t *frame;       /* without FCS; good until the next record is read */
    uint32_t length;            /* octets of the frame, without FCS */
    uint32_t captured;          /* octets of it that were captured; under length if it was snapped */
};

enum capture_status { CAPTURE_READ, CAPTURE_END, CAPTURE_DAMAGED };

struct capture_output {
    int file;
    struct capture_format format;
    uint64_t frames, octets; /* in whole records that are written; record headers are not counted */
    size_t held;
    uint8_t records[CAPTURE_HELD];
};

/* Whether octets begin as a capture does, of this kind or another. */
bool capture_begins(const uint8_t *octets, size_t length);

/* Reads the file header; false, with an error, if it is not one of a capture that can be read. */
bool capture_begin(struct capture_input *input, FILE *file);

/* Reads the next record, CAPTURE_END if there is none, CAPTURE_DAMAGED with an error if it is not whole. */
enum capture_status capture_next(struct capture_input *input, struct capture_record *record);

/*
 * Opens a capture and reads its frame of this number, counted from 1; false, with an error, if there is none or if it
 * was captured in part only.
 */
bool capture_pick(struct capture_input *input, const char *path, uint64_t number, struct capture_record *record);

/*
 * Write a file header, a record with the time stamp of another, and what is held; false if writing failed, and errno
 * says why. Then nothing is held any more, and a file has no part of a record at its end.
 */
bool capture_create(struct capture_output *output, int file, const struct capture_format *format);
bool capture_write(struct capture_output *output, const struct capture_record *stamp, const uint8_t *frame,
                   uint32_t length);
bool capture_flush(struct capture_output *output);

#endif
