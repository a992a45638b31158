/* Where the parts of a frame are, as far as it goes. Whether they are good is for the handler to say. */
#ifndef LAYOUT_H
#define LAYOUT_H

#include <stdbool.h>
#include <stddef.h>
#include <stdint.h>

enum {
    ETHERTYPE_TRILL = 0x22F3,
    ETHERTYPE_ISIS = 0x22F4,
    ETHERTYPE_TAG = 0x8100,
    ETHERTYPE_CHANNEL = 0x8946,
    TRILL_HEADER = 6,
    OPTION_HEADER = 2
};

struct trill_header {
    unsigned version, reserved, multi, op_length, hop_count;
    uint16_t egress, ingress;
};

struct frame_layout {
    size_t type;   /* where the outer Ethertype stands, behind a tag if there is one */
    bool trill;    /* a TRILL header is there, */
    size_t header; /* which begins here; the parts after it are empty where the frame ends before */
    struct trill_header fields;
    size_t area, inner;
};

struct tlv_option {
    bool ingress_to_egress, not_critical, mutable; /* IE, NC, MT */
    unsigned type, length;
    size_t size; /* with header and padding */
};

/* Of a frame from its destination address on. */
void layout_read(struct frame_layout *layout, const uint8_t *frame, size_t length);

/* Of a frame from its outer Ethertype on, at this place. */
void layout_read_type(struct frame_layout *layout, const uint8_t *frame, size_t length, size_t type);

/* The option whose two octets of header begin here. */
struct tlv_option option_at(const uint8_t *octets);

#endif
