#include "layout.h"

#include "staffripple.h"

enum { ADDRESSES = 12, TYPE = 2, TAG = 4, WORD = 4 };

static void read_header(struct trill_header *fields, const uint8_t *header)
{
    unsigned word = staffripple_get16(header);
    fields->version = word >> 14;
    fields->reserved = word >> 12 & 3;
    fields->multi = word >> 11 & 1;
    fields->op_length = word >> 6 & 0x1F;
    fields->hop_count = word & 0x3F;
    fields->egress = staffripple_get16(header + 2);
    fields->ingress = staffripple_get16(header + 4);
}

static size_t at_most(size_t place, size_t length)
{
    return place < length ? place : length;
}

void layout_read_type(struct frame_layout *layout, const uint8_t *frame, size_t length, size_t type)
{
    *layout = (struct frame_layout){.type = at_most(type, length)};
    layout->header = layout->area = layout->inner = at_most(type + TYPE, length);
    layout->trill = length >= type + TYPE + TRILL_HEADER && staffripple_get16(frame + type) == ETHERTYPE_TRILL;
    if (!layout->trill)
        return;
    read_header(&layout->fields, frame + layout->header);
    layout->area = layout->header + TRILL_HEADER;
    layout->inner = at_most(layout->area + WORD * layout->fields.op_length, length);
}

void layout_read(struct frame_layout *layout, const uint8_t *frame, size_t length)
{
    bool tagged = length >= ADDRESSES + TYPE && staffripple_get16(frame + ADDRESSES) == ETHERTYPE_TAG;
    layout_read_type(layout, frame, length, ADDRESSES + (tagged ? TAG : 0));
}

struct tlv_option option_at(const uint8_t *octets)
{
    unsigned word = staffripple_get16(octets);
    struct tlv_option option = {word >> 15, word >> 14 & 1, word >> 7 & 1, word >> 8 & 0x3F, word & 0x7F, 0};
    option.size = (OPTION_HEADER + option.length + WORD - 1) / WORD * WORD;
    return option;
}
