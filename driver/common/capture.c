#include "capture.h"

#include <errno.h>
#include <inttypes.h>
#include <stdarg.h>
#include <string.h>
#include <unistd.h>

#include "staffripple.h"

enum { FILE_HEADER = 24, RECORD_HEADER = 16, VERSION_MAJOR = 2, VERSION_MINOR = 4, LINKTYPE_ETHERNET = 1 };

#define MAGIC_MICROSECONDS 0xA1B2C3D4u
#define MAGIC_NANOSECONDS 0xA1B23C4Du
#define MAGIC_PCAPNG 0x0A0D0D0Au
#define MAGIC_GZIP 0x1F8Bu

/* The link type's upper bits: whether the length of an FCS is given, and that length in units of two octets. */
#define LINKTYPE_FCS_GIVEN 0x04000000u
#define LINKTYPE_FCS_SHIFT 28

__attribute__((format(printf, 2, 3))) static bool fault(struct capture_input *input, const char *format, ...)
{
    va_list arguments;
    va_start(arguments, format);
    vsnprintf(input->error, sizeof input->error, format, arguments);
    va_end(arguments);
    return false;
}

static uint32_t swapped(uint32_t value)
{
    return value >> 24 | (value >> 8 & 0xFF00) | (value << 8 & 0xFF0000) | value << 24;
}

static uint32_t get32(const struct capture_format *format, const uint8_t *octets)
{
    uint32_t value = staffripple_get32(octets);
    return format->big_endian ? value : swapped(value);
}

static void put32(const struct capture_format *format, uint8_t *octets, uint32_t value)
{
    staffripple_put32(octets, format->big_endian ? value : swapped(value));
}

static size_t read_octets(struct capture_input *input, uint8_t *octets, size_t length)
{
    size_t got = fread(octets, 1, length, input->file);
    input->offset += got;
    return got;
}

/* Byte order and resolution from the first four octets. */
static bool read_magic(struct capture_input *input, const uint8_t *octets)
{
    uint32_t magic = staffripple_get32(octets);
    struct capture_format *format = &input->format;
    if (magic == MAGIC_PCAPNG)
        return fault(input, "a pcapng file; convert it with: editcap -F pcap IN OUT, or -F nsecpcap for nanoseconds");
    if (magic >> 16 == MAGIC_GZIP)
        return fault(input, "a gzip file; unpack it first, as with: gzip -dk IN.pcap.gz");
    format->big_endian = magic == MAGIC_MICROSECONDS || magic == MAGIC_NANOSECONDS;
    magic = get32(format, octets);
    if (magic != MAGIC_MICROSECONDS && magic != MAGIC_NANOSECONDS)
        return fault(input, "not a classic pcap file: it begins with %02X %02X %02X %02X", octets[0], octets[1],
                     octets[2], octets[3]);
    format->nanoseconds = magic == MAGIC_NANOSECONDS;
    return true;
}

bool capture_begins(const uint8_t *octets, size_t length)
{
    if (length < 4)
        return false;
    uint32_t magic = staffripple_get32(octets), other = swapped(magic);
    return magic == MAGIC_MICROSECONDS || magic == MAGIC_NANOSECONDS || other == MAGIC_MICROSECONDS ||
           other == MAGIC_NANOSECONDS || magic == MAGIC_PCAPNG;
}

static bool read_link_type(struct capture_input *input, uint32_t field)
{
    unsigned link_type = field & 0xFFFF;
    if (link_type != LINKTYPE_ETHERNET)
        return fault(input, "link type %u: only captures of Ethernet, link type %d, are read", link_type,
                     LINKTYPE_ETHERNET);
    input->format.fcs = field & LINKTYPE_FCS_GIVEN ? 2 * (field >> LINKTYPE_FCS_SHIFT) : 0;
    return true;
}

bool capture_begin(struct capture_input *input, FILE *file)
{
    *input = (struct capture_input){.file = file};
    uint8_t header[FILE_HEADER] = {0};
    size_t got = read_octets(input, header, sizeof header);
    if (ferror(file))
        return fault(input, "%s", strerror(errno));
    if (got == 0)
        return fault(input, "an empty file, not a capture");
    if (!read_magic(input, header))
        return false;
    if (got < sizeof header)
        return fault(input, "file header cut short: %zu of %d octets", got, FILE_HEADER);
    const struct capture_format *format = &input->format;
    uint32_t version = get32(format, header + 4);
    unsigned major = format->big_endian ? version >> 16 : version & 0xFFFF;
    unsigned minor = format->big_endian ? version & 0xFFFF : version >> 16;
    if (major != VERSION_MAJOR || minor != VERSION_MINOR)
        return fault(input, "pcap version %u.%u: only version 2.4 is read; convert with: editcap -F pcap IN OUT", major,
                     minor);
    input->format.zone = get32(format, header + 8);
    input->format.accuracy = get32(format, header + 12);
    return read_link_type(input, get32(format, header + 20));
}

/* Names the record and its place; a failure to read has made it short, if there was one. */
__attribute__((format(printf, 3, 4))) static enum capture_status damaged(struct capture_input *input, uint64_t offset,
                                                                         const char *format, ...)
{
    char what[CAPTURE_ERROR / 2];
    va_list arguments;
    va_start(arguments, format);
    vsnprintf(what, sizeof what, format, arguments);
    va_end(arguments);
    fault(input, "record %" PRIu64 " at offset %" PRIu64 ": %s", input->records + 1, offset,
          ferror(input->file) ? strerror(errno) : what);
    return CAPTURE_DAMAGED;
}

enum capture_status capture_next(struct capture_input *input, struct capture_record *record)
{
    static uint8_t octets[CAPTURE_FRAME_MOST];
    uint8_t header[RECORD_HEADER];
    const struct capture_format *format = &input->format;
    uint64_t offset = input->offset;
    size_t got = read_octets(input, header, sizeof header);
    if (got == 0 && !ferror(input->file))
        return CAPTURE_END;
    if (got < sizeof header)
        return damaged(input, offset, "record header cut short, %zu of %d octets", got, RECORD_HEADER);
    uint32_t captured = get32(format, header + 8), original = get32(format, header + 12);
    if (captured > CAPTURE_FRAME_MOST)
        return damaged(input, offset, "captured length %" PRIu32 " is over %d", captured, CAPTURE_FRAME_MOST);
    if (captured > original)
        return damaged(input, offset, "captured length %" PRIu32 " is over the original length %" PRIu32, captured,
                       original);
    got = read_octets(input, octets, captured);
    if (got < captured)
        return damaged(input, offset, "frame cut short, %zu of %" PRIu32 " octets", got, captured);
    input->records++;
    record->seconds = get32(format, header);
    record->fraction = get32(format, header + 4);
    record->frame = octets;
    record->length = original > format->fcs ? original - format->fcs : 0;
    record->captured = captured < record->length ? captured : record->length;
    return CAPTURE_READ;
}

/* Reads up to the frame of this number. */
static bool read_up_to(struct capture_input *input, uint64_t number, struct capture_record *record)
{
    enum capture_status status = CAPTURE_READ;
    while (input->records < number && status == CAPTURE_READ)
        status = capture_next(input, record);
    if (status == CAPTURE_DAMAGED)
        return false;
    if (status == CAPTURE_END)
        return fault(input, "%" PRIu64 " frames there, and no frame %" PRIu64, input->records, number);
    if (record->captured < record->length)
        return fault(input, "frame %" PRIu64 " was captured in part only", number);
    return true;
}

bool capture_pick(struct capture_input *input, const char *path, uint64_t number, struct capture_record *record)
{
    FILE *file = fopen(path, "rb");
    if (!file)
        return fault(input, "%s", strerror(errno));
    bool good = capture_begin(input, file) && read_up_to(input, number, record);
    fclose(file);
    return good;
}

/* Writes octets and answers how many were written: fewer if writing failed, and errno says why. */
static size_t write_octets(int file, const uint8_t *octets, size_t length)
{
    size_t done = 0;
    while (done < length) {
        ssize_t written = write(file, octets + done, length - done);
        if (written < 0 && errno != EINTR)
            break;
        done += written > 0 ? (size_t)written : 0;
    }
    return done;
}

/* Counts the whole records among the octets written, and takes a part of one off the file's end. */
static void count_records(struct capture_output *output, size_t written)
{
    size_t place = 0;
    while (place + RECORD_HEADER <= written) {
        uint32_t length = get32(&output->format, output->records + place + 8);
        if (length > written - place - RECORD_HEADER)
            break;
        output->frames++;
        output->octets += length;
        place += RECORD_HEADER + length;
    }
    int cause = errno;
    off_t end = place < written ? lseek(output->file, 0, SEEK_CUR) : -1;
    if (end >= 0 && ftruncate(output->file, end - (off_t)(written - place)) != 0)
        end = -1; /* the part stays, and a reader finds it cut short */
    errno = cause;
}

bool capture_flush(struct capture_output *output)
{
    size_t held = output->held, written = write_octets(output->file, output->records, held);
    output->held = 0;
    count_records(output, written);
    return written == held;
}

bool capture_create(struct capture_output *output, int file, const struct capture_format *format)
{
    output->file = file;
    output->format = *format;
    uint8_t header[FILE_HEADER];
    uint32_t version = format->big_endian ? VERSION_MAJOR << 16 | VERSION_MINOR : VERSION_MINOR << 16 | VERSION_MAJOR;
    put32(format, header, format->nanoseconds ? MAGIC_NANOSECONDS : MAGIC_MICROSECONDS);
    put32(format, header + 4, version);
    put32(format, header + 8, format->zone);
    put32(format, header + 12, format->accuracy);
    put32(format, header + 16, TRILL_FRAME_MOST);
    put32(format, header + 20, LINKTYPE_ETHERNET);
    return write_octets(file, header, sizeof header) == sizeof header;
}

bool capture_write(struct capture_output *output, const struct capture_record *stamp, const uint8_t *frame,
                   uint32_t length)
{
    if (sizeof output->records - output->held < RECORD_HEADER + length && !capture_flush(output))
        return false;
    uint8_t *record = output->records + output->held;
    put32(&output->format, record, stamp->seconds);
    put32(&output->format, record + 4, stamp->fraction);
    put32(&output->format, record + 8, length);
    put32(&output->format, record + 12, length);
    memcpy(record + RECORD_HEADER, frame, length);
    output->held += RECORD_HEADER + length;
    return true;
}
