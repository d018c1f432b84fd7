#include "capture_file_formats.h"

#include <errno.h>
#include <inttypes.h>
#include <string.h>

enum { HEAD_LEN = 24, RECORD_LEN = 16 };

static const uint32_t MICROSECOND_MAGIC = 0xA1B2C3D4, NANOSECOND_MAGIC = 0xA1B23C4D;
static const uint32_t HAS_CHECK_SEQUENCE = 1 << 26;

/* Whether a file begins as a capture whose numbers have a byte order. */
static bool is_pcap_of(struct capture_file *file, bool is_big_endian) {
    file->input.is_big_endian = is_big_endian;
    uint32_t magic = uint32_at(&file->input, next_bytes(&file->input));
    file->nanoseconds_per_unit = magic == NANOSECOND_MAGIC ? 1 : 1000;
    return magic == NANOSECOND_MAGIC || magic == MICROSECOND_MAGIC;
}

bool is_pcap(struct capture_file *file) {
    return is_pcap_of(file, false) || is_pcap_of(file, true);
}

bool open_pcap(struct capture_file *file) {
    struct input *input = &file->input;
    if (!require(input, HEAD_LEN))
        return false;
    uint32_t link = uint32_at(input, next_bytes(input) + 20);
    struct file_interface *interface = add_interface(file);
    if (interface == NULL)
        return refuse(input, "%s", strerror(ENOMEM));
    file->is_pcap = true;
    interface->link_type = link & 0xFFFF;
    interface->check_sequence_len = link & HAS_CHECK_SEQUENCE ? 2 * (link >> 28) : 0;
    pass(input, HEAD_LEN);
    if (!is_interface_read(file, 0))
        return refuse(input, "no interface %d", file->chosen);
    return judge_interface(file, 0) && judge_check_sequence(file, interface->check_sequence_len);
}

/* Reads a record whose head is there. Whether it could. */
static bool read_record(struct capture_file *file, struct file_frame *frame) {
    struct input *input = &file->input;
    const unsigned char *head = next_bytes(input);
    uint32_t seconds = uint32_at(input, head), units = uint32_at(input, head + 4);
    uint32_t captured = uint32_at(input, head + 8), len = uint32_at(input, head + 12);
    if (captured > MOST_CAPTURED)
        return refuse(input, "captured length %" PRIu32 " at byte %" PRIu64, captured, input->at);
    if (!require(input, RECORD_LEN + (size_t)captured))
        return false;
    frame->captured = (struct captured){
        .bytes = next_bytes(input) + RECORD_LEN,
        .len = captured,
        .is_whole = captured >= len,
        .has_check_sequence = file->interfaces[0].check_sequence_len != 0,
    };
    frame->has_time = true;
    frame->moment = (nanoseconds)seconds * NANOSECONDS_PER_SECOND + (nanoseconds)units * file->nanoseconds_per_unit;
    pass(input, RECORD_LEN + (size_t)captured);
    return true;
}

enum reading next_pcap_frame(struct capture_file *file, struct file_frame *frame) {
    enum reading head = read_head(&file->input, RECORD_LEN);
    if (head != READING_SOME)
        return head;
    return read_record(file, frame) ? READING_SOME : READING_FAULT;
}
