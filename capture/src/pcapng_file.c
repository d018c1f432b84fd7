#include "capture_file_formats.h"
#include "check_sequence.h"
#include "pcapng_option.h"

#include <errno.h>
#include <inttypes.h>
#include <string.h>

enum {
    SECTION_BLOCK = 0x0A0D0D0A,
    INTERFACE_BLOCK = 1,
    OLD_PACKET_BLOCK = 2,
    SIMPLE_PACKET_BLOCK = 3,
    PACKET_BLOCK = 6,
    BYTE_ORDER_MAGIC = 0x1A2B3C4D,
    BLOCK_HEAD_LEN = 8,
    BLOCK_TAIL_LEN = 4,
    LEAST_BLOCK_LEN = 12,
    LEAST_SECTION_LEN = 28,
    LEAST_INTERFACE_LEN = 20,
    LEAST_SIMPLE_LEN = 16,
    LEAST_PACKET_LEN = 32,
    MOST_BLOCK_LEN = 1 << 24,
    /* Of a section: so many as --interface can name. */
    MOST_INTERFACES = 65536,

    OPTION_PACKET_FLAGS = 2,
    OPTION_RESOLUTION = 9,
    OPTION_CHECK_SEQUENCE_LEN = 13,
    OPTION_SECONDS_BEFORE = 14,
    FLAG_WRONG_CHECK_SEQUENCE = 1 << 24,
};

static const uint32_t FLAGS_OTHER_FAULTS = 0xFE000000;

static uint64_t units_of(unsigned resolution) {
    unsigned power = resolution & 0x7F;
    if (resolution & 0x80)
        return power < 64 ? (uint64_t)1 << power : 0;
    uint64_t units = 1;
    for (unsigned i = 0; i < power; i++)
        units *= 10;
    return power < 20 ? units : 0;
}

static int64_t signed_number(const struct input *input, const unsigned char *at) {
    uint64_t first = uint32_at(input, at), second = uint32_at(input, at + 4);
    return (int64_t)(input->is_big_endian ? first << 32 | second : second << 32 | first);
}

/* ---- what a block says; whether it could be read */

static bool read_section(struct capture_file *file, const unsigned char *block) {
    unsigned major = uint16_at(&file->input, block + 12);
    file->count = 0;
    return major == 1 || refuse(&file->input, "pcapng version %u", major);
}

static bool read_interface(struct capture_file *file, const unsigned char *block, const unsigned char *end) {
    struct input *input = &file->input;
    if (file->count == MOST_INTERFACES)
        return refuse(input, "more than %d interfaces at byte %" PRIu64, MOST_INTERFACES, input->at);
    struct file_interface *interface = add_interface(file);
    struct pcapng_option option;
    if (interface == NULL)
        return refuse(input, "%s", strerror(ENOMEM));
    interface->link_type = uint16_at(input, block + 8);
    interface->most_captured = uint32_at(input, block + 12);
    for (const unsigned char *at = block + 16; next_option(input, &at, end, &option);) {
        if (option.code == OPTION_RESOLUTION && option.len >= 1) {
            interface->resolution = option.value[0];
            interface->units_per_second = units_of(interface->resolution);
        } else if (option.code == OPTION_SECONDS_BEFORE && option.len == 8) {
            interface->seconds_before = signed_number(input, option.value);
        } else if (option.code == OPTION_CHECK_SEQUENCE_LEN && option.len >= 1) {
            /* The draft says bits in its text and bytes in its example. */
            unsigned len = option.value[0];
            interface->check_sequence_len = len == 8 * CHECK_SEQUENCE_LEN ? CHECK_SEQUENCE_LEN : len;
        }
    }
    return true;
}

static nanoseconds moment_of(const struct file_interface *interface, uint64_t units) {
    nanoseconds since = units;
    if (interface->units_per_second != NANOSECONDS_PER_SECOND)
        since = since * NANOSECONDS_PER_SECOND / (nanoseconds)interface->units_per_second;
    return since + (nanoseconds)interface->seconds_before * NANOSECONDS_PER_SECOND;
}

/* What a packet block says of its frame beside the bytes. */
static bool read_flags(struct capture_file *file, const unsigned char *at, const unsigned char *end,
                       unsigned *check_sequence_len, unsigned *marks) {
    struct input *input = &file->input;
    struct pcapng_option option;
    while (next_option(input, &at, end, &option)) {
        if (option.code != OPTION_PACKET_FLAGS || option.len != 4)
            continue;
        uint32_t flags = uint32_at(input, option.value);
        if (flags >> 5 & 0xF)
            *check_sequence_len = flags >> 5 & 0xF;
        *marks |= flags & FLAG_WRONG_CHECK_SEQUENCE ? MARK_CHECK_SEQUENCE : 0;
        *marks |= flags & FLAGS_OTHER_FAULTS ? MARK_OTHER_FAULT : 0;
    }
    return judge_check_sequence(file, *check_sequence_len);
}

static bool read_packet(struct capture_file *file, const unsigned char *block, const unsigned char *end,
                        struct file_frame *frame) {
    struct input *input = &file->input;
    bool is_old = uint32_at(input, block) == OLD_PACKET_BLOCK;
    uint32_t number = is_old ? uint16_at(input, block + 8) : uint32_at(input, block + 8);
    if (number >= file->count)
        return refuse(input, "no interface %" PRIu32 " at byte %" PRIu64, number, input->at);
    if (!is_interface_read(file, number))
        return true;
    if (!judge_interface(file, number))
        return false;
    const struct file_interface *interface = &file->interfaces[number];
    uint64_t units = (uint64_t)uint32_at(input, block + 12) << 32 | uint32_at(input, block + 16);
    uint32_t captured = uint32_at(input, block + 20), len = uint32_at(input, block + 24);
    if (captured > MOST_CAPTURED || captured > (size_t)(end - block) - 28)
        return refuse(input, "captured length %" PRIu32 " at byte %" PRIu64, captured, input->at);
    unsigned check_sequence_len = interface->check_sequence_len, marks = 0;
    const unsigned char *options = block + 28 + ((captured + 3) & ~(uint32_t)3);
    if (!read_flags(file, options, end, &check_sequence_len, &marks))
        return false;
    frame->captured = (struct captured){block + 28, captured, captured >= len, check_sequence_len != 0, marks};
    frame->has_time = true;
    frame->moment = moment_of(interface, units);
    return true;
}

static bool read_simple(struct capture_file *file, const unsigned char *block, const unsigned char *end,
                        struct file_frame *frame) {
    struct input *input = &file->input;
    if (file->count == 0)
        return refuse(input, "no interface 0 at byte %" PRIu64, input->at);
    if (!is_interface_read(file, 0))
        return true;
    if (!judge_interface(file, 0))
        return false;
    const struct file_interface *interface = &file->interfaces[0];
    uint32_t len = uint32_at(input, block + 8), most = interface->most_captured;
    uint32_t captured = most != 0 && most < len ? most : len;
    if (captured > MOST_CAPTURED || captured > (size_t)(end - block) - 12)
        return refuse(input, "captured length %" PRIu32 " at byte %" PRIu64, captured, input->at);
    if (!judge_check_sequence(file, interface->check_sequence_len))
        return false;
    frame->captured = (struct captured){block + 12, captured, captured >= len, interface->check_sequence_len != 0, 0};
    return true;
}

/* ---- blocks */

bool is_pcapng(struct capture_file *file) {
    file->input.is_big_endian = false;
    return uint32_at(&file->input, next_bytes(&file->input)) == SECTION_BLOCK;
}

/* Reads the byte order of a section, which its own length is written in already. Whether it could. */
static bool read_byte_order(struct input *input) {
    if (!require(input, LEAST_BLOCK_LEN))
        return false;
    const unsigned char *magic = next_bytes(input) + BLOCK_HEAD_LEN;
    input->is_big_endian = false;
    if (uint32_at(input, magic) == BYTE_ORDER_MAGIC)
        return true;
    input->is_big_endian = true;
    return uint32_at(input, magic) == BYTE_ORDER_MAGIC ||
           refuse(input, "byte order of the section at byte %" PRIu64, input->at);
}

static size_t least_len(uint32_t type) {
    switch (type) {
    case SECTION_BLOCK:
        return LEAST_SECTION_LEN;
    case INTERFACE_BLOCK:
        return LEAST_INTERFACE_LEN;
    case SIMPLE_PACKET_BLOCK:
        return LEAST_SIMPLE_LEN;
    case OLD_PACKET_BLOCK:
    case PACKET_BLOCK:
        return LEAST_PACKET_LEN;
    default:
        return LEAST_BLOCK_LEN;
    }
}

/* Has a block whole whose head is there, and its type and length. Whether it could. */
static bool require_block(struct input *input, uint32_t *type, size_t *len) {
    *type = uint32_at(input, next_bytes(input));
    if (*type == SECTION_BLOCK && !read_byte_order(input))
        return false;
    *len = uint32_at(input, next_bytes(input) + 4);
    if (*len % 4 != 0 || *len < least_len(*type) || *len > MOST_BLOCK_LEN)
        return refuse(input, "block length %zu at byte %" PRIu64, *len, input->at);
    if (!require(input, *len))
        return false;
    uint32_t again = uint32_at(input, next_bytes(input) + *len - BLOCK_TAIL_LEN);
    return again == *len || refuse(input, "block lengths %zu and %" PRIu32 " at byte %" PRIu64, *len, again, input->at);
}

/* Reads what a block says; of one that has no frame which is read, the frame has no bytes. Whether it could. */
static bool read_block(struct capture_file *file, uint32_t type, size_t len, struct file_frame *frame) {
    struct input *input = &file->input;
    const unsigned char *block = next_bytes(input), *end = block + len - BLOCK_TAIL_LEN;
    *frame = (struct file_frame){0};
    switch (type) {
    case SECTION_BLOCK:
        return read_section(file, block);
    case INTERFACE_BLOCK:
        return read_interface(file, block, end);
    case SIMPLE_PACKET_BLOCK:
        return read_simple(file, block, end, frame);
    case OLD_PACKET_BLOCK:
    case PACKET_BLOCK:
        return read_packet(file, block, end, frame);
    default:
        return true;
    }
}

/* The end of a file, which is a fault where no section had the interface that was asked for. */
static enum reading end_of(struct capture_file *file) {
    if (file->is_found || file->chosen == EVERY_INTERFACE)
        return READING_END;
    refuse(&file->input, "no interface %d", file->chosen);
    return READING_FAULT;
}

enum reading next_pcapng_frame(struct capture_file *file, struct file_frame *frame) {
    struct input *input = &file->input;
    for (;;) {
        uint32_t type = 0;
        size_t len = 0;
        enum reading head = read_head(input, BLOCK_HEAD_LEN);
        if (head != READING_SOME)
            return head == READING_END ? end_of(file) : head;
        if (!require_block(input, &type, &len) || !read_block(file, type, len, frame))
            return READING_FAULT;
        pass(input, len);
        if (frame->captured.bytes != NULL)
            return READING_SOME;
    }
}
