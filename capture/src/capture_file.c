#include "capture_file.h"
#include "capture_file_formats.h"
#include "check_sequence.h"

#include <errno.h>
#include <inttypes.h>
#include <stdlib.h>
#include <string.h>

enum { LINK_TYPE_ETHERNET = 1, MAGIC_LEN = 4 };
static const unsigned char GZIP_MAGIC[] = {0x1F, 0x8B}, RECORDING_MAGIC[] = {0x25, 0xEB};

/* What is captured beside Ethernet, mostly. */
static const struct {
    uint16_t number;
    const char *name;
} LINK_TYPES[] = {
    {0, "NULL"},
    {9, "PPP"},
    {101, "RAW"},
    {105, "IEEE802_11"},
    {113, "LINUX_SLL"},
    {127, "IEEE802_11_RADIOTAP"},
    {220, "USB_LINUX_MMAPPED"},
    {227, "CAN_SOCKETCAN"},
    {228, "IPV4"},
    {229, "IPV6"},
    {249, "USBPCAP"},
    {276, "LINUX_SLL2"},
};

/* ---- interfaces */

bool is_interface_read(const struct capture_file *file, uint32_t number) {
    return file->chosen == EVERY_INTERFACE || (uint32_t)file->chosen == number;
}

/* The name of a link type, as tcpdump.org lists them. */
static const char *link_type_name(uint16_t number) {
    for (size_t i = 0; i < sizeof LINK_TYPES / sizeof *LINK_TYPES; i++)
        if (LINK_TYPES[i].number == number)
            return LINK_TYPES[i].name;
    return "unknown";
}

bool judge_interface(struct capture_file *file, uint32_t number) {
    const struct file_interface *interface = &file->interfaces[number];
    bool has_others = file->count > 1 && file->chosen == EVERY_INTERFACE;
    if (interface->link_type != LINK_TYPE_ETHERNET)
        return refuse(&file->input, "link type %u (%s) of interface %" PRIu32 ", where Ethernet is 1%s",
                      interface->link_type, link_type_name(interface->link_type), number,
                      has_others ? ": capture --interface N takes another one alone" : "");
    if (interface->units_per_second == 0)
        return refuse(&file->input, "time resolution %u of interface %" PRIu32, interface->resolution, number);
    return true;
}

bool judge_check_sequence(struct capture_file *file, unsigned len) {
    if (len != 0 && len != CHECK_SEQUENCE_LEN)
        return refuse(&file->input, "check sequences of %u bytes, where Ethernet has 4", len);
    return true;
}

struct file_interface *add_interface(struct capture_file *file) {
    if (file->count == file->room) {
        uint32_t room = file->room ? 2 * file->room : 4;
        struct file_interface *more = realloc(file->interfaces, room * sizeof *more);
        if (more == NULL)
            return NULL;
        file->interfaces = more;
        file->room = room;
    }
    file->is_found |= is_interface_read(file, file->count);
    struct file_interface *interface = &file->interfaces[file->count++];
    *interface = (struct file_interface){.units_per_second = 1000000, .resolution = 6};
    return interface;
}

/* ---- files */

bool open_file(struct capture_file *file, const char *path, int chosen) {
    struct input *input = &file->input;
    file->chosen = chosen;
    if (!open_input(input, path))
        return false;
    enum reading magic = read_ahead(input, MAGIC_LEN);
    if (magic == READING_FAULT)
        return false;
    if (magic == READING_SOME && is_pcap(file))
        return open_pcap(file);
    if (magic == READING_SOME && memcmp(next_bytes(input), GZIP_MAGIC, sizeof GZIP_MAGIC) == 0)
        return refuse(input, "compressed by gzip: zcat makes a capture of it");
    if (magic == READING_SOME && memcmp(next_bytes(input), RECORDING_MAGIC, sizeof RECORDING_MAGIC) == 0)
        return refuse(input, "a recording: bpfrec export makes a capture of it");
    return (magic == READING_SOME && is_pcapng(file)) || refuse(input, "no pcap or pcapng file");
}

enum reading next_frame(struct capture_file *file, struct file_frame *frame) {
    return file->is_pcap ? next_pcap_frame(file, frame) : next_pcapng_frame(file, frame);
}

void close_file(struct capture_file *file) {
    close_input(&file->input);
    free(file->interfaces);
}
