/* Capture files, frame by frame. */
#ifndef CAPTURE_FILE_H
#define CAPTURE_FILE_H

#include "feed.h"
#include "input.h"
#include "moment.h"

#include <stdbool.h>
#include <stdint.h>

enum { EVERY_INTERFACE = -1 };

/* An interface of a section, as its description says. */
struct file_interface {
    uint16_t link_type;
    uint32_t most_captured;    /* 0 where nothing is cut */
    uint64_t units_per_second; /* 0 where the resolution is one that isn't read */
    unsigned resolution;
    int64_t seconds_before;
    unsigned check_sequence_len;
};

struct capture_file {
    struct input input;
    int chosen;    /* the number of the interface whose frames are read, or EVERY_INTERFACE */
    bool is_found; /* whether some section has the chosen interface */
    bool is_pcap;
    uint32_t nanoseconds_per_unit;
    struct file_interface *interfaces;
    uint32_t count, room;
};

/* A frame of a file; a simple packet block has no time. */
struct file_frame {
    struct captured captured;
    bool has_time;
    nanoseconds moment;
};

/* Opens a file, where `-` is standard input, and reads its head. Whether it is a capture. */
bool open_file(struct capture_file *file, const char *path, int chosen);

/* Reads the next frame, whose bytes stay until the next call. */
enum reading next_frame(struct capture_file *file, struct file_frame *frame);

void close_file(struct capture_file *file);

#endif
