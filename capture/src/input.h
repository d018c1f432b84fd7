/* The bytes of a capture file, as they come. */
#ifndef INPUT_H
#define INPUT_H

#include <stdbool.h>
#include <stddef.h>
#include <stdint.h>

enum { FAULT_LEN = 160 };

/* What a reader came upon; a fault is kept. */
enum reading { READING_FAULT, READING_END, READING_SOME };

struct input {
    int fd;
    bool waits; /* whether it is no regular file, so a read of it may wait */
    bool is_big_endian;
    unsigned char *bytes;
    size_t begin, end, size;
    uint64_t at;                    /* the place in the file of the byte at `begin` */
    void (*before_waiting)(void *); /* called before a read that may wait */
    void *listener;
    char fault[FAULT_LEN]; /* what is wrong, where a call says so */
};

/* Opens a file, where `-` is standard input. Whether it is open. */
bool open_input(struct input *input, const char *path);

/* Reads on until `len` bytes are there, or the file ends before. */
enum reading read_ahead(struct input *input, size_t len);

/* The same of bytes ahead of which the file may end, but not among them. */
enum reading read_head(struct input *input, size_t len);

/* The same of bytes that must be there. Whether they are; else it is kept that the file is cut short. */
bool require(struct input *input, size_t len);

/* The bytes that are there and were not passed, until the next call that reads. */
static inline const unsigned char *next_bytes(const struct input *input) {
    return input->bytes + input->begin;
}

static inline size_t count_next(const struct input *input) {
    return input->end - input->begin;
}

static inline void pass(struct input *input, size_t len) {
    input->begin += len;
    input->at += len;
}

/* Keeps what is wrong: false. */
bool refuse(struct input *input, const char *format, ...) __attribute__((format(printf, 2, 3)));

static inline uint32_t uint32_at(const struct input *input, const unsigned char *at) {
    if (input->is_big_endian)
        return (uint32_t)at[0] << 24 | (uint32_t)at[1] << 16 | (uint32_t)at[2] << 8 | at[3];
    return (uint32_t)at[3] << 24 | (uint32_t)at[2] << 16 | (uint32_t)at[1] << 8 | at[0];
}

static inline uint16_t uint16_at(const struct input *input, const unsigned char *at) {
    return (uint16_t)(input->is_big_endian ? at[0] << 8 | at[1] : at[1] << 8 | at[0]);
}

void close_input(struct input *input);

#endif
