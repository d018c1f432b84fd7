/* Where a feed's bytes go: a pipe or a file. */
#ifndef OUTPUT_H
#define OUTPUT_H

#include <stdbool.h>
#include <stddef.h>
#include <stdint.h>

enum output_state {
    OUTPUT_OPEN,
    OUTPUT_LEFT,      /* whoever read the pipe has left it */
    OUTPUT_FAILED,    /* `error` says why */
    OUTPUT_ABANDONED, /* the run was to end at once */
};

struct output {
    const char *path;
    int fd;
    enum output_state state;
    int error;
    int64_t waited;                /* nanoseconds for which the pipe was full, while it was behind */
    int64_t behind_since;          /* from when on there was always more to write */
    int64_t waited_so_far;         /* of that time, as long as it is short */
    uint64_t taken;                /* bytes that went out */
    void (*while_waiting)(void *); /* called now and then with the listener, while the pipe is full */
    void *listener;
};

/* Opens what is at `path`, where `-` is standard output. A named pipe is waited for until it has a reader. Whether it
 * is open; else `state` says why not. */
bool open_output(struct output *output, const char *path);

/* Whether it is open; else why not. */
bool is_open(const struct output *output);

/* The output failed with this error. It is no more open: false. */
bool fail_output(struct output *output, int error);

/* Notes that all is written for now. A pipe is full each time that many frames come at once; its reader is too slow
 * where there is always more to write for a tenth of a second, and only such waits are counted. */
void note_all_written(struct output *output);

/* Writes all the bytes. Whether it is still open. */
bool write_all(struct output *output, const unsigned char *bytes, size_t len);

/* The same of bytes that a pipe takes at once, or none of them where it has no room. */
bool write_at_once(struct output *output, const unsigned char *bytes, size_t len);

enum switching {
    SWITCHED,
    SWITCH_LATER,  /* a pipe has no reader yet */
    SWITCH_FAILED, /* `errno` says why */
};

/* Opens what the path names by now. Where that is something else, `fd` is of it, and else -1. */
enum switching open_next(const struct output *output, int *fd);

/* Goes over to what was opened so, also where the reader of the output before has left. */
void go_over(struct output *output, int fd);

/* Opens what the path names by now and closes it, for an output that has ended. */
enum switching pass_next(const struct output *output);

void close_output(struct output *output);

/* Why an output isn't open any more. */
const char *output_fault(const struct output *output);

#endif
