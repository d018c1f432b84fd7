#define _GNU_SOURCE
#include "input.h"
#include "signals.h"

#include <errno.h>
#include <fcntl.h>
#include <inttypes.h>
#include <poll.h>
#include <stdarg.h>
#include <stdio.h>
#include <stdlib.h>
#include <string.h>
#include <sys/stat.h>
#include <unistd.h>

enum {
    /* So much that it stays in a processor's own cache until it is written again. */
    FIRST_ROOM = 1 << 18,
    LAST_WAIT_MS = 300,
};

bool refuse(struct input *input, const char *format, ...) {
    va_list values;
    va_start(values, format);
    vsnprintf(input->fault, sizeof input->fault, format, values);
    va_end(values);
    return false;
}

static enum reading failed(struct input *input, int error) {
    refuse(input, "%s", strerror(error));
    return READING_FAULT;
}

bool open_input(struct input *input, const char *path) {
    struct stat kind;
    input->size = FIRST_ROOM;
    input->bytes = malloc(input->size);
    /* Without waiting for a writer of a pipe: its bytes are waited for, and meanwhile a signal is heard. */
    input->fd = strcmp(path, "-") == 0 ? dup(STDIN_FILENO) : open(path, O_RDONLY | O_NONBLOCK | O_CLOEXEC);
    if (input->fd < 0 || input->bytes == NULL || fstat(input->fd, &kind) != 0)
        return refuse(input, "%s", strerror(errno));
    input->waits = !S_ISREG(kind.st_mode);
    return true;
}

/* Moves what is left to the front, where there is room for `len` bytes. Whether there is. */
static bool make_room(struct input *input, size_t len) {
    memmove(input->bytes, next_bytes(input), count_next(input));
    input->end -= input->begin;
    input->begin = 0;
    if (len <= input->size)
        return true;
    unsigned char *more = realloc(input->bytes, len);
    if (more == NULL)
        return false;
    input->bytes = more;
    input->size = len;
    return true;
}

/* Waits for bytes of a pipe, as long as the run goes on, and then for what is on its way. Whether there are some. */
static bool wait_for_bytes(struct input *input) {
    struct pollfd waits[2] = {{.fd = input->fd, .events = POLLIN}, {.fd = stop_fd}};
    if (input->before_waiting)
        input->before_waiting(input->listener);
    while (!is_stopping() && waits[0].revents == 0)
        poll(waits, 2, -1);
    return waits[0].revents != 0 || poll(waits, 1, LAST_WAIT_MS) > 0;
}

enum reading read_ahead(struct input *input, size_t len) {
    if (count_next(input) >= len)
        return READING_SOME;
    if (!make_room(input, len))
        return failed(input, ENOMEM);
    while (input->end < len) {
        if (input->waits && !wait_for_bytes(input))
            return READING_END;
        ssize_t count = read(input->fd, input->bytes + input->end, input->size - input->end);
        if (count < 0 && (errno == EINTR || (errno == EAGAIN && input->waits)))
            continue;
        if (count < 0)
            return failed(input, errno);
        if (count == 0)
            return READING_END;
        input->end += (size_t)count;
    }
    return READING_SOME;
}

bool require(struct input *input, size_t len) {
    enum reading reading = read_ahead(input, len);
    if (reading == READING_END)
        return refuse(input, "cut short at byte %" PRIu64, input->at + count_next(input));
    return reading == READING_SOME;
}

enum reading read_head(struct input *input, size_t len) {
    enum reading reading = read_ahead(input, len);
    if (reading != READING_END || count_next(input) == 0)
        return reading;
    return require(input, len) ? READING_SOME : READING_FAULT;
}

void close_input(struct input *input) {
    if (input->fd >= 0)
        close(input->fd);
    free(input->bytes);
}
