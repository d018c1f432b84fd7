#define _GNU_SOURCE
#include "output.h"
#include "moment.h"
#include "signals.h"

#include <errno.h>
#include <fcntl.h>
#include <poll.h>
#include <string.h>
#include <sys/stat.h>
#include <unistd.h>

enum { READER_PAUSE_MS = 5, FULL_PAUSE_MS = 10 };

/* How long a run that is to end waits for the reader of a pipe, who may be about to come. */
static const int64_t LAST_WAIT = 2 * (int64_t)NANOSECONDS_PER_SECOND;

/* How long a reader may have more to read than it takes. */
static const int64_t TOO_SLOW = NANOSECONDS_PER_SECOND / 10;

static bool ended(struct output *output, enum output_state state, int error) {
    output->state = state;
    output->error = error;
    return false;
}

bool is_open(const struct output *output) {
    return output->state == OUTPUT_OPEN;
}

bool fail_output(struct output *output, int error) {
    return ended(output, OUTPUT_FAILED, error);
}

/* Standard output, opened anew where it is a pipe, so that whoever shares it keeps a pipe that waits. */
static int open_standard_output(void) {
    struct stat kind;
    if (fstat(STDOUT_FILENO, &kind) == 0 && S_ISFIFO(kind.st_mode))
        return open("/proc/self/fd/1", O_WRONLY | O_NONBLOCK | O_CLOEXEC);
    return dup(STDOUT_FILENO);
}

static int open_path(struct output *output, const char *path) {
    if (strcmp(path, "-") == 0)
        return open_standard_output();
    for (int64_t end = 0;;) {
        int fd = open(path, O_WRONLY | O_NONBLOCK | O_CREAT | O_TRUNC | O_CLOEXEC, 0666);
        /* ENXIO: a pipe without a reader. */
        if (fd >= 0 || errno != ENXIO)
            return fd;
        struct pollfd stop = {.fd = is_stopping() ? hurry_fd : stop_fd};
        poll(&stop, 1, READER_PAUSE_MS);
        if (is_stopping() && end == 0)
            end = steady_now() + LAST_WAIT;
        if (is_hurried() || (end != 0 && steady_now() > end))
            return -1;
        if (output->while_waiting)
            output->while_waiting(output->listener);
    }
}

bool open_output(struct output *output, const char *path) {
    output->path = path;
    output->fd = open_path(output, path);
    if (output->fd < 0)
        return is_stopping() ? ended(output, OUTPUT_ABANDONED, 0) : fail_output(output, errno);
    return true;
}

void note_all_written(struct output *output) {
    output->behind_since = 0;
    output->waited_so_far = 0;
}

/* Counts a wait, once there was always more to write for so long that the reader is too slow. */
static void count_wait(struct output *output, int64_t begin) {
    int64_t now = steady_now();
    if (output->behind_since == 0)
        output->behind_since = begin;
    output->waited_so_far += now - begin;
    if (now - output->behind_since < TOO_SLOW)
        return;
    output->waited += output->waited_so_far;
    output->waited_so_far = 0;
}

/* Waits until the pipe takes bytes again, or the run is to end at once. */
static void wait_for_room(struct output *output) {
    struct pollfd waits[2] = {{.fd = output->fd, .events = POLLOUT}, {.fd = hurry_fd}};
    int64_t begin = steady_now();
    int ready = poll(waits, 2, FULL_PAUSE_MS);
    count_wait(output, begin);
    if (ready > 0 && waits[1].revents != 0)
        ended(output, OUTPUT_ABANDONED, 0);
    else if (ready == 0 && output->while_waiting)
        output->while_waiting(output->listener);
}

/* Writes what goes out at once. How many bytes; none where there is no room, or the output is no more open. */
static size_t write_some(struct output *output, const unsigned char *bytes, size_t len) {
    ssize_t count;
    do
        count = write(output->fd, bytes, len);
    while (count < 0 && errno == EINTR);
    if (count < 0 && errno == EPIPE)
        ended(output, OUTPUT_LEFT, 0);
    else if (count < 0 && errno != EAGAIN)
        fail_output(output, errno);
    output->taken += count > 0 ? (uint64_t)count : 0;
    return count > 0 ? (size_t)count : 0;
}

bool write_all(struct output *output, const unsigned char *bytes, size_t len) {
    while (is_open(output) && len > 0) {
        size_t count = write_some(output, bytes, len);
        bytes += count;
        len -= count;
        if (count == 0 && is_open(output))
            wait_for_room(output);
    }
    return is_open(output);
}

bool write_at_once(struct output *output, const unsigned char *bytes, size_t len) {
    size_t count = write_some(output, bytes, len);
    return count > 0 ? write_all(output, bytes + count, len - count) : is_open(output);
}

/* ---- what the path names later */

/* Opens what the path names by now without waiting, where standard output is what it was. */
static int open_anew(const struct output *output, int flags) {
    if (strcmp(output->path, "-") == 0)
        return dup(output->fd);
    return open(output->path, O_WRONLY | O_NONBLOCK | O_CLOEXEC | flags, 0666);
}

/* What a fault of opening means for a switch: a pipe without a reader may get one. */
static enum switching switching_of(int error) {
    return error == ENXIO ? SWITCH_LATER : SWITCH_FAILED;
}

/* Whether two descriptors are of one file or pipe. */
static bool is_one(int first, int second) {
    struct stat kinds[2];
    return fstat(first, &kinds[0]) == 0 && fstat(second, &kinds[1]) == 0 && kinds[0].st_dev == kinds[1].st_dev &&
           kinds[0].st_ino == kinds[1].st_ino;
}

enum switching open_next(const struct output *output, int *fd) {
    *fd = open_anew(output, O_CREAT);
    if (*fd < 0)
        return switching_of(errno);
    if (is_one(*fd, output->fd)) {
        close(*fd);
        *fd = -1;
    }
    return SWITCHED;
}

void go_over(struct output *output, int fd) {
    /* It is emptied only where it is a file, and another one. */
    (void)!ftruncate(fd, 0);
    close(output->fd);
    output->fd = fd;
    output->state = OUTPUT_OPEN;
}

enum switching pass_next(const struct output *output) {
    int fd = strcmp(output->path, "-") == 0 ? -1 : open_anew(output, 0);
    if (fd < 0)
        return switching_of(errno);
    close(fd);
    return SWITCHED;
}

void close_output(struct output *output) {
    if (output->fd >= 0 && close(output->fd) != 0 && is_open(output))
        fail_output(output, errno);
    output->fd = -1;
}

const char *output_fault(const struct output *output) {
    switch (output->state) {
    case OUTPUT_LEFT:
        return "its reader has left";
    case OUTPUT_ABANDONED:
        return "was left with frames unwritten, as the run was to end at once";
    case OUTPUT_FAILED:
        return strerror(output->error);
    default:
        return "is open";
    }
}
