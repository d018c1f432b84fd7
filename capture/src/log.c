#define _GNU_SOURCE
#include "log.h"

#include <fcntl.h>
#include <limits.h>
#include <poll.h>
#include <pthread.h>
#include <stdarg.h>
#include <stdbool.h>
#include <stdio.h>
#include <string.h>
#include <sys/stat.h>
#include <unistd.h>

enum {
    /* A pipe that has room takes so many bytes without waiting. */
    LINE_LEN = PIPE_BUF,
    /* Any text with two paths. */
    TEXT_LEN = 3 * PATH_MAX,
};

static int error_fd = STDERR_FILENO;

void open_log(void) {
    struct stat kind;
    bool is_shared = fstat(STDERR_FILENO, &kind) == 0 && (S_ISFIFO(kind.st_mode) || isatty(STDERR_FILENO));
    int fd = is_shared ? open("/proc/self/fd/2", O_WRONLY | O_NONBLOCK | O_NOCTTY | O_CLOEXEC) : -1;
    error_fd = fd >= 0 ? fd : STDERR_FILENO;
}

/* Writes a line, where standard error has room for it. Whether it had: a terminal may have room for a part. */
static bool write_line(const char *line) {
    static bool is_cut;
    struct pollfd error = {.fd = error_fd, .events = POLLOUT};
    ssize_t len = (ssize_t)strlen(line), count = 0;
    if (poll(&error, 1, 0) <= 0 || (error.revents & POLLOUT) == 0)
        return false;
    if (!is_cut || write(error_fd, "\n", 1) == 1)
        count = write(error_fd, line, (size_t)len);
    is_cut = count < len && (is_cut || count > 0);
    return count == len;
}

/* Puts a text into a line behind what stands there: of one that is too long its beginning and its end. */
static void put_text(char line[LINE_LEN], const char *text) {
    static const char GAP[] = "...";
    size_t begin = strlen(line), room = LINE_LEN - begin - 2, len = strlen(text);
    size_t front = len <= room ? len : (room - strlen(GAP)) / 2, tail = len <= room ? 0 : room - strlen(GAP) - front;
    snprintf(line + begin, room + 2, "%.*s%s%s\n", (int)front, text, tail > 0 ? GAP : "", text + len - tail);
}

void log_line(const char *format, ...) {
    static pthread_mutex_t lock = PTHREAD_MUTEX_INITIALIZER;
    static unsigned left_out;
    char text[TEXT_LEN], line[LINE_LEN] = "bpfrec capture: ", count_line[LINE_LEN];
    va_list values;
    va_start(values, format);
    vsnprintf(text, sizeof text, format, values);
    va_end(values);
    put_text(line, text);
    pthread_mutex_lock(&lock);
    snprintf(count_line, sizeof count_line, "bpfrec capture: %u lines were left out: standard error had no room\n",
             left_out);
    if (left_out > 0 && write_line(count_line))
        left_out = 0;
    left_out += left_out > 0 || !write_line(line);
    pthread_mutex_unlock(&lock);
}
