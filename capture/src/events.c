#define _GNU_SOURCE
#include "events.h"
#include "log.h"

#include <errno.h>
#include <fcntl.h>
#include <stdarg.h>
#include <stdatomic.h>
#include <stdio.h>
#include <string.h>
#include <unistd.h>

enum { EVENT_LEN = 512, ESCAPE_LEN = 6 };

static int events = -1;
static atomic_flag has_failed = ATOMIC_FLAG_INIT;

bool open_events(const char *path) {
    events = open(path, O_WRONLY | O_APPEND | O_CREAT | O_CLOEXEC, 0666);
    if (events < 0)
        log_line("%s: %s", path, strerror(errno));
    return events >= 0;
}

bool has_events(void) {
    return events >= 0;
}

bool note_event(const char *format, ...) {
    char line[EVENT_LEN];
    va_list values;
    if (events < 0)
        return false;
    va_start(values, format);
    int len = vsnprintf(line, sizeof line, format, values);
    va_end(values);
    if (len < 0 || len >= EVENT_LEN)
        return false;
    line[len] = '\n';
    if (write(events, line, (size_t)len + 1) == len + 1)
        return true;
    if (!atomic_flag_test_and_set(&has_failed))
        log_line("events can't be written: the facts beside the recording lack losses");
    return false;
}

void print_json_name(const char *name, char text[JSON_NAME_LEN]) {
    size_t len = 0;
    for (; *name != '\0' && len + ESCAPE_LEN < JSON_NAME_LEN; name++) {
        unsigned char byte = (unsigned char)*name;
        if (byte == '"' || byte == '\\' || byte < ' ')
            len += (size_t)snprintf(text + len, ESCAPE_LEN + 1, "\\u%04x", byte);
        else
            text[len++] = (char)byte;
    }
    text[len] = '\0';
}
