/* An output into a pipe, whose reader takes all that is in it when the test says so. Waits take the time of the script.
 */
#define _GNU_SOURCE
#include "output.h"
#include "script.h"
#include "signals.h"

#include <fcntl.h>
#include <poll.h>

static struct output output = {.fd = -1};
static const char *path;
static int reader = -1;
/* After how many waits its reader comes, or takes all. */
static int64_t waits_left;

static void open_reader(void) {
    reader = open(path, O_RDONLY | O_NONBLOCK);
}

static void read_all(void) {
    static char bytes[1 << 16];
    while (read(reader, bytes, sizeof bytes) > 0)
        ;
}

int poll(struct pollfd *waits, nfds_t count, int timeout) {
    steady += timeout * (int64_t)NANOSECONDS_PER_MS;
    bool is_last = --waits_left == 0;
    if (is_last && reader < 0)
        open_reader();
    else if (is_last)
        read_all();
    for (nfds_t at = 0; at < count; at++)
        waits[at].revents = 0;
    waits[0].revents = is_last && (waits[0].events & POLLOUT) != 0 ? POLLOUT : 0;
    return waits[0].revents != 0;
}

static void answer(const char *call) {
    static unsigned char bytes[1 << 21];
    if (is(call, "path")) {
        path = strdup(next_word());
    } else if (is(call, "reader")) {
        open_reader();
    } else if (is(call, "stop")) {
        stop_run();
    } else if (is(call, "open")) {
        int64_t begin = steady;
        waits_left = next_number();
        bool is_opened = open_output(&output, path);
        printf("%d %" PRId64, is_opened, (steady - begin) / (int64_t)NANOSECONDS_PER_MS);
    } else if (is(call, "write")) {
        size_t len = (size_t)next_number();
        waits_left = next_number();
        read_all();
        write_all(&output, bytes, len);
        printf("%" PRId64, output.waited / (int64_t)NANOSECONDS_PER_MS);
    } else if (is(call, "written")) {
        note_all_written(&output);
    } else if (is(call, "fault")) {
        printf("%s", output_fault(&output));
    }
}
