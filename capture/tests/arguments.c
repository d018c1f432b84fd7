/* Reads arguments as the capture does, and prints what they are. The machine has MEMORY_MIB of memory, and the time is
 * NOW, in seconds. */
#define _GNU_SOURCE
#include "arguments.h"
#include "log.h"

#include <inttypes.h>
#include <stdio.h>
#include <stdlib.h>
#include <time.h>
#include <unistd.h>

enum { PAGE_LEN = 4096, PAGES_A_MIB = 256 };

long sysconf(int name) {
    return name == _SC_PHYS_PAGES ? atol(getenv("MEMORY_MIB")) * PAGES_A_MIB : PAGE_LEN;
}

int clock_gettime(clockid_t clock, struct timespec *time) {
    (void)clock;
    *time = (struct timespec){atol(getenv("NOW")), 0};
    return 0;
}

static const char *text_of(const char *text) {
    return text != NULL ? text : "-";
}

static void print_arguments(const struct arguments *given) {
    char origin[SECONDS_TEXT_LEN];
    print_seconds(given->origin.at, origin);
    printf("files %d\nbuffer %d\ninterface %d\n", given->are_files, given->buffer_mib, given->interface);
    printf("promiscuous %d\nquiet %d\nstrict %d\n", given->is_promiscuous, given->is_quiet, given->is_strict);
    printf("adapter %d\nhold %d\nparent %d\n", given->uses_adapter_clock, given->hold_seconds, given->parent);
    printf("events %s\ncounts %d\n", text_of(given->events), given->counts);
    printf("direction %d\ncheck %d\n", given->direction, given->check_sequences);
    printf("origin %s\n", given->origin.is_first_frame ? "first" : origin);
    for (const struct route *at = given->routes; at < given->routes + given->count; at++)
        printf("route %s %s %s %" PRId64 "\n", at->from, at->to, text_of(at->prefilter), at->span);
}

int main(int argc, char **argv) {
    struct arguments arguments;
    open_log();
    bool is_done;
    int status = read_arguments(argc, argv, &arguments, &is_done);
    if (status == 0 && !is_done)
        print_arguments(&arguments);
    return status;
}
