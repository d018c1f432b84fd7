/* What the programs of the units share: main, which has `answer` answer each call, a line, with a line, and a machine's
 * two clocks, which are what the calls "time" and "slow" say. */
#ifndef SCRIPT_H
#define SCRIPT_H

#include "moment.h"

#include <inttypes.h>
#include <signal.h>
#include <stdio.h>
#include <stdlib.h>
#include <string.h>
#include <time.h>
#include <unistd.h>

enum { CALL_LEN = 1 << 18, MOST_SECONDS = 60 };

static int64_t steady, wall;
/* Which of the next reads of the wall clock take so long, as bits. */
static int64_t slow_reads, slow_time;

int clock_gettime(clockid_t clock, struct timespec *time) {
    if (clock == CLOCK_REALTIME) {
        steady += slow_reads & 1 ? slow_time : 0;
        wall += slow_reads & 1 ? slow_time : 0;
        slow_reads >>= 1;
    }
    int64_t now = clock == CLOCK_REALTIME ? wall : steady;
    *time = (struct timespec){now / NANOSECONDS_PER_SECOND, now % NANOSECONDS_PER_SECOND};
    return 0;
}

static inline bool is(const char *call, const char *name) {
    return strcmp(call, name) == 0;
}

/* The next word of the call; an empty one where there is none. */
static inline const char *next_word(void) {
    const char *word = strtok(NULL, " \n");
    return word != NULL ? word : "";
}

static inline int64_t next_number(void) {
    return strtoll(next_word(), NULL, 10);
}

static void answer(const char *call);

/* A program that hangs is ended. */
int main(void) {
    static char line[CALL_LEN];
    signal(SIGPIPE, SIG_IGN);
    alarm(MOST_SECONDS);
    while (fgets(line, sizeof line, stdin) != NULL) {
        const char *call = strtok(line, " \n");
        if (is(call, "time")) {
            steady = next_number();
            wall = next_number();
        } else if (is(call, "slow")) {
            slow_reads = next_number();
            slow_time = next_number();
        } else {
            answer(call);
        }
        putchar('\n');
        fflush(stdout);
    }
    return 0;
}

#endif
