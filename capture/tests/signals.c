/* The signals that end a run, which a thread serves. */
#define _GNU_SOURCE
#include "signals.h"
#include "script.h"

#include <pthread.h>

static void *serve_all(void *nothing) {
    int ends[2];
    if (pipe(ends) == 0)
        serve_signals(ends[0], NULL);
    return nothing;
}

static void answer(const char *call) {
    pthread_t thread;
    if (is(call, "begin"))
        printf("%d", prepare_stop() && pthread_create(&thread, NULL, serve_all, NULL) == 0);
    else if (is(call, "send"))
        kill(getpid(), (int)next_number());
    else if (is(call, "state"))
        printf("%d %d %d %d", switches_asked(), is_held(switches_asked()), is_stopping(), is_hurried());
}
