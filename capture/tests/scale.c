/* The time scales of frames, with a kernel that was told how far TAI is ahead of UTC. */
#define _GNU_SOURCE
#include "scale.h"
#include "script.h"

#include <sys/timex.h>

static int told;

int adjtimex(struct timex *times) {
    times->tai = told;
    return 0;
}

static void put_scale(struct scale scale) {
    char text[SCALE_TEXT_LEN];
    print_scale(&scale, text);
    printf("{%s}", text);
}

static void answer(const char *call) {
    if (is(call, "kernel")) {
        told = (int)next_number();
    } else if (is(call, "ahead")) {
        put_scale(scale_ahead(next_number()));
    } else if (is(call, "show")) {
        const struct scale scale = scale_ahead(next_number());
        show_scale("e0", &scale);
    } else if (is(call, "run")) {
        put_scale(scale_of_run());
    }
}
