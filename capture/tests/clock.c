/* The clock beside which frames are captured. */
#define _GNU_SOURCE
#include "clock.h"
#include "events.h"
#include "scale.h"
#include "script.h"

static struct frame_clock frames[2];

static void answer(const char *call) {
    if (is(call, "start")) {
        const struct origin origin = {0, next_number()};
        start_clock(&origin);
    } else if (is(call, "origin")) {
        report_origin();
    } else if (is(call, "tai")) {
        const struct scale scale = {SCALE_TAI, (int)next_number()};
        show_scale("e0", &scale);
    } else if (is(call, "utc")) {
        const struct scale scale = {SCALE_UTC, 0};
        show_scale("e0", &scale);
    } else if (is(call, "look")) {
        follow_clock();
    } else if (is(call, "frame")) {
        struct frame_clock *frame = &frames[next_number()];
        printf("%" PRId64, (int64_t)steady_moment(frame, next_number()));
    } else if (is(call, "none")) {
        note_none_before(&frames[1], steady);
    } else if (is(call, "report")) {
        report_settings(next_number() != 0);
    } else if (is(call, "counter")) {
        printf("%" PRIu64, counter_now());
    } else if (is(call, "events")) {
        printf("%d", open_events(next_word()));
    }
}
