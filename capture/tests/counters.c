/* Origins, and the counters of moments. A moment is given as two numbers of 64 bits, its upper half first. */
#define _GNU_SOURCE
#include "script.h"

static nanoseconds next_moment(void) {
    uint64_t upper = strtoull(next_word(), NULL, 10), lower = strtoull(next_word(), NULL, 10);
    return (nanoseconds)((unsigned __int128)upper << 64 | lower);
}

static void print_origin(bool is_right, const struct origin *origin) {
    if (is_right)
        printf("%" PRIu64 " %" PRIu64, (uint64_t)((unsigned __int128)origin->at >> 64), (uint64_t)origin->at);
    else
        printf("refused");
}

static void answer(const char *call) {
    struct origin origin = {0};
    if (is(call, "origin")) {
        print_origin(origin_of(next_word(), &origin), &origin);
    } else if (is(call, "counter")) {
        nanoseconds moment = next_moment();
        origin.at = next_moment();
        printf("%" PRIu64, counter_at(moment, &origin));
    } else if (is(call, "turns")) {
        origin.at = next_moment();
        print_origin(add_turns(&origin, next_moment()), &origin);
    }
}
