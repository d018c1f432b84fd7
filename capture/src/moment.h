/* Moments of the wall clock, and the counters that they become. */
#ifndef MOMENT_H
#define MOMENT_H

#include <stdbool.h>
#include <stdint.h>

/* Nanoseconds since 1970-01-01, as wide as the times of any capture file. */
typedef __int128 nanoseconds;

enum {
    COUNTER_BITS = 48,
    NANOSECONDS_PER_TICK = 100,
    NANOSECONDS_PER_MS = 1000000,
    NANOSECONDS_PER_SECOND = 1000000000
};

/* The moment at which the counter is 0; the first frame of a file, until that is known. */
struct origin {
    bool is_first_frame;
    nanoseconds at;
};

/* Reads `now`, `zero` (1970-01-01), `first`, seconds since 1970 or `2026-03-01T12:00:00.5Z`; whether it is one. */
bool origin_of(const char *text, struct origin *origin);

/* The time after which counters begin at 0 again. */
static const int64_t COUNTER_TURN = ((int64_t)1 << COUNTER_BITS) * NANOSECONDS_PER_TICK;

/* Adds to an origin the turns that counters have made since then, so that a counter of now counts from it; no counter
 * changes by that. Whether it could: an origin may lie ahead. */
bool add_turns(struct origin *origin, nanoseconds now);

/* The 48 bits of the 10 MHz relative time counter at a moment. */
uint64_t counter_at(nanoseconds moment, const struct origin *origin);

/* A moment or a time in seconds with nine digits behind the point; `text` has room for SECONDS_TEXT_LEN bytes. */
enum { SECONDS_TEXT_LEN = 48 };
void print_seconds(nanoseconds time, char *text);

/* A clock that never goes back, in nanoseconds. */
int64_t steady_now(void);

#endif
