/* The wall clock, which may be set while frames are captured, beside a clock that runs on. */
#ifndef CLOCK_H
#define CLOCK_H

#include "moment.h"

/* Where an interface's frames stand: by which setting of the wall clock its last frame was stamped, and when. */
struct frame_clock {
    unsigned setting;
    nanoseconds last;
    int64_t none_before; /* frames that are taken from now on came later, by the clock that runs on */
};

/* Notes where the wall clock stands beside the one that runs on, and the origin of counters. */
void start_clock(const struct origin *origin);

/* Reports the origin of counters at the beginning, with the scale of the frames that is known by then. */
void report_origin(void);

/* Sees whether the wall clock was set since somebody looked last. */
void follow_clock(void);

/* Reports the settings that weren't reported, each with the origin from then on: those that are a moment old, since
 * frames show when a setting was, or at the end all; and the origin once counters have begun at 0 again. Notes the
 * origin anew once the scale of the frames is another one. */
void report_settings(bool is_end);

/* The moment of a frame by the clock that runs on: what the wall clock would have said if it hadn't been set. */
nanoseconds steady_moment(struct frame_clock *clock, nanoseconds stamp);

/* Notes that no frame of an interface waits that came before a moment of the clock that runs on. */
void note_none_before(struct frame_clock *clock, int64_t moment);

/* The moment, as a frame has it that comes then, of one of the clock that runs on. */
nanoseconds moment_of(int64_t steady);

/* The counter of a frame that came now. */
uint64_t counter_now(void);

#endif
