/* Time marks: by them a recorder closes the packets of an interface that brings no frames. When one is due, and by
 * which moment. */
#ifndef MARKS_H
#define MARKS_H

#include "moment.h"

#include <stdbool.h>
#include <stdint.h>

struct marks {
    int64_t between;  /* nanoseconds from one to the next; 0 where the feed gets none */
    int64_t next;     /* when one is due, by the clock that runs on */
    nanoseconds last; /* the moment of the last frame by an adapter's clock */
    int64_t taken;    /* by when it was taken; 0 before the first: there are no marks then */
};

/* The marks of a feed whose channel has a span of so many ticks, or none where that is 0. */
struct marks marks_of(int64_t span);

/* Whether a feed that gets marks is due for one; then the next one is so much later. */
bool is_mark_due(struct marks *marks, int64_t now);

/* Keeps the moment of the last frame by an adapter's clock, where a new one was taken. */
void follow_last(struct marks *marks, nanoseconds last, int64_t now);

/* A moment that an adapter's clock has passed by one of the clock that runs on. It isn't read: it goes on from the last
 * frame, by a thousandth less than that clock, since no two run off by more. */
nanoseconds adapter_moment(const struct marks *marks, int64_t steady);

#endif
