/* The time marks of a feed: when one is due, and its moment by an adapter's clock. */
#define _GNU_SOURCE
#include "marks.h"
#include "script.h"

static struct marks marks;

static void answer(const char *call) {
    if (is(call, "span"))
        marks = marks_of(next_number());
    else if (is(call, "due"))
        printf("%d", is_mark_due(&marks, steady));
    else if (is(call, "frame"))
        follow_last(&marks, next_number(), steady);
    else if (is(call, "adapter"))
        printf("%" PRId64, (int64_t)adapter_moment(&marks, steady));
}
