#include "marks.h"

enum { MARKS_A_SPAN = 4, LESS = 1000 };

/* So a span of a microsecond costs no more than 200 marks a second. */
static const int64_t LEAST_BETWEEN = 5 * (int64_t)NANOSECONDS_PER_MS;

struct marks marks_of(int64_t span) {
    int64_t between = span * NANOSECONDS_PER_TICK / MARKS_A_SPAN;
    if (span > 0 && between < LEAST_BETWEEN)
        between = LEAST_BETWEEN;
    return (struct marks){.between = between};
}

bool is_mark_due(struct marks *marks, int64_t now) {
    if (marks->between == 0 || now < marks->next)
        return false;
    /* One that comes late makes the next one no later, but where it would be too close. */
    int64_t next = marks->next + marks->between;
    marks->next = next - now >= LEAST_BETWEEN ? next : now + marks->between;
    return true;
}

void follow_last(struct marks *marks, nanoseconds last, int64_t now) {
    if (marks->last == last)
        return;
    marks->last = last;
    marks->taken = now;
}

nanoseconds adapter_moment(const struct marks *marks, int64_t steady) {
    int64_t since = steady - marks->taken;
    return marks->last + since - since / LESS;
}
