/* What an interface's frames came to: what is reported each second, what was lost, and the facts of both. */
#ifndef COUNTS_H
#define COUNTS_H

#include "feed.h"
#include "rings.h"

#include <stdbool.h>
#include <stdint.h>

struct counts {
    const char *interface; /* its name */
    const struct feed *feed;
    struct rings *rings;
    bool is_quiet;            /* no line each second */
    int descriptor;           /* that of --counts; 0 where there is none */
    uint64_t dropped, missed; /* by the kernel, and by the interface; of all times that it was open */
    int64_t next_report;
    int64_t next_note;
    unsigned notes;
    const char *away; /* why it brings no frames, as noted last; NULL while it does */
    struct {
        uint64_t counter, dropped, missed, skipped;
    } noted; /* up to then losses are noted */
};

/* Begins to count, now. */
void begin_counts(struct counts *counts);

/* Takes what the rings have lost since they were asked last. */
void count_drops(struct counts *counts);

/* Whether they are reported each second, in a line or on the descriptor. */
bool are_reported(const struct counts *counts);

/* Reports the counts where a second has gone by, and notes what was lost meanwhile. */
void report_in_time(struct counts *counts);

/* Notes what was lost until now, and the counts, for the facts. */
void note_counts(struct counts *counts);

/* Notes, where that is new, why an interface brings no frames from now on, or by NULL that it does. Whether it is new.
 */
bool note_link(struct counts *counts, const char *away);

/* Reports and notes the counts at the end of a feed. */
void report_last(struct counts *counts);

/* Reports what an interface has lost in all, where it lost any: for the facts, or else in a line. Whether it lost any.
 */
bool report_lost(const struct counts *counts);

#endif
