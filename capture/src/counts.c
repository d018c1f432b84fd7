#define _GNU_SOURCE
#include "counts.h"
#include "clock.h"
#include "events.h"
#include "log.h"

#include <inttypes.h>
#include <stdio.h>
#include <unistd.h>

static const int64_t BETWEEN_REPORTS = NANOSECONDS_PER_SECOND;

enum {
    /* Losses are noted each second, and after so many notes half as often, and so on: the facts stay short. */
    NOTES = 1000,
    MOST_HALVINGS = 16,
    /* Of a name and eight numbers. A pipe takes so few bytes whole or not at all. */
    OBJECT_LEN = 512,
};

static int64_t milliseconds(int64_t time) {
    return time / (NANOSECONDS_PER_SECOND / 1000);
}

void begin_counts(struct counts *counts) {
    counts->next_report = counts->next_note = steady_now() + BETWEEN_REPORTS;
    counts->noted.counter = counter_now();
}

void count_drops(struct counts *counts) {
    struct ring_losses quiet = look_at_losses(&counts->rings->each[QUIET_RING]);
    struct ring_losses burst = look_at_losses(&counts->rings->each[BURST_RING]);
    counts->dropped += (uint64_t)quiet.dropped + burst.dropped;
    /* Both say what the one interface missed. */
    counts->missed += quiet.missed;
}

/* ---- reports */

static void log_counts(const struct counts *counts) {
    const struct feed *feed = counts->feed;
    log_line("%s frames %" PRIu64 " bytes %" PRIu64 " dropped %" PRIu64 " missed %" PRIu64 " skipped %" PRIu64
             " waited %" PRId64,
             counts->interface, feed->frames, feed->frame_bytes, counts->dropped, counts->missed, feed->skipped,
             milliseconds(feed->output.waited));
}

/* Makes the counts at a counter an object of JSON. Its length. */
static size_t print_counts(const struct counts *counts, uint64_t counter, char text[OBJECT_LEN]) {
    const struct feed *feed = counts->feed;
    char name[JSON_NAME_LEN];
    print_json_name(counts->interface, name);
    return (size_t)snprintf(text, OBJECT_LEN,
                            "{\"counts\": \"%s\", \"counter\": %" PRIu64 ", \"frames\": %" PRIu64
                            ", \"bytes\": %" PRIu64 ", \"dropped\": %" PRIu64 ", \"missed\": %" PRIu64
                            ", \"skipped\": %" PRIu64 ", \"waited\": %" PRId64 ", \"feed\": %d}",
                            name, counter, feed->frames, feed->frame_bytes, counts->dropped, counts->missed,
                            feed->skipped, milliseconds(feed->output.waited), feed->switched);
}

/* Writes the counts in a line on their descriptor, where there is one that has room. */
static void write_counts(const struct counts *counts) {
    char line[OBJECT_LEN];
    if (counts->descriptor == 0)
        return;
    size_t len = print_counts(counts, counter_now(), line);
    line[len] = '\n';
    (void)!write(counts->descriptor, line, len + 1);
}

bool are_reported(const struct counts *counts) {
    return !counts->is_quiet || counts->descriptor != 0;
}

/* ---- facts */

/* Notes what was lost since it was noted last. */
static void note_losses(struct counts *counts) {
    uint64_t counter = counter_now(), skipped = counts->feed->skipped;
    uint64_t dropped_now = counts->dropped - counts->noted.dropped, missed_now = counts->missed - counts->noted.missed;
    uint64_t skipped_now = skipped - counts->noted.skipped;
    char name[JSON_NAME_LEN];
    if (dropped_now + missed_now + skipped_now > 0) {
        print_json_name(counts->interface, name);
        note_event("{\"lost\": \"%s\", \"from\": %" PRIu64 ", \"to\": %" PRIu64 ", \"dropped\": %" PRIu64
                   ", \"missed\": %" PRIu64 ", \"skipped\": %" PRIu64 ", \"feed\": %d}",
                   name, counts->noted.counter, counter, dropped_now, missed_now, skipped_now, counts->feed->switched);
        counts->notes++;
    }
    counts->noted.counter = counter;
    counts->noted.dropped = counts->dropped;
    counts->noted.missed = counts->missed;
    counts->noted.skipped = skipped;
}

void note_counts(struct counts *counts) {
    char object[OBJECT_LEN];
    if (!has_events())
        return;
    count_drops(counts);
    note_losses(counts);
    print_counts(counts, counts->noted.counter, object);
    note_event("%s", object);
}

bool note_link(struct counts *counts, const char *away) {
    char name[JSON_NAME_LEN];
    if (counts->away == away)
        return false;
    counts->away = away;
    print_json_name(counts->interface, name);
    note_event("{\"link\": \"%s\", \"counter\": %" PRIu64 ", \"away\": %s%s%s, \"feed\": %d}", name, counter_now(),
               away ? "\"" : "", away ? away : "null", away ? "\"" : "", counts->feed->switched);
    return true;
}

/* ---- in time */

/* Whether a moment has come; then the next one is so much later. */
static bool is_due(int64_t *next, int64_t between) {
    int64_t now = steady_now();
    if (now < *next)
        return false;
    *next = *next + between > now ? *next + between : now + between;
    return true;
}

static int64_t between_notes(const struct counts *counts) {
    unsigned halvings = counts->notes / NOTES;
    return BETWEEN_REPORTS << (halvings < MOST_HALVINGS ? halvings : MOST_HALVINGS);
}

void report_in_time(struct counts *counts) {
    if (are_reported(counts) && is_due(&counts->next_report, BETWEEN_REPORTS)) {
        count_drops(counts);
        if (!counts->is_quiet)
            log_counts(counts);
        write_counts(counts);
    }
    if (has_events() && is_due(&counts->next_note, between_notes(counts))) {
        count_drops(counts);
        note_losses(counts);
    }
}

/* ---- the end */

void report_last(struct counts *counts) {
    count_drops(counts);
    log_counts(counts);
    write_counts(counts);
    note_counts(counts);
}

bool report_lost(const struct counts *counts) {
    uint64_t dropped = counts->dropped, missed = counts->missed, skipped = counts->feed->skipped;
    char name[JSON_NAME_LEN], missed_text[64] = "";
    if (dropped + missed + skipped == 0)
        return false;
    print_json_name(counts->interface, name);
    if (note_event("{\"lost_in_all\": \"%s\", \"dropped\": %" PRIu64 ", \"skipped\": %" PRIu64 ", \"missed\": %" PRIu64
                   "}",
                   name, dropped, skipped, missed))
        return true;
    if (missed > 0)
        snprintf(missed_text, sizeof missed_text, " %" PRIu64 " missed", missed);
    log_line("%s LOST %" PRIu64 " dropped %" PRIu64 " skipped%s", counts->interface, dropped, skipped, missed_text);
    return true;
}
