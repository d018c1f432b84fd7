/* A feed that is written: the records of frames, by docs/user/formats/filters.md. */
#ifndef FEED_H
#define FEED_H

#include "output.h"
#include "output_thread.h"

#include <stdbool.h>
#include <stddef.h>
#include <stdint.h>

enum { MARK_CHECK_SEQUENCE = 1, MARK_OTHER_FAULT = 2 };

struct feed {
    struct output output;
    struct output_thread writer; /* where it is started, it writes */
    unsigned char *bytes;
    size_t len, room;
    int64_t since; /* when the first of the waiting bytes came */
    int switched;  /* how many of the switches that were asked for are done, or can't be */
    uint64_t frames, frame_bytes;
    uint64_t skipped; /* frames that no feed takes */
    uint64_t lost;    /* frames for which there was no room once the output had failed */
    uint64_t waiting; /* of the frames, those that no output has taken whole */
    uint64_t counter; /* of the last frame or mark */
};

/* A frame as it was captured. */
struct captured {
    const unsigned char *bytes;
    size_t len;
    bool is_whole;
    bool has_check_sequence;
    unsigned marks;
};

/* Opens the feed at `path`, as `open_output` does. Whether it is open. */
bool open_feed(struct feed *feed, const char *path);

/* Has a thread of its own write what is full, for a feed whose frames come as fast as they are taken. */
void write_beside(struct feed *feed);

/* Puts the record of a frame behind the others: padded to the least length on the wire and with its check sequence
 * where it came without, marked where that is wrong. A frame that was cut short, or has a length that no feed takes,
 * is counted as skipped. Whether the feed is still open: else the frame waits, or where it can't it is lost. */
bool put_frame(struct feed *feed, uint64_t counter, const struct captured *captured);

/* Writes what waits, and a time mark: the record of a counter below which no frame comes any more. It is left out where
 * a pipe has no room for it, and where it is below the counter of the last record, as if counters had turned since.
 * Whether the feed is still open. */
bool write_mark(struct feed *feed, uint64_t counter);

/* How many frames were lost since this was asked. */
uint64_t take_lost(struct feed *feed);

/* Gives up the frames that no output has taken, which count no more as the feed's. How many, with those that are lost.
 */
uint64_t take_unwritten(struct feed *feed);

/* Goes over to what the path names by now: what waits is written to the file or pipe before, so each record is whole in
 * one of them. Else it goes on as before. */
enum switching switch_feed(struct feed *feed);

/* Writes what waits, or hands it to the thread. Whether the feed is still open: else the records that weren't taken
 * whole wait for another feed. */
bool flush_feed(struct feed *feed);

/* Writes what has waited for a millisecond. Whether the feed is still open. */
bool flush_old(struct feed *feed);

/* Closes it once all that was flushed is written. */
void close_feed(struct feed *feed);

#endif
