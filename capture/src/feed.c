#define _GNU_SOURCE
#include "feed.h"
#include "check_sequence.h"
#include "moment.h"

#include <errno.h>
#include <stdlib.h>
#include <string.h>

enum {
    RECORD_HEAD_LEN = 9,
    HEADER_LEN = 14,
    /* On the wire a frame has at least 64 bytes with its check sequence. */
    LEAST_WIRE_LEN = 60,
    LEAST_FRAME_LEN = HEADER_LEN + CHECK_SEQUENCE_LEN,
    MOST_FRAME_LEN = 16383,
    FIRST_ROOM = 1 << 17,
    /* Past it no more frames are kept for another output. */
    MOST_ROOM = 1 << 24,
    ROOM_BESIDE = 1 << 20,
};

static const int64_t OLD = 1000000;

bool open_feed(struct feed *feed, const char *path) {
    feed->room = FIRST_ROOM;
    feed->bytes = malloc(feed->room);
    if (feed->bytes == NULL)
        return fail_output(&feed->output, ENOMEM);
    return open_output(&feed->output, path);
}

void write_beside(struct feed *feed) {
    unsigned char *more = realloc(feed->bytes, ROOM_BESIDE);
    if (more == NULL)
        return;
    feed->bytes = more;
    feed->room = ROOM_BESIDE;
    start_output_thread(&feed->writer, &feed->output, feed->room);
}

/* The length of the record that begins there, as its head says. */
static size_t record_len(const unsigned char *record) {
    return RECORD_HEAD_LEN + ((size_t)record[7] | (size_t)record[8] << 8);
}

/* Keeps the records that an output which failed has not taken whole, of what was to be written. */
static void keep_unwritten(struct feed *feed, size_t len, uint64_t taken) {
    size_t at = 0;
    while (at < len && at + record_len(feed->bytes + at) <= taken) {
        at += record_len(feed->bytes + at);
        feed->waiting--;
    }
    memmove(feed->bytes, feed->bytes + at, len - at);
    feed->len = len - at;
}

bool flush_feed(struct feed *feed) {
    size_t len = feed->len;
    feed->len = 0;
    if (feed->writer.is_started)
        return hand_over(&feed->writer, &feed->bytes, len);
    uint64_t taken = feed->output.taken;
    if (write_all(&feed->output, feed->bytes, len)) {
        feed->waiting = 0;
        return true;
    }
    keep_unwritten(feed, len, feed->output.taken - taken);
    return false;
}

bool flush_old(struct feed *feed) {
    if (feed->len > 0 && steady_now() - feed->since > OLD)
        return flush_feed(feed);
    return is_open(&feed->output);
}

enum switching switch_feed(struct feed *feed) {
    int fd;
    enum switching switching = open_next(&feed->output, &fd);
    if (fd >= 0) {
        flush_feed(feed);
        go_over(&feed->output, fd);
    }
    return switching;
}

/* Writes a check sequence in its order on the wire. */
static void put_check_sequence(unsigned char *at, uint32_t value) {
    for (int i = 0; i < CHECK_SEQUENCE_LEN; i++)
        at[i] = (unsigned char)(value >> 8 * i);
}

static bool is_check_sequence_wrong(const unsigned char *frame, size_t len) {
    unsigned char right[CHECK_SEQUENCE_LEN];
    put_check_sequence(right, check_sequence(frame, len - CHECK_SEQUENCE_LEN));
    return memcmp(right, frame + len - CHECK_SEQUENCE_LEN, CHECK_SEQUENCE_LEN) != 0;
}

/* The length of a frame with its check sequence and padding; 0 where no feed takes it. */
static size_t wire_len(const struct captured *captured) {
    size_t len = captured->len;
    if (!captured->has_check_sequence) {
        if (len < HEADER_LEN)
            return 0;
        len = (len < LEAST_WIRE_LEN ? LEAST_WIRE_LEN : len) + CHECK_SEQUENCE_LEN;
    }
    return captured->is_whole && len >= LEAST_FRAME_LEN && len <= MOST_FRAME_LEN ? len : 0;
}

static void put_head(unsigned char *record, uint64_t counter, unsigned marks, size_t len) {
    for (int i = 0; i < 6; i++)
        record[i] = (unsigned char)(counter >> 8 * i);
    record[6] = (unsigned char)marks;
    record[7] = (unsigned char)len;
    record[8] = (unsigned char)(len >> 8);
}

/* Makes room for records that wait for another output, as those of a turn may that came when the output failed. Whether
 * it could. */
static bool lengthen_room(struct feed *feed) {
    unsigned char *more = feed->room < MOST_ROOM ? realloc(feed->bytes, 2 * feed->room) : NULL;
    if (more == NULL)
        return false;
    feed->bytes = more;
    feed->room *= 2;
    return true;
}

static bool has_room(const struct feed *feed, size_t len) {
    return feed->len + RECORD_HEAD_LEN + len <= feed->room;
}

/* Puts a frame's record behind the others, where there is room for it. */
static void put_record(struct feed *feed, uint64_t counter, const struct captured *captured, size_t len) {
    if (feed->len == 0)
        feed->since = steady_now();
    unsigned char *record = feed->bytes + feed->len, *frame = record + RECORD_HEAD_LEN;
    unsigned marks = captured->marks;
    memcpy(frame, captured->bytes, captured->len);
    if (captured->has_check_sequence) {
        marks |= is_check_sequence_wrong(frame, len) ? MARK_CHECK_SEQUENCE : 0;
    } else {
        size_t bare = len - CHECK_SEQUENCE_LEN;
        memset(frame + captured->len, 0, bare - captured->len);
        put_check_sequence(frame + bare, check_sequence(frame, bare));
    }
    put_head(record, counter, marks, len);
    feed->len += RECORD_HEAD_LEN + len;
    feed->frames++;
    feed->waiting++;
    feed->frame_bytes += len;
    feed->counter = counter;
}

bool put_frame(struct feed *feed, uint64_t counter, const struct captured *captured) {
    size_t len = wire_len(captured);
    if (len == 0) {
        feed->skipped++;
        return true;
    }
    bool goes_on = has_room(feed, len) || flush_feed(feed);
    if (!goes_on && (feed->writer.is_started || (!has_room(feed, len) && !lengthen_room(feed)))) {
        feed->lost++;
        return false;
    }
    put_record(feed, counter, captured, len);
    return goes_on;
}

bool write_mark(struct feed *feed, uint64_t counter) {
    unsigned char mark[RECORD_HEAD_LEN];
    bool goes_on = flush_feed(feed), is_ahead = ((counter - feed->counter) >> (COUNTER_BITS - 1) & 1) == 0;
    if (!goes_on || !is_ahead)
        return goes_on;
    feed->counter = counter;
    put_head(mark, counter, 0, 0);
    return write_at_once(&feed->output, mark, sizeof mark);
}

uint64_t take_lost(struct feed *feed) {
    uint64_t lost = feed->lost;
    feed->lost = 0;
    return lost;
}

uint64_t take_unwritten(struct feed *feed) {
    uint64_t unwritten = feed->waiting + take_lost(feed);
    feed->frames -= feed->waiting;
    feed->frame_bytes -= feed->len - RECORD_HEAD_LEN * feed->waiting;
    feed->waiting = feed->len = 0;
    return unwritten;
}

void close_feed(struct feed *feed) {
    end_output_thread(&feed->writer);
    close_output(&feed->output);
    free(feed->bytes);
    feed->bytes = NULL;
}
