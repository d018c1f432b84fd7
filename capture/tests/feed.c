/* The feed of frames, whose bytes are drawn by their length. */
#define _GNU_SOURCE
#include "feed.h"
#include "check_sequence.h"
#include "script.h"

static struct feed feed = {.output.fd = -1};

/* By the polynomial, bit for bit, without a library. */
uint32_t check_sequence(const unsigned char *frame, size_t len) {
    uint32_t sum = UINT32_MAX;
    for (size_t at = 0; at < len; at++) {
        sum ^= frame[at];
        for (int bit = 0; bit < 8; bit++)
            sum = sum >> 1 ^ (sum & 1 ? 0xEDB88320 : 0);
    }
    return ~sum;
}

/* A frame: its counter, its length, whether it is whole and has its check sequence, its marks, and which bits of its
 * check sequence are wrong. */
static void put_drawn(void) {
    static unsigned char bytes[1 << 16];
    uint64_t counter = (uint64_t)next_number();
    struct captured captured = {.bytes = bytes, .len = (size_t)next_number()};
    captured.is_whole = next_number() != 0;
    captured.has_check_sequence = next_number() != 0;
    captured.marks = (unsigned)next_number();
    for (size_t at = 0; at < captured.len; at++)
        bytes[at] = (unsigned char)(at * 7 + captured.len);
    if (captured.has_check_sequence && captured.len >= CHECK_SEQUENCE_LEN) {
        size_t bare = captured.len - CHECK_SEQUENCE_LEN;
        uint32_t sum = check_sequence(bytes, bare) ^ (uint32_t)next_number();
        for (int at = 0; at < CHECK_SEQUENCE_LEN; at++)
            bytes[bare + (size_t)at] = (unsigned char)(sum >> 8 * at);
    }
    printf("%d", put_frame(&feed, counter, &captured));
}

static void answer(const char *call) {
    if (is(call, "open"))
        printf("%d", open_feed(&feed, strdup(next_word())));
    else if (is(call, "frame"))
        put_drawn();
    else if (is(call, "mark"))
        printf("%d", write_mark(&feed, (uint64_t)next_number()));
    else if (is(call, "flush"))
        printf("%d", flush_feed(&feed));
    else if (is(call, "old"))
        printf("%d", flush_old(&feed));
    else if (is(call, "switch"))
        printf("%d", switch_feed(&feed));
    else if (is(call, "unwritten"))
        printf("%" PRIu64, take_unwritten(&feed));
    else if (is(call, "counts"))
        printf("%" PRIu64 " %" PRIu64 " %" PRIu64, feed.frames, feed.frame_bytes, feed.skipped);
    else if (is(call, "fault"))
        printf("%s", output_fault(&feed.output));
}
