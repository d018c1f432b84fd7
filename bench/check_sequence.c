/* Times check sequences (FCS) by libdeflate, which bin/capture takes, and by zlib, where libdeflate is missing.
 *
 * usage: check_sequence
 *
 * It prints `<library> <bytes> <ns>` for frames of 60, 300 and 1,500 bytes that lie one after the other in a mebibyte:
 * the least of 15 rounds of 20,000 frames. */
#include <libdeflate.h>
#include <stdint.h>
#include <stdio.h>
#include <stdlib.h>
#include <time.h>
#include <zlib.h>

enum { ROUNDS = 15, FRAMES = 20000, BYTES = 1 << 20, LONGEST = 1500, APART = 64 };

static unsigned char bytes[BYTES];

static uint32_t by_libdeflate(const unsigned char *frame, size_t len) {
    return libdeflate_crc32(0, frame, len);
}

static uint32_t by_zlib(const unsigned char *frame, size_t len) {
    return (uint32_t)crc32_z(0, frame, len);
}

static double now(void) {
    struct timespec moment;
    clock_gettime(CLOCK_MONOTONIC, &moment);
    return 1e9 * (double)moment.tv_sec + (double)moment.tv_nsec;
}

/* The nanoseconds of a frame, at best. */
static double best_of(uint32_t (*check_sequence)(const unsigned char *, size_t), size_t len, uint32_t *sum) {
    double best = 1e9;
    for (int round = 0; round < ROUNDS; round++) {
        double begin = now();
        for (size_t i = 0; i < FRAMES; i++)
            *sum ^= check_sequence(bytes + i * APART % (BYTES - LONGEST), len);
        double took = (now() - begin) / FRAMES;
        best = took < best ? took : best;
    }
    return best;
}

int main(void) {
    static const size_t LENGTHS[] = {60, 300, LONGEST};
    uint32_t sum = 0, other = 0;
    for (size_t i = 0; i < BYTES; i++)
        bytes[i] = (unsigned char)rand();
    for (size_t i = 0; i < sizeof LENGTHS / sizeof *LENGTHS; i++) {
        printf("libdeflate %zu %.1f\n", LENGTHS[i], best_of(by_libdeflate, LENGTHS[i], &sum));
        printf("zlib %zu %.1f\n", LENGTHS[i], best_of(by_zlib, LENGTHS[i], &other));
    }
    return sum != other;
}
