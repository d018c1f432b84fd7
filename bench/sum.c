/* Times a plain loop that sums the 32-bit words of a body, and memcpy of it, beside `bin/bench sums`.
 *
 * usage: sum GIGABYTES
 *
 * It prints `<name> <bytes> <ns> <sum>` as bin/bench does; the sums are those of `bin/bench sums`. */
#include <stdint.h>
#include <stdio.h>
#include <stdlib.h>
#include <string.h>
#include <time.h>

static uint32_t body_sum(const unsigned char *bytes, size_t len) {
    uint32_t sum = 0, word;
    for (size_t at = 0; at + 4 <= len; at += 4) {
        memcpy(&word, bytes + at, 4);
        sum += word;
    }
    return sum;
}

static double now(void) {
    struct timespec moment;
    clock_gettime(CLOCK_MONOTONIC, &moment);
    return 1e9 * (double)moment.tv_sec + (double)moment.tv_nsec;
}

static void time_one(size_t len, uint64_t count, int copies) {
    unsigned char *body = malloc(len), *copy = malloc(len);
    uint64_t total = 0;
    if (body == NULL || copy == NULL)
        exit(1);
    memset(body, 0x5a, len);
    double begin = now();
    for (uint64_t turn = 0; turn < count; turn++) {
        body[turn % len] = (unsigned char)turn;
        if (copies) {
            memcpy(copy, body, len);
            total += copy[turn % len];
        } else {
            total += body_sum(body, len);
        }
    }
    printf("%s %zu %.3f %llu\n", copies ? "memcpy" : "sum", len, (now() - begin) / (double)count,
           (unsigned long long)total);
    free(body);
    free(copy);
}

int main(int argc, char **argv) {
    static const size_t LENGTHS[] = {1500, 16400, 65512, 524260};
    if (argc != 2) {
        fputs("usage: sum GIGABYTES\n", stderr);
        return 2;
    }
    uint64_t bytes = strtoull(argv[1], NULL, 10) * 1000000000;
    for (size_t at = 0; at < sizeof LENGTHS / sizeof *LENGTHS; at++) {
        time_one(LENGTHS[at], bytes / LENGTHS[at], 0);
        time_one(LENGTHS[at], bytes / LENGTHS[at], 1);
    }
    return 0;
}
