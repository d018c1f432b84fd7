/* A capture file that becomes a feed. */
#ifndef CONVERT_H
#define CONVERT_H

#include "arguments.h"
#include "capture_file.h"
#include "feed.h"

#include <stdbool.h>

struct conversion {
    const char *from;
    const char *to;
    const struct arguments *arguments;
    struct capture_file file;
    struct feed feed;
    struct origin origin;
    uint64_t counter; /* of the frame before */
    uint64_t before;  /* frames before the origin */
    nanoseconds least;
    uint64_t cut, too_short; /* of the frames that are left out */
    bool is_well;
};

/* Finds the least moment of all frames, where the origin is that; of one pipe it is its first frame's. Whether it is
 * known; else a line has said why not. */
bool find_origin(struct arguments *arguments);

/* Notes for the facts the origin of all files, where it is known: captures have UTC times. */
void note_file_origin(const struct arguments *arguments);

/* Writes the feed and logs the counts. */
void run_conversion(struct conversion *conversion);

#endif
