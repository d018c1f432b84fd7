/* In which scale the times of frames are. */
#ifndef SCALE_H
#define SCALE_H

#include "moment.h"

#include <stdbool.h>

enum scale_kind { SCALE_UNKNOWN, SCALE_UTC, SCALE_TAI };

struct scale {
    enum scale_kind kind;
    int tai_offset; /* of TAI, how many seconds it is ahead of UTC; else 0 */
};

/* The scale of a clock that is ahead of the host's, by how far TAI is ahead of UTC by now. */
struct scale scale_ahead(nanoseconds ahead);

bool is_same_scale(const struct scale *one, const struct scale *other);

/* Takes the scale that an interface's frames have. A run has one: where interfaces differ none is known any more, which
 * a line says, by the interface's name. */
void show_scale(const char *interface, const struct scale *scale);

/* The scale of all frames so far; unknown before the first. */
struct scale scale_of_run(void);

/* A scale as the keys of an object of JSON; `text` has room for SCALE_TEXT_LEN bytes. */
enum { SCALE_TEXT_LEN = 64 };
void print_scale(const struct scale *scale, char *text);

#endif
