/* The arguments of the command line. */
#ifndef ARGUMENTS_H
#define ARGUMENTS_H

#include "moment.h"

#include <stdbool.h>
#include <stdint.h>

enum direction { BOTH_DIRECTIONS, INWARD, OUTWARD };
enum check_sequences { AS_THE_ADAPTER_SAYS, GIVEN, MISSING };

/* Where frames come from and where they go to. */
struct route {
    char *from;
    char *to;
    const char *prefilter; /* the listing of a program by which the kernel drops some before; NULL without one */
    int64_t span;          /* of the channel that gets them, in ticks; 0 where it has none */
};

/* What is given of an interface: a prefilter, or where that is NULL a span. */
struct given {
    const char *interface, *prefilter;
    int64_t span;
};

struct arguments {
    bool are_files;
    int buffer_mib;
    int interface;
    bool is_promiscuous;
    bool is_quiet;
    bool is_strict;
    bool uses_adapter_clock;
    int hold_seconds;   /* how long a feed whose reader has left waits for word that the next one is to go on */
    int parent;         /* the process whose end ends the run too; 0 where there is none */
    int counts;         /* the descriptor on which counts are written; 0 where there is none */
    const char *events; /* the file in which the facts of the run are noted; NULL where there is none */
    enum direction direction;
    enum check_sequences check_sequences;
    struct origin origin;
    struct route *routes;
    int count;
    struct given *given;
    int given_count;
};

/* Reads the arguments. 0, or the status with which to end: 0 is for help too, so `is_done` says which. */
int read_arguments(int argc, char **argv, struct arguments *arguments, bool *is_done);

#endif
