/* The options of a pcapng block. */
#ifndef PCAPNG_OPTION_H
#define PCAPNG_OPTION_H

#include "input.h"

struct pcapng_option {
    unsigned code;
    size_t len;
    const unsigned char *value;
};

/* The next of a block's options, which end at `end`: whether there is one. */
bool next_option(const struct input *input, const unsigned char **at, const unsigned char *end,
                 struct pcapng_option *option);

#endif
