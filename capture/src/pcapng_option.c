#include "pcapng_option.h"

bool next_option(const struct input *input, const unsigned char **at, const unsigned char *end,
                 struct pcapng_option *option) {
    if (end - *at < 4)
        return false;
    option->code = uint16_at(input, *at);
    option->len = uint16_at(input, *at + 2);
    option->value = *at + 4;
    size_t padded = (option->len + 3) & ~(size_t)3;
    if (option->code == 0 || padded > (size_t)(end - option->value))
        return false;
    *at = option->value + padded;
    return true;
}
