/* Reads capture files frame by frame, and the options of a block. */
#define _GNU_SOURCE
#include "capture_file.h"
#include "pcapng_option.h"
#include "script.h"

static void print_bytes(const unsigned char *bytes, size_t len) {
    for (size_t at = 0; at < len; at++)
        printf("%02x", bytes[at]);
    printf(",");
}

/* A frame's counter since 1970, or - where it has no time, and what else is known of it. */
static void print_frame(const struct file_frame *frame) {
    static const struct origin ZERO;
    const struct captured *captured = &frame->captured;
    if (frame->has_time)
        printf("%" PRIu64, counter_at(frame->moment, &ZERO));
    else
        printf("-");
    printf(" %d %d %u ", captured->is_whole, captured->has_check_sequence, captured->marks);
    print_bytes(captured->bytes, captured->len);
}

/* The frames of a file, and after a sign what is wrong with it. */
static void read_file(const char *path, int chosen) {
    struct capture_file file = {.input.fd = -1};
    struct file_frame frame;
    if (open_file(&file, path, chosen))
        while (next_frame(&file, &frame) == READING_SOME)
            print_frame(&frame);
    printf(";%s", file.input.fault);
    close_file(&file);
}

/* The options in these bytes, behind which no byte can be read. */
static void read_options(bool is_big_endian, const char *digits) {
    struct input input = {.is_big_endian = is_big_endian};
    struct pcapng_option option;
    size_t len = strlen(digits) / 2;
    unsigned char *bytes = malloc(len);
    for (size_t at = 0; at < len; at++)
        sscanf(digits + 2 * at, "%2hhx", &bytes[at]);
    for (const unsigned char *at = bytes; next_option(&input, &at, bytes + len, &option);) {
        printf("%u ", option.code);
        print_bytes(option.value, option.len);
    }
    free(bytes);
}

static void answer(const char *call) {
    const char *given = next_word();
    if (is(call, "file"))
        read_file(given, (int)next_number());
    else if (is(call, "options"))
        read_options(atoi(given) != 0, next_word());
}
