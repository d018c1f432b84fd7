/* Gives drawn bytes to the readers of capture files, as libFuzzer asks for it; dev/trials/capture/test_sanitized.py
 * builds and runs it. */
#define _GNU_SOURCE
#include "../src/capture_file.h"
#include "../src/feed.h"

#include <stdio.h>
#include <stdlib.h>
#include <sys/mman.h>
#include <unistd.h>

enum { PATH_LEN = 32 };

int LLVMFuzzerTestOneInput(const unsigned char *bytes, size_t len);

/* Makes the records of all frames that a file gives. */
static void read_frames(const char *path) {
    struct capture_file file = {.input.fd = -1};
    struct feed feed = {.output.fd = -1};
    struct file_frame frame;
    if (open_file(&file, path, EVERY_INTERFACE) && open_feed(&feed, "/dev/null"))
        while (next_frame(&file, &frame) == READING_SOME && put_frame(&feed, 0, &frame.captured))
            ;
    flush_feed(&feed);
    close_feed(&feed);
    close_file(&file);
}

int LLVMFuzzerTestOneInput(const unsigned char *bytes, size_t len) {
    char path[PATH_LEN];
    int fd = memfd_create("drawn", MFD_CLOEXEC);
    if (fd < 0 || write(fd, bytes, len) != (ssize_t)len)
        abort();
    snprintf(path, sizeof path, "/proc/self/fd/%d", fd);
    read_frames(path);
    close(fd);
    return 0;
}
