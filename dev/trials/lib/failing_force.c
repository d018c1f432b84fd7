/* Preloaded before a program: lets calls fail that force recordings to their disk, as where a disk fails to write back.

   UNFORCED_BY     which calls fail: fsync or fdatasync
   UNFORCED_FROM   the number of the first call for a file whose name ends in .ch11 that fails
   UNFORCED_COUNT  how many calls fail from then on
   UNFORCED_ERROR  the number of the error with which they do */
#define _GNU_SOURCE
#include <dlfcn.h>
#include <errno.h>
#include <stdio.h>
#include <stdlib.h>
#include <string.h>
#include <unistd.h>

static int is_recording(int file) {
    char link[64], name[4096];
    ssize_t len;

    snprintf(link, sizeof link, "/proc/self/fd/%d", file);
    len = readlink(link, name, sizeof name);
    return len > 5 && memcmp(name + len - 5, ".ch11", 5) == 0;
}

static int force(const char *call, int file) {
    static int calls;
    int (*real)(int) = dlsym(RTLD_NEXT, call);

    if (strcmp(getenv("UNFORCED_BY"), call) == 0 && is_recording(file)) {
        int number = __atomic_add_fetch(&calls, 1, __ATOMIC_SEQ_CST), from = atoi(getenv("UNFORCED_FROM"));
        if (number >= from && number < from + atoi(getenv("UNFORCED_COUNT"))) {
            errno = atoi(getenv("UNFORCED_ERROR"));
            return -1;
        }
    }
    return real(file);
}

int fsync(int file) {
    return force("fsync", file);
}

int fdatasync(int file) {
    return force("fdatasync", file);
}
