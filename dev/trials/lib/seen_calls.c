/* Preloaded before a program: tells of its calls on files in their order, and can make some of them fail.

   CALLS        a file that gets a line for each call: its name, the file's name, and a number: how a file is opened
                (1 to be written, 2 emptied), its new length, how many bytes were written
   EXCHANGED    a file: before it is opened to be written, EXCHANGED_BY is renamed to it
   FAILING      a file that takes FAILS_AFTER bytes and no more */
#define _GNU_SOURCE
#include <dlfcn.h>
#include <errno.h>
#include <fcntl.h>
#include <stdarg.h>
#include <stdio.h>
#include <stdlib.h>
#include <string.h>
#include <sys/stat.h>
#include <unistd.h>

static long long taken;

static void name_of(int file, char *name, size_t room) {
    char link[64];
    ssize_t len;

    snprintf(link, sizeof link, "/proc/self/fd/%d", file);
    len = readlink(link, name, room - 1);
    name[len < 0 ? 0 : len] = 0;
    if (file <= STDERR_FILENO)
        snprintf(name, room, "%d", file);
}

static void tell(const char *call, const char *name, long long number) {
    const char *path = getenv("CALLS");
    char line[5000];
    int told, len, error = errno;
    int (*real_open)(const char *, int, ...) = dlsym(RTLD_NEXT, "open");
    ssize_t (*real_write)(int, const void *, size_t) = dlsym(RTLD_NEXT, "write");

    if (path && *name) {
        told = real_open(path, O_WRONLY | O_APPEND);
        len = snprintf(line, sizeof line, "%s %s %lld\n", call, name, number);
        if (told < 0 || real_write(told, line, (size_t)len) != len)
            _exit(99);
        close(told);
    }
    errno = error;
}

static void tell_of(const char *call, int file, long long number) {
    char name[4096];

    if (getenv("CALLS")) {
        name_of(file, name, sizeof name);
        tell(call, name, number);
    }
}

static int opened(const char *symbol, const char *path, int flags, mode_t mode) {
    int (*real_open)(const char *, int, ...) = dlsym(RTLD_NEXT, symbol);
    const char *exchanged = getenv("EXCHANGED");
    int file, writes = (flags & O_ACCMODE) != O_RDONLY;

    if (writes && exchanged && !strcmp(path, exchanged) && rename(getenv("EXCHANGED_BY"), path) != 0)
        _exit(99);
    file = real_open(path, flags, mode);
    if (file >= 0)
        tell_of("open", file, writes + 2 * !!(flags & O_TRUNC));
    return file;
}

int open(const char *path, int flags, ...) {
    va_list more;
    mode_t mode;

    va_start(more, flags);
    mode = flags & O_CREAT ? (mode_t)va_arg(more, int) : 0;
    va_end(more);
    return opened("open", path, flags, mode);
}

int open64(const char *path, int flags, ...) {
    va_list more;
    mode_t mode;

    va_start(more, flags);
    mode = flags & O_CREAT ? (mode_t)va_arg(more, int) : 0;
    va_end(more);
    return opened("open64", path, flags, mode);
}

int flock(int file, int how) {
    int (*real_flock)(int, int) = dlsym(RTLD_NEXT, "flock");

    tell_of("lock", file, how);
    return real_flock(file, how);
}

int ftruncate(int file, off_t length) {
    int (*real_ftruncate)(int, off_t) = dlsym(RTLD_NEXT, "ftruncate");

    tell_of("empty", file, length);
    return real_ftruncate(file, length);
}

int ftruncate64(int file, off_t length) {
    return ftruncate(file, length);
}

int fsync(int file) {
    int (*real_fsync)(int) = dlsym(RTLD_NEXT, "fsync");

    tell_of("force", file, 0);
    return real_fsync(file);
}

int fdatasync(int file) {
    int (*real_fdatasync)(int) = dlsym(RTLD_NEXT, "fdatasync");

    tell_of("force_data", file, 0);
    return real_fdatasync(file);
}

int rename(const char *from, const char *to) {
    int (*real_rename)(const char *, const char *) = dlsym(RTLD_NEXT, "rename");

    tell("rename", to, 0);
    return real_rename(from, to);
}

static int is_failing(int file) {
    const char *failing = getenv("FAILING");
    char name[4096];

    if (!failing)
        return 0;
    name_of(file, name, sizeof name);
    return !strcmp(name, failing);
}

ssize_t write(int file, const void *bytes, size_t count) {
    ssize_t (*real_write)(int, const void *, size_t) = dlsym(RTLD_NEXT, "write");
    int fails = is_failing(file);
    long long left = fails ? atoll(getenv("FAILS_AFTER")) - taken : (long long)count;
    ssize_t written;

    if (left <= 0 && count > 0) {
        errno = ENOSPC;
        return -1;
    }
    written = real_write(file, bytes, left < (long long)count ? (size_t)left : count);
    if (written > 0 && fails)
        taken += written;
    tell_of("write", file, written);
    return written;
}
