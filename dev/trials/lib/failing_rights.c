/* Preloaded before a program: calls that give up rights are refused.

   FAILING_RIGHTS   which: capset, landlock, which the kernel doesn't have then, or a number of prctl
   SPARED           how many of them are made first */
#define _GNU_SOURCE
#include <dlfcn.h>
#include <errno.h>
#include <stdarg.h>
#include <stdlib.h>
#include <string.h>
#include <sys/prctl.h>
#include <sys/syscall.h>

enum { ARGUMENTS = 6, LANDLOCK = 444 };

static int is_refused(int is_named) {
    static int made;

    return is_named && made++ >= atoi(getenv("SPARED"));
}

static int refused(void) {
    errno = EPERM;
    return -1;
}

long syscall(long number, ...) {
    long (*real)(long, ...) = dlsym(RTLD_NEXT, "syscall"), given[ARGUMENTS];
    va_list more;

    va_start(more, number);
    for (int i = 0; i < ARGUMENTS; i++)
        given[i] = va_arg(more, long);
    va_end(more);
    if (is_refused(number >= LANDLOCK && number < LANDLOCK + 3 && !strcmp(getenv("FAILING_RIGHTS"), "landlock"))) {
        errno = ENOSYS;
        return -1;
    }
    if (is_refused(number == SYS_capset && !strcmp(getenv("FAILING_RIGHTS"), "capset")))
        return refused();
    return real(number, given[0], given[1], given[2], given[3], given[4], given[5]);
}

int prctl(int option, ...) {
    int (*real)(int, ...) = dlsym(RTLD_NEXT, "prctl");
    unsigned long given[ARGUMENTS - 2];
    va_list more;

    va_start(more, option);
    for (int i = 0; i < ARGUMENTS - 2; i++)
        given[i] = va_arg(more, unsigned long);
    va_end(more);
    if (is_refused(option == atoi(getenv("FAILING_RIGHTS"))))
        return refused();
    return real(option, given[0], given[1], given[2], given[3]);
}
