/* Preloaded before a program: a thread can't be started once FAILING_THREAD of them were. */
#define _GNU_SOURCE
#include <dlfcn.h>
#include <errno.h>
#include <pthread.h>
#include <stdlib.h>

int pthread_create(pthread_t *thread, const pthread_attr_t *attributes, void *(*run)(void *), void *argument) {
    static int started;
    int (*real)(pthread_t *, const pthread_attr_t *, void *(*)(void *), void *) = dlsym(RTLD_NEXT, "pthread_create");

    return started++ < atoi(getenv("FAILING_THREAD")) ? real(thread, attributes, run, argument) : EAGAIN;
}
