/* Has the kernel's clock synchronised or not for one program, for the trials: it is preloaded (LD_PRELOAD), and the
 * real clock stays.
 *
 * SET_SYNCHRONISATION names a file of `struct settings`, which the trial writes while the program runs: what
 * adjtimex(2) then answers of it. */
#define _GNU_SOURCE
#include <dlfcn.h>
#include <fcntl.h>
#include <stdatomic.h>
#include <stdint.h>
#include <stdlib.h>
#include <sys/mman.h>
#include <sys/timex.h>
#include <unistd.h>

/* Whether the clock is synchronised, by how many microseconds it is off at most and probably, how far it is slewed yet
 * in nanoseconds or microseconds, and how many seconds TAI is ahead of UTC. */
struct settings {
    _Atomic int64_t is_synchronised, maximum_error, estimated_error, offset, is_nano, tai_offset;
};

static struct settings *settings;

__attribute__((constructor)) static void prepare(void) {
    const char *path = getenv("SET_SYNCHRONISATION");
    int fd = path == NULL ? -1 : open(path, O_RDONLY | O_CLOEXEC);
    if (fd >= 0) {
        void *mapped = mmap(NULL, sizeof *settings, PROT_READ, MAP_SHARED, fd, 0);
        settings = mapped == MAP_FAILED ? NULL : mapped;
        close(fd);
    }
}

int adjtimex(struct timex *times) {
    int (*real)(struct timex *) = (int (*)(struct timex *))dlsym(RTLD_NEXT, "adjtimex");
    int state = real(times);
    if (settings == NULL || state < 0)
        return state;
    int is_synchronised = atomic_load(&settings->is_synchronised) != 0;
    times->status = is_synchronised ? times->status & ~STA_UNSYNC : times->status | STA_UNSYNC;
    times->status = atomic_load(&settings->is_nano) ? times->status | STA_NANO : times->status & ~STA_NANO;
    times->maxerror = atomic_load(&settings->maximum_error);
    times->esterror = atomic_load(&settings->estimated_error);
    times->offset = atomic_load(&settings->offset);
    times->tai = (int)atomic_load(&settings->tai_offset);
    return is_synchronised ? TIME_OK : TIME_ERROR;
}
