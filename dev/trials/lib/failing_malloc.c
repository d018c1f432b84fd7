/* Preloaded before a program: refuses growths of memory and starts of threads, and counts both. A growth
   is a call of malloc, calloc or realloc once the program itself runs.

   REFUSED_GROWTH  the number of the growth that is refused, counted from 1 (0: none)
   REFUSED_FROM    a file: from the moment on at which its first bytes were read until a file is forced to
                   its disk, which is how a recording ends, each growth is refused
   SPARED_INPUT    if set, REFUSED_FROM refuses none of the thread that has read standard input
   REFUSED_THREAD  the number of the thread that isn't started, counted from 1 (0: none)
   GROWTHS         a file that keeps the counts below, of the machine's order: a program with threads ends
                   without running destructors */
#define _GNU_SOURCE
#include <dlfcn.h>
#include <errno.h>
#include <fcntl.h>
#include <pthread.h>
#include <stddef.h>
#include <stdint.h>
#include <stdlib.h>
#include <sys/mman.h>
#include <sys/stat.h>
#include <unistd.h>

struct counts {
    int64_t growths;   /* all of them */
    int64_t recording; /* of these, those before a file was first forced to its disk */
    int64_t late;      /* of these, those since the first bytes of REFUSED_FROM were read */
    int64_t refused;   /* of these, those that were refused */
    int64_t largest;   /* how many bytes the greatest growth asked for */
    int64_t started;   /* threads that were started */
    int64_t running;   /* of these, those that haven't ended */
    int64_t left;      /* of these, those that hadn't a tenth of a second after an error was printed */
};

enum moment { BEFORE, WITHIN, AFTER };

static void *(*real_malloc)(size_t);
static void *(*real_calloc)(size_t, size_t);
static void *(*real_realloc)(void *, size_t);
static ssize_t (*real_read)(int, void *, size_t);
static ssize_t (*real_write)(int, const void *, size_t);
static int (*real_fsync)(int);
static int (*real_create)(pthread_t *, const pthread_attr_t *, void *(*)(void *), void *);
static struct counts uncounted, *counts = &uncounted;
static int64_t refused_growth, refused_thread, threads;
static int counting, spares_input, moment = BEFORE;
static struct stat from;
static __thread int reads_input __attribute__((tls_model("initial-exec")));

static int64_t add(int64_t *count, int64_t more) {
    return __atomic_add_fetch(count, more, __ATOMIC_SEQ_CST);
}

static void count_into(const char *name) {
    int file = open(name, O_RDWR | O_CREAT | O_TRUNC, 0644);
    void *counter;

    if (file < 0 || ftruncate(file, sizeof *counts) != 0)
        _exit(99);
    counter = mmap(NULL, sizeof *counts, PROT_READ | PROT_WRITE, MAP_SHARED, file, 0);
    if (counter == MAP_FAILED)
        _exit(99);
    counts = counter;
    close(file);
}

static int64_t number_in(const char *name) {
    const char *number = getenv(name);
    return number ? atol(number) : 0;
}

__attribute__((constructor)) static void begin(void) {
    const char *file = getenv("REFUSED_FROM"), *name = getenv("GROWTHS");
    real_malloc = dlsym(RTLD_NEXT, "malloc");
    real_calloc = dlsym(RTLD_NEXT, "calloc");
    real_realloc = dlsym(RTLD_NEXT, "realloc");
    real_read = dlsym(RTLD_NEXT, "read");
    real_write = dlsym(RTLD_NEXT, "write");
    real_fsync = dlsym(RTLD_NEXT, "fsync");
    real_create = dlsym(RTLD_NEXT, "pthread_create");
    refused_growth = number_in("REFUSED_GROWTH");
    refused_thread = number_in("REFUSED_THREAD");
    spares_input = getenv("SPARED_INPUT") != NULL;
    if (!file || stat(file, &from) != 0)
        moment = AFTER;
    if (name)
        count_into(name);
    counting = 1;
}

static void keep_largest(size_t size) {
    int64_t known = __atomic_load_n(&counts->largest, __ATOMIC_SEQ_CST);

    while ((size_t)known < size &&
           !__atomic_compare_exchange_n(&counts->largest, &known, (int64_t)size, 0, __ATOMIC_SEQ_CST, __ATOMIC_SEQ_CST))
        ;
}

static int is_refused(size_t size) {
    int64_t number;
    int is_late;

    if (!counting)
        return 0;
    keep_largest(size);
    number = add(&counts->growths, 1);
    is_late = __atomic_load_n(&moment, __ATOMIC_SEQ_CST) == WITHIN;
    if (is_late)
        add(&counts->late, 1);
    if (number != refused_growth && !(is_late && !(spares_input && reads_input)))
        return 0;
    add(&counts->refused, 1);
    errno = ENOMEM;
    return 1;
}

void *malloc(size_t size) {
    if (!real_malloc)
        real_malloc = dlsym(RTLD_NEXT, "malloc");
    return is_refused(size) ? NULL : real_malloc(size);
}

void *calloc(size_t count, size_t size) {
    static char early[4096]; /* dlsym itself may ask before calloc is found */
    if (!real_calloc)
        return counting ? NULL : (void *)early;
    return is_refused(count * size) ? NULL : real_calloc(count, size);
}

void *realloc(void *old, size_t size) {
    if (!real_realloc)
        real_realloc = dlsym(RTLD_NEXT, "realloc");
    return is_refused(size) ? NULL : real_realloc(old, size);
}

ssize_t read(int file, void *bytes, size_t most) {
    struct stat found;
    ssize_t count;

    if (!real_read)
        real_read = dlsym(RTLD_NEXT, "read");
    if (file == STDIN_FILENO)
        reads_input = 1;
    count = real_read(file, bytes, most);
    if (count > 0 && __atomic_load_n(&moment, __ATOMIC_SEQ_CST) == BEFORE && fstat(file, &found) == 0 &&
        found.st_dev == from.st_dev && found.st_ino == from.st_ino)
        __atomic_store_n(&moment, WITHIN, __ATOMIC_SEQ_CST);
    return count;
}

ssize_t write(int file, const void *bytes, size_t count) {
    ssize_t taken;

    if (!real_write)
        real_write = dlsym(RTLD_NEXT, "write");
    taken = real_write(file, bytes, count);
    if (file == STDERR_FILENO && refused_thread) {
        usleep(100000);
        counts->left = counts->running;
    }
    return taken;
}

int fsync(int file) {
    struct stat found;

    if (!real_fsync)
        real_fsync = dlsym(RTLD_NEXT, "fsync");
    /* The folder of a new OUT is forced before anything is recorded. */
    if (fstat(file, &found) == 0 && S_ISDIR(found.st_mode))
        return real_fsync(file);
    __atomic_store_n(&moment, AFTER, __ATOMIC_SEQ_CST);
    if (counts->recording == 0)
        counts->recording = counts->growths;
    return real_fsync(file);
}

/* what a thread runs, and what with */
struct work {
    void *(*run)(void *);
    void *with;
};

static void *run_counted(void *given) {
    struct work work = *(struct work *)given;
    void *result;

    free(given);
    result = work.run(work.with);
    add(&counts->running, -1);
    return result;
}

int pthread_create(pthread_t *thread, const pthread_attr_t *how, void *(*run)(void *), void *with) {
    struct work *work;
    int status;

    if (add(&threads, 1) == refused_thread)
        return EAGAIN;
    work = real_malloc(sizeof *work);
    if (!work)
        return EAGAIN;
    *work = (struct work){run, with};
    add(&counts->running, 1);
    status = real_create(thread, how, run_counted, work);
    add(status ? &counts->running : &counts->started, status ? -1 : 1);
    if (status)
        free(work);
    return status;
}
