/* Sets the wall clock for one process alone, for the trials: it is preloaded (LD_PRELOAD), and the real clock stays.
 *
 * SET_CLOCK names a file of `struct settings`, which the trial writes while the process runs: the wall clock is the
 * real one and what it is ahead by, and so is the stamp of each frame that libpcap hands on, by the moment at which it
 * was stamped. CLOCK_MONOTONIC is the real one. With ADAPTER_AHEAD=SECONDS libpcap offers the clock of an adapter
 * alone, which nobody sets by the host's and which is ahead of it by so much. */
#define _GNU_SOURCE
#include <dlfcn.h>
#include <fcntl.h>
#include <pcap/pcap.h>
#include <stdatomic.h>
#include <stdint.h>
#include <stdlib.h>
#include <sys/mman.h>
#include <sys/time.h>
#include <time.h>
#include <unistd.h>

enum { MOST_SETTINGS = 64, A_MILLION = 1000000, NANOSECONDS_A_MICROSECOND = 1000 };

static const int64_t A_SECOND = 1000000000;

/* From a real moment on the clock is ahead by so much, both in nanoseconds. */
struct setting {
    int64_t from, ahead;
};

/* The settings, and from which real moment on it gains so many millionths. */
struct settings {
    _Atomic int64_t count, gains_from, gains;
    struct setting all[MOST_SETTINGS];
};

static struct settings *settings;
static int64_t adapter_ahead;
static int has_adapter;

__attribute__((constructor)) static void prepare(void) {
    const char *path = getenv("SET_CLOCK"), *ahead = getenv("ADAPTER_AHEAD");
    int fd = path == NULL ? -1 : open(path, O_RDONLY | O_CLOEXEC);
    if (fd >= 0) {
        void *mapped = mmap(NULL, sizeof *settings, PROT_READ, MAP_SHARED, fd, 0);
        settings = mapped == MAP_FAILED ? NULL : mapped;
        close(fd);
    }
    has_adapter = ahead != NULL;
    adapter_ahead = has_adapter ? atoll(ahead) * A_SECOND : 0;
}

/* How far the set clock is ahead of the real one at a real moment. */
static int64_t ahead_at(int64_t real) {
    int64_t ahead = 0;
    if (settings == NULL)
        return 0;
    int64_t count = atomic_load(&settings->count), from = atomic_load(&settings->gains_from);
    for (int64_t i = 0; i < count && i < MOST_SETTINGS; i++)
        if (settings->all[i].from <= real)
            ahead = settings->all[i].ahead;
    if (from != 0 && real > from)
        ahead += (real - from) * atomic_load(&settings->gains) / A_MILLION;
    return ahead;
}

/* ---- the clock */

static int64_t set_now(void) {
    static int (*real)(clockid_t, struct timespec *);
    struct timespec now;
    if (real == NULL)
        real = (int (*)(clockid_t, struct timespec *))dlsym(RTLD_NEXT, "clock_gettime");
    real(CLOCK_REALTIME, &now);
    int64_t at = now.tv_sec * A_SECOND + now.tv_nsec;
    return at + ahead_at(at);
}

int clock_gettime(clockid_t clock, struct timespec *now) {
    static int (*real)(clockid_t, struct timespec *);
    if (real == NULL)
        real = (int (*)(clockid_t, struct timespec *))dlsym(RTLD_NEXT, "clock_gettime");
    if (clock != CLOCK_REALTIME && clock != CLOCK_REALTIME_COARSE)
        return real(clock, now);
    int64_t at = set_now();
    *now = (struct timespec){at / A_SECOND, at % A_SECOND};
    return 0;
}

int gettimeofday(struct timeval *restrict now, void *restrict zone) {
    (void)zone;
    int64_t at = set_now();
    *now = (struct timeval){at / A_SECOND, at % A_SECOND / NANOSECONDS_A_MICROSECOND};
    return 0;
}

time_t time(time_t *now) {
    time_t at = set_now() / A_SECOND;
    if (now != NULL)
        *now = at;
    return at;
}

/* ---- the frames */

/* Whom frames are handed on to, and the nanoseconds of their unit of time. */
struct handing {
    pcap_handler to;
    u_char *user;
    int64_t unit;
};

static int64_t unit_of(pcap_t *pcap) {
    int (*precision)(pcap_t *) = (int (*)(pcap_t *))dlsym(RTLD_NEXT, "pcap_get_tstamp_precision");
    return precision(pcap) == PCAP_TSTAMP_PRECISION_NANO ? 1 : NANOSECONDS_A_MICROSECOND;
}

static struct pcap_pkthdr moved(const struct pcap_pkthdr *head, int64_t unit) {
    struct pcap_pkthdr set = *head;
    int64_t at = head->ts.tv_sec * A_SECOND + head->ts.tv_usec * unit;
    at += has_adapter ? adapter_ahead : ahead_at(at);
    set.ts = (struct timeval){at / A_SECOND, at % A_SECOND / unit};
    return set;
}

static void hand_on(u_char *it, const struct pcap_pkthdr *head, const u_char *bytes) {
    const struct handing *handing = (const struct handing *)it;
    struct pcap_pkthdr set = moved(head, handing->unit);
    handing->to(handing->user, &set, bytes);
}

int pcap_dispatch(pcap_t *pcap, int count, pcap_handler to, u_char *user) {
    int (*real)(pcap_t *, int, pcap_handler, u_char *) =
        (int (*)(pcap_t *, int, pcap_handler, u_char *))dlsym(RTLD_NEXT, "pcap_dispatch");
    struct handing handing = {to, user, unit_of(pcap)};
    return real(pcap, count, hand_on, (u_char *)&handing);
}

int pcap_loop(pcap_t *pcap, int count, pcap_handler to, u_char *user) {
    int (*real)(pcap_t *, int, pcap_handler, u_char *) =
        (int (*)(pcap_t *, int, pcap_handler, u_char *))dlsym(RTLD_NEXT, "pcap_loop");
    struct handing handing = {to, user, unit_of(pcap)};
    return real(pcap, count, hand_on, (u_char *)&handing);
}

int pcap_next_ex(pcap_t *pcap, struct pcap_pkthdr **head, const u_char **bytes) {
    static _Thread_local struct pcap_pkthdr set;
    int (*real)(pcap_t *, struct pcap_pkthdr **, const u_char **) =
        (int (*)(pcap_t *, struct pcap_pkthdr **, const u_char **))dlsym(RTLD_NEXT, "pcap_next_ex");
    int status = real(pcap, head, bytes);
    if (status == 1) {
        set = moved(*head, unit_of(pcap));
        *head = &set;
    }
    return status;
}

/* ---- the adapter */

int pcap_list_tstamp_types(pcap_t *pcap, int **types) {
    int (*real)(pcap_t *, int **) = (int (*)(pcap_t *, int **))dlsym(RTLD_NEXT, "pcap_list_tstamp_types");
    if (!has_adapter)
        return real(pcap, types);
    *types = malloc(sizeof **types);
    if (*types == NULL)
        return 0;
    **types = PCAP_TSTAMP_ADAPTER_UNSYNCED;
    return 1;
}

int pcap_set_tstamp_type(pcap_t *pcap, int type) {
    int (*real)(pcap_t *, int) = (int (*)(pcap_t *, int))dlsym(RTLD_NEXT, "pcap_set_tstamp_type");
    if (!has_adapter)
        return real(pcap, type);
    return type == PCAP_TSTAMP_ADAPTER_UNSYNCED ? 0 : PCAP_WARNING_TSTAMP_TYPE_NOTSUP;
}
