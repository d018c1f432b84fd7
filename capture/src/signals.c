#define _GNU_SOURCE
#include "signals.h"
#include "moment.h"

#include <errno.h>
#include <fcntl.h>
#include <poll.h>
#include <pthread.h>
#include <signal.h>
#include <stdatomic.h>
#include <sys/signalfd.h>
#include <sys/syscall.h>
#include <unistd.h>

int stop_fd = -1, hurry_fd = -1;

static int stop_writer = -1, hurry_writer = -1, signals = -1, followed = -1;
static atomic_bool stopping, hurried;
static atomic_int switches, held = -1;
enum { PAUSE_MS = 20 };
/* A signal that comes twice within this time is one: a terminal and a script may send the same. */
static const int64_t ONE_SIGNAL = NANOSECONDS_PER_SECOND;

bool is_stopping(void) {
    return atomic_load_explicit(&stopping, memory_order_relaxed);
}

bool is_hurried(void) {
    return atomic_load_explicit(&hurried, memory_order_relaxed);
}

int switches_asked(void) {
    return atomic_load_explicit(&switches, memory_order_relaxed);
}

bool is_held(int switched) {
    return atomic_load_explicit(&held, memory_order_relaxed) == switched;
}

/* Whether HUP was ignored when the program was started. */
static bool is_hang_up_ignored(void) {
    struct sigaction given;
    return sigaction(SIGHUP, NULL, &given) == 0 && given.sa_handler == SIG_IGN;
}

bool prepare_stop(void) {
    sigset_t set;
    int stop[2], hurry[2];
    sigemptyset(&set);
    sigaddset(&set, SIGINT);
    sigaddset(&set, SIGTERM);
    if (!is_hang_up_ignored())
        sigaddset(&set, SIGHUP);
    sigaddset(&set, SIGUSR1);
    sigaddset(&set, SIGUSR2);
    signal(SIGPIPE, SIG_IGN);
    /* A job in the background may have been started with one of them ignored. */
    signal(SIGINT, SIG_DFL);
    signal(SIGTERM, SIG_DFL);
    errno = pthread_sigmask(SIG_BLOCK, &set, NULL);
    if (errno != 0 || pipe2(stop, O_CLOEXEC) != 0 || pipe2(hurry, O_CLOEXEC) != 0)
        return false;
    stop_fd = stop[0];
    stop_writer = stop[1];
    hurry_fd = hurry[0];
    hurry_writer = hurry[1];
    signals = signalfd(-1, &set, SFD_CLOEXEC);
    return signals >= 0;
}

void follow_process(int process) {
    followed = (int)syscall(SYS_pidfd_open, process, 0);
    if (followed < 0 && errno == ESRCH)
        kill(getpid(), SIGTERM);
}

void stop_run(void) {
    if (!atomic_exchange(&stopping, true))
        close(stop_writer);
}

/* Does what a signal asks for; `first` is when the first came that ends the run. */
static void serve(int signal, int64_t *first) {
    if (signal == SIGUSR1) {
        atomic_fetch_add(&switches, 1);
    } else if (signal == SIGUSR2) {
        atomic_store(&held, atomic_load(&switches));
    } else if (!is_stopping()) {
        *first = steady_now();
        stop_run();
    } else if (!is_hurried() && steady_now() - *first > ONE_SIGNAL) {
        atomic_store(&hurried, true);
        close(hurry_writer);
    }
}

void serve_signals(int ended_fd, void (*now_and_then)(void)) {
    struct pollfd waits[] = {{.fd = signals, .events = POLLIN}, {.fd = ended_fd}, {.fd = followed, .events = POLLIN}};
    int64_t first = 0;
    while (waits[1].revents == 0) {
        struct signalfd_siginfo signal;
        int ready = poll(waits, sizeof waits / sizeof *waits, now_and_then != NULL ? PAUSE_MS : -1);
        if (now_and_then != NULL)
            now_and_then();
        if (ready > 0 && waits[0].revents != 0 && read(signals, &signal, sizeof signal) > 0)
            serve((int)signal.ssi_signo, &first);
        if (ready > 0 && waits[2].revents != 0) {
            waits[2].fd = -1;
            serve(SIGTERM, &first);
        }
    }
}
