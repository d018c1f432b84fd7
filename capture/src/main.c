/* Makes feeds for bpfrec of the frames of interfaces and of capture files. `capture --help` has its arguments.
 *
 * Nothing of it is proved. Each interface or file has a thread of its own, so that none waits for another's pipe. */
#define _GNU_SOURCE
#include "arguments.h"
#include "check_sequence.h"
#include "clock.h"
#include "convert.h"
#include "events.h"
#include "interface.h"
#include "log.h"
#include "privileges.h"
#include "signals.h"
#include "system_calls.h"
#include "written_folders.h"

#include <errno.h>
#include <fcntl.h>
#include <pthread.h>
#include <signal.h>
#include <stdatomic.h>
#include <stdlib.h>
#include <string.h>
#include <sys/prctl.h>
#include <sys/stat.h>
#include <time.h>
#include <unistd.h>

enum { WELL = 0, FAILED = 1, NOT_BEGUN = 3, LOST = 5 };
/* How often rings are looked at while others are opened. */
static const struct timespec RELIEF_PAUSE = {.tv_nsec = 5 * (long)NANOSECONDS_PER_MS};

/* One interface or file, and its thread. */
struct work {
    struct interface interface;
    struct conversion conversion;
    bool is_file, is_started;
    pthread_t thread;
};

static atomic_int running;
static int ended_writer = -1;

static void *run(void *argument) {
    struct work *work = argument;
    if (work->is_file)
        run_conversion(&work->conversion);
    else
        run_interface(&work->interface);
    if (atomic_fetch_sub(&running, 1) == 1)
        close(ended_writer);
    else if (!work->is_file)
        pass_later_feeds(&work->interface, &running);
    return NULL;
}

/* Whether two paths are one pipe or one file, whose records would stand within one another. */
static bool is_same(const char *path, const char *other) {
    struct stat first, second;
    if (strcmp(path, other) == 0)
        return true;
    return stat(path, &first) == 0 && stat(other, &second) == 0 && first.st_dev == second.st_dev &&
           first.st_ino == second.st_ino && !S_ISCHR(first.st_mode);
}

/* The first feed that is another one too, or the input of its route; NULL where there is none. */
static const char *shared_path(const struct arguments *arguments) {
    for (int i = 0; i < arguments->count; i++) {
        const struct route *route = &arguments->routes[i];
        if (arguments->are_files && strcmp(route->to, "-") != 0 && is_same(route->to, route->from))
            return route->to;
        for (int before = 0; before < i; before++)
            if (is_same(route->to, arguments->routes[before].to) ||
                (arguments->are_files && is_same(route->from, arguments->routes[before].to)) ||
                (arguments->are_files && is_same(route->to, arguments->routes[before].from)))
                return route->to;
    }
    return NULL;
}

/* Prepares the conversions of all files. */
static void prepare_all(struct work *works, const struct arguments *arguments) {
    for (int i = 0; i < arguments->count; i++) {
        const struct route *route = &arguments->routes[i];
        works[i].is_file = true;
        works[i].conversion = (struct conversion){.from = route->from, .to = route->to, .arguments = arguments};
    }
}

/* The interfaces of which so many are open, while others are opened: that may take seconds. */
struct opening {
    struct work *works;
    atomic_int count;
    atomic_bool is_over;
};

/* Has the rings of those that are open take turns meanwhile, since nobody takes their frames. */
static void *relieve_opened(void *argument) {
    struct opening *opening = argument;
    while (!atomic_load(&opening->is_over)) {
        for (int i = 0; i < atomic_load(&opening->count); i++)
            relieve_quiet_ring(&opening->works[i].interface.rings);
        nanosleep(&RELIEF_PAUSE, NULL);
    }
    return NULL;
}

/* Opens all interfaces, so that nothing is begun where one can't be. Whether they are open. */
static bool open_all(struct work *works, const struct arguments *arguments) {
    struct opening opening = {.works = works};
    pthread_t relief;
    bool is_relieved = pthread_create(&relief, NULL, relieve_opened, &opening) == 0, are_open = true;
    for (int i = 0; i < arguments->count && are_open; i++) {
        are_open = open_interface(&works[i].interface, &arguments->routes[i], arguments);
        if (are_open)
            atomic_store(&opening.count, i + 1);
    }
    atomic_store(&opening.is_over, true);
    if (is_relieved)
        pthread_join(relief, NULL);
    return are_open;
}

/* Reports what interfaces have lost. Whether one has. */
static bool report_all_lost(const struct work *works, const struct arguments *arguments) {
    bool has_lost = false;
    for (int i = 0; i < arguments->count && !arguments->are_files; i++)
        has_lost |= report_lost(&works[i].interface.counts);
    return has_lost;
}

/* What goes beside the threads: the clock that may be set, and counters that begin at 0 again. */
static void follow_settings(void) {
    follow_clock();
    report_settings(false);
}

/* The same where an adapter's clock stamps frames. */
static void follow_counters(void) {
    report_settings(false);
}

/* Says why nothing can be begun: NOT_BEGUN. */
static int not_begun(const char *what, int error) {
    log_line("%s: %s", what, strerror(error));
    return NOT_BEGUN;
}

/* Starts a thread for each. Whether all could be started; else a line has said why not, and the others are to end. */
static bool start_all(struct work *works, int count) {
    int error = 0, started = 0;
    atomic_store(&running, count);
    while (started < count && (error = pthread_create(&works[started].thread, NULL, run, &works[started])) == 0)
        works[started++].is_started = true;
    if (started == count)
        return true;
    log_line("no thread: %s", strerror(error));
    if (atomic_fetch_sub(&running, count - started) == count - started)
        close(ended_writer);
    return false;
}

/* Runs all to their ends; `beside` is called now and then, where it isn't NULL. The status. */
static int run_all(struct work *works, int count, void (*beside)(void)) {
    int ended[2];
    if (pipe2(ended, O_CLOEXEC) != 0)
        return not_begun("no pipe", errno);
    ended_writer = ended[1];
    bool is_all_well = start_all(works, count);
    if (!is_all_well)
        stop_run();
    serve_signals(ended[0], beside);
    for (int i = 0; i < count && works[i].is_started; i++) {
        pthread_join(works[i].thread, NULL);
        is_all_well &= works[i].is_file ? works[i].conversion.is_well : is_well(&works[i].interface);
    }
    return is_all_well ? WELL : FAILED;
}

/* Puts something in the place of a standard stream that is closed, where a file of ours would stand else: reads of it
 * and writes to it fail. */
static bool fill_streams(void) {
    for (int fd = STDIN_FILENO; fd <= STDERR_FILENO; fd++)
        if (fcntl(fd, F_GETFD) < 0 && open("/dev/null", fd == STDIN_FILENO ? O_WRONLY : O_RDONLY) != fd)
            return false;
    return true;
}

/* Has the kernel end the run once the process has died that started it, also where that was before this program ran, or
 * another one lies between. */
static void follow_parent(pid_t parent) {
    if (parent == 0)
        return;
    prctl(PR_SET_PDEATHSIG, SIGTERM);
    follow_process(parent);
}

/* Begins what interfaces need beside their frames: facts, counters, no privileges. Whether it could. */
static bool begin_live(struct work *works, const struct arguments *arguments) {
    for (int i = 0; i < arguments->count; i++)
        log_opened(&works[i].interface);
    if (!drop_privileges(arguments) || (arguments->events != NULL && !open_events(arguments->events)))
        return false;
    follow_parent(arguments->parent);
    limit_writing(arguments);
    forbid_other_calls();
    report_origin();
    return true;
}

/* Records interfaces. The status. */
static int run_live(struct work *works, const struct arguments *arguments) {
    if (!begin_live(works, arguments))
        return NOT_BEGUN;
    int status = run_all(works, arguments->count, arguments->uses_adapter_clock ? follow_counters : follow_settings);
    report_settings(true);
    bool has_lost = report_all_lost(works, arguments);
    return status == WELL && has_lost && arguments->is_strict ? LOST : status;
}

/* Converts files, whose bytes may be anybody's. The status. */
static int run_files(struct work *works, struct arguments *arguments) {
    if (!drop_privileges_but_files() || (arguments->events != NULL && !open_events(arguments->events)))
        return NOT_BEGUN;
    follow_parent(arguments->parent);
    limit_writing(arguments);
    forbid_other_calls();
    if (!find_origin(arguments))
        return NOT_BEGUN;
    note_file_origin(arguments);
    return run_all(works, arguments->count, NULL);
}

/* Does what the arguments say. The status. */
static int run_arguments(struct work *works, struct arguments *arguments) {
    if (!prepare_stop())
        return not_begun("no signals", errno);
    start_clock(&arguments->origin);
    if (arguments->are_files) {
        prepare_all(works, arguments);
        return run_files(works, arguments);
    }
    return open_all(works, arguments) ? run_live(works, arguments) : NOT_BEGUN;
}

int main(int argc, char **argv) {
    struct arguments arguments;
    if (!fill_streams())
        return not_begun("/dev/null", errno);
    open_log();
    bool is_done;
    int status = read_arguments(argc, argv, &arguments, &is_done);
    if (status != 0 || is_done)
        return status;
    const char *shared = shared_path(&arguments);
    if (shared != NULL) {
        log_line("%s: it is used twice", shared);
        return NOT_BEGUN;
    }
    struct work *works = calloc((size_t)arguments.count, sizeof *works);
    status = works != NULL ? run_arguments(works, &arguments) : not_begun("no room", ENOMEM);
    free(works);
    free(arguments.routes);
    free(arguments.given);
    return status;
}
