#define _GNU_SOURCE
#include "interface.h"
#include "adapter.h"
#include "log.h"
#include "signals.h"

#include <errno.h>
#include <inttypes.h>
#include <net/if.h>
#include <poll.h>
#include <string.h>

enum {
    /* How long a wait may take before a switch of the feed is seen, and before one is tried again. */
    MOST_PAUSE_MS = 125,
    SWITCH_PAUSE_MS = 2,
};

/* Why an interface brings no frames, as it is noted. */
static const char DOWN[] = "down", UNPLUGGED[] = "no carrier", GONE[] = "gone", UNREAD[] = "unread",
                  FAILED[] = "failed";

/* Whether it is up and has a carrier, by whichever name it has by now. */
static bool is_up(const struct interface *interface) {
    char name[IF_NAMESIZE];
    return if_indextoname(interface->number, name) != NULL && is_interface_up(name) && has_carrier(name);
}

/* ---- frames */

/* Whether a frame that is taken now may have come so long ago that it doesn't show how far its clock is ahead. */
static bool may_have_waited(const struct interface *interface) {
    return steady_now() - interface->clock.none_before > NANOSECONDS_PER_SECOND;
}

/* It was down, or had no carrier. */
static void find_up(struct interface *interface) {
    interface->is_down = false;
    log_line("%s: it is up again", interface->name);
    note_link(&interface->counts, NULL);
}

static void take_frame(unsigned char *user, const struct pcap_pkthdr *head, const unsigned char *bytes) {
    struct interface *interface = (struct interface *)user;
    const struct captured captured = {bytes, head->caplen, head->caplen >= head->len, interface->has_check_sequences,
                                      0};
    nanoseconds moment = (nanoseconds)head->ts.tv_sec * NANOSECONDS_PER_SECOND +
                         (nanoseconds)head->ts.tv_usec * interface->nanoseconds_per_unit;
    /* Frames of before may come once it is down. */
    if (interface->is_down && is_up(interface))
        find_up(interface);
    if (interface->is_scale_unknown && !may_have_waited(interface)) {
        const struct scale scale = log_adapter_clock(interface->name, moment);
        interface->is_scale_unknown = false;
        show_scale(interface->name, &scale);
    }
    if (interface->arguments->uses_adapter_clock)
        interface->clock.last = moment;
    else
        moment = steady_moment(&interface->clock, moment);
    put_frame(&interface->feed, counter_at(moment, &interface->arguments->origin), &captured);
}

static void count_lost_frame(unsigned char *user, const struct pcap_pkthdr *head, const unsigned char *bytes) {
    (void)head;
    (void)bytes;
    ((struct interface *)user)->counts.dropped++;
}

/* ---- interfaces that go and come */

static void lose_interface(struct interface *interface) {
    interface->is_down = false;
    take_all_rest(&interface->rings, take_frame, interface);
    count_drops(&interface->counts);
    close_rings(&interface->rings);
    interface->is_gone = true;
    log_line("%s: the interface is gone, and is taken again once it is back", interface->name);
    note_link(&interface->counts, GONE);
}

/* Sees whether an interface that failed or has no frames is down, without a carrier, gone, or up again. One that was
 * renamed while it was down fails whenever it has no frames, since libpcap goes by its name; there is nothing to do
 * then. */
static void look_at_interface(struct interface *interface) {
    char name[IF_NAMESIZE];
    if (if_indextoname(interface->number, name) == NULL) {
        lose_interface(interface);
        return;
    }
    const char *away = !is_interface_up(name) ? DOWN : !has_carrier(name) ? UNPLUGGED : NULL;
    if (away == NULL && interface->is_down)
        find_up(interface);
    if (away == NULL || !note_link(&interface->counts, away))
        return;
    interface->is_down = true;
    log_line("%s: it %s, and is recorded on once it %s", interface->name, away == DOWN ? "is down" : "has no carrier",
             away == DOWN ? "is up" : "has one");
}

/* What is done while no frames are taken: the pipe is full, or has no reader. */
static void while_waiting(void *listener) {
    struct interface *interface = listener;
    if (!interface->is_gone)
        relieve_quiet_ring(&interface->rings);
    report_in_time(&interface->counts);
}

/* ---- other feeds */

/* Keeps that a switch was done, or can't be, by this error. */
static void note_switch(struct interface *interface, int asked, enum switching switching, int error) {
    if (switching == SWITCH_FAILED)
        log_line("%s: %s: %s, and it goes on as before", interface->name, interface->route->to, strerror(error));
    if (switching != SWITCH_LATER)
        interface->feed.switched = asked;
}

/* Goes over to another feed where that was asked for and can be done. */
static void follow_switches(struct interface *interface) {
    int asked = switches_asked();
    if (asked == interface->feed.switched)
        return;
    enum switching switching = switch_feed(&interface->feed);
    int error = errno;
    if (switching == SWITCHED)
        interface->counts.dropped += take_lost(&interface->feed);
    if (switching != SWITCH_LATER)
        note_counts(&interface->counts);
    note_switch(interface, asked, switching, error);
}

/* Counts the frames as dropped that wait for a feed that never came, and those that the kernel keeps. */
static void drop_waiting(struct interface *interface) {
    interface->counts.dropped += take_unwritten(&interface->feed);
    if (!interface->is_gone)
        take_all_rest(&interface->rings, count_lost_frame, interface);
}

/* Whether a feed has no reader, and another one may come: word of it was given, or may be. */
static bool waits_for_reader(const struct interface *interface) {
    bool may_follow = interface->arguments->hold_seconds > 0 || interface->feed.switched != switches_asked();
    return is_held(interface->feed.switched) || (!is_open(&interface->feed.output) && may_follow);
}

/* Waits, where the reader of the feed has left or failed, for the next feed. Whether it goes on. Meanwhile the kernel
 * keeps the frames. */
static bool wait_for_next_feed(struct interface *interface) {
    const struct output *output = &interface->feed.output;
    if (output->state != OUTPUT_LEFT && !is_held(interface->feed.switched))
        return false;
    int64_t until = steady_now() + interface->arguments->hold_seconds * (int64_t)NANOSECONDS_PER_SECOND;
    while (!is_stopping() && waits_for_reader(interface)) {
        struct pollfd stop = {.fd = stop_fd};
        poll(&stop, 1, SWITCH_PAUSE_MS);
        while_waiting(interface);
        follow_switches(interface);
        if (!is_open(output) && !is_held(interface->feed.switched) && steady_now() > until)
            note_link(&interface->counts, UNREAD);
    }
    if (is_open(output) && !is_held(interface->feed.switched)) {
        note_link(&interface->counts, interface->is_gone ? GONE : NULL);
        return true;
    }
    if (is_held(interface->feed.switched))
        drop_waiting(interface);
    return false;
}

/* ---- turns */

/* How long to wait for frames, in milliseconds: until the next report or time mark at most. */
static int pause_of(const struct interface *interface, int64_t now) {
    int64_t left = MOST_PAUSE_MS * (int64_t)NANOSECONDS_PER_MS;
    if (interface->feed.switched != switches_asked())
        return SWITCH_PAUSE_MS;
    if (are_reported(&interface->counts) && interface->counts.next_report - now < left)
        left = interface->counts.next_report - now;
    if (interface->marks.between > 0 && interface->marks.next - now < left)
        left = interface->marks.next - now;
    return left > 0 ? (int)((left + NANOSECONDS_PER_MS - 1) / NANOSECONDS_PER_MS) : 0;
}

/* Whether it is time to look whether an interface is up, or back. */
static bool is_look_due(struct interface *interface) {
    int64_t now = steady_now();
    if (now < interface->next_look)
        return false;
    interface->next_look = now + MOST_PAUSE_MS * (int64_t)NANOSECONDS_PER_MS;
    return true;
}

/* Writes a time mark where one is due, after both rings were looked at from a moment on and had no frame, or while the
 * interface is gone. Whether the feed is still open. */
static bool mark_time(struct interface *interface, int64_t looked) {
    bool is_adapters = interface->arguments->uses_adapter_clock;
    if (!is_mark_due(&interface->marks, looked) || is_held(interface->feed.switched) ||
        (is_adapters && interface->marks.taken == 0))
        return true;
    int64_t steady = none_before(&interface->rings, looked);
    nanoseconds moment = is_adapters ? adapter_moment(&interface->marks, steady) : moment_of(steady);
    return write_mark(&interface->feed, counter_at(moment, &interface->arguments->origin));
}

/* Waits a moment for an interface that is gone. Whether the run goes on. */
static bool wait_until_back(struct interface *interface) {
    struct pollfd stop = {.fd = stop_fd};
    int64_t now = steady_now();
    if (!flush_feed(&interface->feed) || is_stopping() || !mark_time(interface, now))
        return false;
    report_in_time(&interface->counts);
    poll(&stop, 1, pause_of(interface, now));
    if (is_look_due(interface) && is_interface_up(interface->name) && open_again(interface)) {
        interface->is_gone = false;
        log_line("%s: it is back", interface->name);
        note_link(&interface->counts, NULL);
    }
    return true;
}

/* Waits for frames or for the end of the run. Whether the feed is still open. */
static bool wait_for_frames(struct interface *interface) {
    struct rings *rings = &interface->rings;
    enum { IN_USE, OTHER, STOP, WAITS };
    struct pollfd waits[WAITS] = {
        [IN_USE] = {.fd = pcap_get_selectable_fd(ring_in_use(rings)->pcap), .events = POLLIN},
        [OTHER] = {.fd = pcap_get_selectable_fd(other_ring(rings)->pcap), .events = POLLIN},
        [STOP] = {.fd = stop_fd},
    };
    note_all_written(&interface->feed.output);
    int64_t begin = steady_now();
    int pause = pause_of(interface, begin);
    follow_last(&interface->marks, interface->clock.last, begin);
    int ready = poll(waits, WAITS, pause);
    /* After a wait to its end both rings were looked at once more. */
    bool goes_on = ready != 0 || mark_time(interface, begin + pause * (int64_t)NANOSECONDS_PER_MS);
    /* Where it took time no frame was there at its beginning. */
    if (ready == 0 || (interface->is_scale_unknown && steady_now() - begin >= NANOSECONDS_PER_MS))
        note_none_before(&interface->clock, begin - LAST_BLOCK);
    /* libpcap says nothing of an interface that is only down, and the kernel nothing of one that goes once it is. */
    if ((waits[IN_USE].revents & (POLLERR | POLLHUP)) != 0 || (ready == 0 && is_look_due(interface)))
        look_at_interface(interface);
    else if ((waits[OTHER].revents & (POLLERR | POLLHUP)) != 0)
        forget_fault(other_ring(rings));
    else if (waits[IN_USE].revents == 0 && waits[OTHER].revents != 0)
        exchange_rings(rings, take_frame, interface);
    return goes_on;
}

/* Takes what the kernel has. Whether there is more to come. */
static bool turn(struct interface *interface) {
    struct rings *rings = &interface->rings;
    follow_switches(interface);
    if (is_held(interface->feed.switched))
        return false;
    if (interface->is_gone)
        return wait_until_back(interface);
    if (is_stopping()) {
        take_all_rest(rings, take_frame, interface);
        return false;
    }
    int count = take_frames_in_use(rings, take_frame, interface);
    report_in_time(&interface->counts);
    follow_rate(rings, take_frame, interface);
    if (count == FRAMES_A_TURN)
        return flush_old(&interface->feed);
    if (count < 0)
        look_at_interface(interface);
    return flush_feed(&interface->feed) && (interface->is_gone || wait_for_frames(interface));
}

/* Says why a feed is open no more, and accounts for the frames that it has not taken: those of a reader that left were
 * its own to leave, unless another one was to follow, and others are lost. */
static void account_for_fault(struct interface *interface) {
    const struct output *output = &interface->feed.output;
    const char *path = interface->route->to, *fault = output_fault(output);
    if (output->state != OUTPUT_LEFT || interface->arguments->hold_seconds > 0) {
        log_line("%s: %s %s", interface->name, path, fault);
        drop_waiting(interface);
        if (!is_stopping())
            note_link(&interface->counts, FAILED);
        return;
    }
    uint64_t unwritten = take_unwritten(&interface->feed);
    if (unwritten > 0)
        log_line("%s: %s %s, which %" PRIu64 " frames were for", interface->name, path, fault, unwritten);
    else
        log_line("%s: %s %s", interface->name, path, fault);
}

/* Ends a feed, and reports the counts before its pipe is closed, so that they come ahead of what its reader says then.
 */
static void end_feed(struct interface *interface) {
    struct feed *feed = &interface->feed;
    flush_feed(feed);
    bool was_open = is_open(&feed->output);
    if (interface->is_gone)
        log_line("%s: the interface is gone", interface->name);
    if (!was_open)
        account_for_fault(interface);
    report_last(&interface->counts);
    close_feed(feed);
    if (was_open && !is_open(&feed->output))
        log_line("%s: %s %s", interface->name, interface->route->to, output_fault(&feed->output));
}

void run_interface(struct interface *interface) {
    struct feed *feed = &interface->feed;
    feed->output.while_waiting = while_waiting;
    feed->output.listener = interface;
    begin_counts(&interface->counts);
    if (open_feed(feed, interface->route->to))
        do
            while (turn(interface))
                ;
        while (wait_for_next_feed(interface));
    end_feed(interface);
    close_rings(&interface->rings);
}

void pass_later_feeds(struct interface *interface, const atomic_int *running) {
    /* A run that is to end passes feeds too: the reader of one that was asked for before waits for all of its feeds,
     * and so would an interface that has gone over already. */
    while (atomic_load(running) > 0 && !is_hurried()) {
        int asked = switches_asked();
        if (asked != interface->feed.switched) {
            enum switching switching = pass_next(&interface->feed.output);
            note_switch(interface, asked, switching, errno);
        }
        struct pollfd stop = {.fd = is_stopping() ? hurry_fd : stop_fd};
        poll(&stop, 1, is_stopping() || asked != interface->feed.switched ? SWITCH_PAUSE_MS : MOST_PAUSE_MS);
    }
}

bool is_well(const struct interface *interface) {
    enum output_state state = interface->feed.output.state;
    return !interface->is_gone && (state == OUTPUT_OPEN || state == OUTPUT_LEFT);
}
