/* What an interface's frames came to. What libpcap says of its two rings is the script's. */
#define _GNU_SOURCE
#include "counts.h"
#include "clock.h"
#include "events.h"
#include "script.h"

#include <fcntl.h>

static struct pcap_stat stats[RINGS];
static struct feed feed;
static struct rings rings;
static struct counts counts = {.interface = "eth0", .feed = &feed, .rings = &rings};

/* A ring stands for its handle. */
int pcap_stats(pcap_t *pcap, struct pcap_stat *found) {
    *found = *(const struct pcap_stat *)pcap;
    return 0;
}

void pcap_close(pcap_t *pcap) {
    (void)pcap;
}

static void open_both(void) {
    for (int kind = 0; kind < RINGS; kind++)
        rings.each[kind] = (struct ring){.pcap = (pcap_t *)&stats[kind], .kind = (enum ring_kind)kind};
}

static void begin(void) {
    const struct origin origin = {0, steady};
    counts.is_quiet = next_number() != 0;
    open_both();
    start_clock(&origin);
    begin_counts(&counts);
}

/* Loses a frame each so long, so often. */
static void lose(void) {
    int64_t count = next_number(), pause = next_number();
    for (; count > 0; count--) {
        stats[QUIET_RING].ps_drop++;
        steady += pause;
        wall += pause;
        report_in_time(&counts);
    }
}

static void answer(const char *call) {
    if (is(call, "name")) {
        counts.interface = strdup(next_word());
    } else if (is(call, "begin")) {
        begin();
    } else if (is(call, "events")) {
        printf("%d", open_events(next_word()));
    } else if (is(call, "ring")) {
        struct pcap_stat *of = &stats[next_number()];
        of->ps_drop = (unsigned)next_number();
        of->ps_ifdrop = (unsigned)next_number();
    } else if (is(call, "feed")) {
        feed.frames = (uint64_t)next_number();
        feed.frame_bytes = (uint64_t)next_number();
        feed.skipped = (uint64_t)next_number();
        feed.output.waited = next_number();
    } else if (is(call, "descriptor")) {
        counts.descriptor = open(next_word(), O_WRONLY | O_NONBLOCK);
    } else if (is(call, "last")) {
        report_last(&counts);
    } else if (is(call, "turn")) {
        report_in_time(&counts);
    } else if (is(call, "lose")) {
        lose();
    } else if (is(call, "note")) {
        note_counts(&counts);
    } else if (is(call, "link")) {
        static const char *const WHYS[] = {NULL, "down", "gone"};
        printf("%d", note_link(&counts, WHYS[next_number()]));
    } else if (is(call, "end")) {
        printf("%d", report_lost(&counts));
    } else if (is(call, "close")) {
        close_rings(&rings);
    } else if (is(call, "open")) {
        open_both();
    }
}
