#define _GNU_SOURCE
#include "rings.h"
#include "moment.h"

#include <linux/filter.h>
#include <linux/if_packet.h>
#include <sys/socket.h>

/* It is a burst once so many frames come within so long, and none once fewer come in a longer time. */
enum { BURST_FRAMES = 64, QUIET_FRAMES = 100, GROUP_TYPE_SHIFT = 16 };
static const int64_t BURST_TIME = 16 * (int64_t)NANOSECONDS_PER_MS, QUIET_TIME = 100 * (int64_t)NANOSECONDS_PER_MS;

/* By then the kernel has put a frame into a ring that it has stamped. In between lies a processor's queue at most,
 * which a task empties where it is long: it waits for its turn, for some milliseconds. */
static const int64_t LAST_FRAME = 20 * (int64_t)NANOSECONDS_PER_MS;

/* ---- the group */

/* Puts a ring into a group. Whether it could. */
static bool join(const struct ring *ring, int group) {
    return setsockopt(pcap_fileno(ring->pcap), SOL_PACKET, PACKET_FANOUT, &group, sizeof group) == 0;
}

/* Has the kernel put further frames into a ring. Where it does, none is on its way into the other any more. Whether it
 * does. */
static bool fill(struct rings *rings, enum ring_kind kind) {
    struct sock_filter choose = BPF_STMT(BPF_RET | BPF_K, (unsigned)kind ^ (unsigned)rings->are_exchanged);
    struct sock_fprog program = {1, &choose};
    int socket = pcap_fileno(rings->each[QUIET_RING].pcap);
    if (setsockopt(socket, SOL_PACKET, PACKET_FANOUT_DATA, &program, sizeof program) != 0)
        return false;
    rings->filled = kind;
    return true;
}

static void pass_over(unsigned char *user, const struct pcap_pkthdr *head, const unsigned char *bytes) {
    (void)user;
    (void)head;
    (void)bytes;
}

/* Passes over what a ring has had so far, and what it lost. */
static void begin_anew(struct ring *ring) {
    take_rest(ring, pass_over, NULL);
    look_at_losses(ring);
}

bool group_rings(struct rings *rings) {
    struct ring *quiet = &rings->each[QUIET_RING], *burst = &rings->each[BURST_RING];
    unsigned new_group = PACKET_FANOUT_CBPF | PACKET_FANOUT_FLAG_UNIQUEID;
    int group = 0;
    socklen_t len = sizeof group;
    rings->in_use = QUIET_RING;
    rings->are_exchanged = false;
    if (!join(quiet, (int)(new_group << GROUP_TYPE_SHIFT)) || !fill(rings, QUIET_RING) ||
        getsockopt(pcap_fileno(quiet->pcap), SOL_PACKET, PACKET_FANOUT, &group, &len) != 0 || !join(burst, group))
        return false;
    /* Until it joined the burst ring had each frame that the quiet one has, and one may still be on its way. Between
     * what the quiet one had alone and what it has from the group the kernel may have left a frame out, which is in no
     * count. */
    if (!fill(rings, QUIET_RING))
        return false;
    begin_anew(burst);
    begin_anew(quiet);
    return true;
}

/* ---- frames */

static enum ring_kind other_kind(const struct rings *rings) {
    return rings->in_use == QUIET_RING ? BURST_RING : QUIET_RING;
}

struct ring *ring_in_use(struct rings *rings) {
    return &rings->each[rings->in_use];
}

struct ring *other_ring(struct rings *rings) {
    return &rings->each[other_kind(rings)];
}

int take_frames_in_use(struct rings *rings, pcap_handler take, void *user) {
    int count = take_frames(ring_in_use(rings), take, user);
    rings->frames += count > 0 ? (unsigned)count : 0;
    return count;
}

/* Whether frames come so fast or slowly that they should go into the other ring, by those of the time that ends now. */
static bool should_change(struct rings *rings) {
    int64_t now = steady_now(), time = now - rings->since;
    bool is_burst = rings->in_use == BURST_RING;
    if (is_burst ? time < QUIET_TIME : rings->frames < BURST_FRAMES)
        return false;
    bool should = is_burst ? rings->frames < QUIET_FRAMES : time < BURST_TIME;
    rings->since = now;
    rings->frames = 0;
    return should;
}

void follow_rate(struct rings *rings, pcap_handler take, void *user) {
    if (rings->filled == rings->in_use && should_change(rings))
        fill(rings, other_kind(rings));
    if (rings->filled == rings->in_use)
        return;
    take_rest(ring_in_use(rings), take, user);
    rings->in_use = rings->filled;
}

void relieve_quiet_ring(struct rings *rings) {
    bool is_in_use = rings->filled == QUIET_RING && rings->in_use == QUIET_RING;
    if (is_in_use && is_filling(&rings->each[QUIET_RING]))
        fill(rings, BURST_RING);
}

void exchange_rings(struct rings *rings, pcap_handler take, void *user) {
    if (rings->filled != rings->in_use)
        return;
    take_rest(ring_in_use(rings), take, user);
    rings->are_exchanged = !rings->are_exchanged;
    rings->filled = rings->in_use = other_kind(rings);
}

void take_all_rest(struct rings *rings, pcap_handler take, void *user) {
    for (int at = 0; at < RINGS; at++)
        shut_ring(&rings->each[at]);
    /* Once that is done none is on its way that came before. */
    fill(rings, rings->filled);
    take_rest(ring_in_use(rings), take, user);
    take_rest(other_ring(rings), take, user);
}

int64_t none_before(const struct rings *rings, int64_t looked) {
    const struct ring *burst = &rings->each[BURST_RING];
    /* A frame in the quiet ring is seen at once. The kernel counts those that it puts into a block. */
    return looked - (burst->pcap != NULL && has_waiting(burst) ? LAST_BLOCK : LAST_FRAME);
}

void close_rings(struct rings *rings) {
    for (int at = 0; at < RINGS; at++)
        close_ring(&rings->each[at]);
}
