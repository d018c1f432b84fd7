#define _GNU_SOURCE
#include "ring.h"
#include "moment.h"

#include <linux/filter.h>
#include <sys/socket.h>
#include <time.h>

enum {
    BYTES_A_MIB = 1 << 20,
    /* The quiet ring has slots of the longest frame, and a burst meets it first; of the other one a block goes each
     * 5 ms. So of a small memory each has half. */
    MOST_PART = 2,
    LEAST_PART = 4,
    USUAL_QUIET_LEN = 64 * BYTES_A_MIB,
    /* How old a block gets. One has 256 KiB, so the burst ring of 256 MiB lasts for nearly four seconds of few frames.
     */
    BLOCK_MS = 5,
};

/* How much of a memory the quiet ring has. */
static int quiet_len(int len) {
    int least = len / LEAST_PART, most = len / MOST_PART;
    if (least > USUAL_QUIET_LEN)
        return least;
    return most < USUAL_QUIET_LEN ? most : USUAL_QUIET_LEN;
}

void prepare_ring(struct ring *ring, int buffer_mib) {
    int len = buffer_mib * BYTES_A_MIB, quiet = quiet_len(len);
    ring->len = ring->kind == QUIET_RING ? quiet : len - quiet;
    if (ring->kind == QUIET_RING)
        pcap_set_immediate_mode(ring->pcap, 1);
    else
        pcap_set_timeout(ring->pcap, BLOCK_MS);
    pcap_set_buffer_size(ring->pcap, ring->len);
}

void shut_ring(const struct ring *ring) {
    struct sock_filter drop = BPF_STMT(BPF_RET | BPF_K, 0);
    struct sock_fprog program = {1, &drop};
    setsockopt(pcap_fileno(ring->pcap), SOL_SOCKET, SO_ATTACH_FILTER, &program, sizeof program);
}

/* Who takes the frames of a ring. */
struct taker {
    struct ring *ring;
    pcap_handler take;
    void *user;
};

static void count_frame(unsigned char *user, const struct pcap_pkthdr *head, const unsigned char *bytes) {
    const struct taker *taker = (const struct taker *)user;
    taker->ring->taken++;
    taker->take(taker->user, head, bytes);
}

int take_frames(struct ring *ring, pcap_handler take, void *user) {
    struct taker taker = {ring, take, user};
    return pcap_dispatch(ring->pcap, FRAMES_A_TURN, count_frame, (unsigned char *)&taker);
}

void forget_fault(const struct ring *ring) {
    int fault;
    socklen_t len = sizeof fault;
    getsockopt(pcap_fileno(ring->pcap), SOL_SOCKET, SO_ERROR, &fault, &len);
}

/* How many frames the kernel has put into it since it was opened: modulo 2^32. */
static unsigned count_given(const struct ring *ring) {
    struct pcap_stat now;
    return pcap_stats(ring->pcap, &now) == 0 ? now.ps_recv - now.ps_drop : ring->taken;
}

bool has_waiting(const struct ring *ring) {
    return count_given(ring) != ring->taken;
}

void take_rest(struct ring *ring, pcap_handler take, void *user) {
    int64_t end = steady_now() + LAST_BLOCK;
    bool has_all;
    int count;
    do {
        count = take_frames(ring, take, user);
        has_all = ring->kind == QUIET_RING || !has_waiting(ring) || steady_now() > end;
        if (count <= 0 && !has_all)
            nanosleep(&(struct timespec){0, NANOSECONDS_PER_MS}, NULL);
    } while (count > 0 || !has_all);
    /* What is missing by now libpcap has left out, by its direction or by a filter. */
    ring->taken = count_given(ring);
}

bool is_filling(const struct ring *ring) {
    unsigned slots = (unsigned)ring->len / (unsigned)pcap_bufsize(ring->pcap);
    struct pcap_stat now;
    return pcap_stats(ring->pcap, &now) == 0 &&
           (now.ps_drop != ring->seen.ps_drop || now.ps_recv - now.ps_drop - ring->taken > slots / 4 * 3);
}

struct ring_losses look_at_losses(struct ring *ring) {
    struct pcap_stat now = ring->seen;
    if (ring->pcap == NULL || pcap_stats(ring->pcap, &now) != 0)
        return (struct ring_losses){0};
    /* libpcap finds the interface's own count by its name, which may have changed: then it begins anew. */
    int missed = (int)(now.ps_ifdrop - ring->seen.ps_ifdrop);
    struct ring_losses losses = {now.ps_drop - ring->seen.ps_drop, missed > 0 ? (unsigned)missed : 0};
    ring->seen = now;
    return losses;
}

void close_ring(struct ring *ring) {
    if (ring->pcap != NULL)
        pcap_close(ring->pcap);
    *ring = (struct ring){0};
}
