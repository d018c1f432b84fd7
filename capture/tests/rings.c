/* The two rings of an interface, on a kernel that puts numbered frames into them. */
#define _GNU_SOURCE
#include "rings.h"
#include "script.h"

#include <linux/filter.h>
#include <linux/if_packet.h>
#include <sys/socket.h>

enum { MOST_FRAMES = 1 << 20, SLOT_LEN = 1 << 10, SLOTS = 100, CHOOSE_NONE = 9 };

/* A ring of the kernel, with the numbers of its frames: those that were given and those that wait. */
static struct played {
    unsigned numbers[MOST_FRAMES];
    unsigned given, put, dropped;
    bool is_shut;
} played[RINGS];
static struct rings rings;
/* Which place of the group gets frames, and whether the kernel has their places exchanged. */
static unsigned chosen = CHOOSE_NONE, exchanged;
static unsigned number;

/* A ring stands for its handle, and its place for its socket. */
static struct played *played_of(const pcap_t *pcap) {
    return (struct played *)pcap;
}

int pcap_fileno(pcap_t *pcap) {
    return (int)(played_of(pcap) - played);
}

int pcap_bufsize(pcap_t *pcap) {
    (void)pcap;
    return SLOT_LEN;
}

int pcap_stats(pcap_t *pcap, struct pcap_stat *found) {
    const struct played *ring = played_of(pcap);
    *found = (struct pcap_stat){.ps_recv = ring->put + ring->dropped, .ps_drop = ring->dropped};
    return 0;
}

int pcap_dispatch(pcap_t *pcap, int most, pcap_handler take, unsigned char *user) {
    struct played *ring = played_of(pcap);
    int count = 0;
    for (; count < most && ring->given < ring->put; count++) {
        struct pcap_pkthdr head = {.len = ring->numbers[ring->given++]};
        take(user, &head, NULL);
    }
    return count;
}

int setsockopt(int socket, int level, int name, const void *value, socklen_t len) {
    (void)len;
    const struct sock_fprog *program = value;
    if (level == SOL_PACKET && name == PACKET_FANOUT_DATA)
        chosen = program->filter->k;
    else if (level == SOL_SOCKET && name == SO_ATTACH_FILTER)
        played[socket].is_shut = program->filter->k == 0;
    return 0;
}

int getsockopt(int socket, int level, int name, void *value, socklen_t *len) {
    (void)socket;
    (void)level;
    (void)name;
    memset(value, 0, *len);
    return 0;
}

/* Frames come, one after the other. */
static void put_frames(int64_t count) {
    struct played *ring = &played[(chosen ^ exchanged) % RINGS];
    for (; count > 0; count--, number++) {
        if (!ring->is_shut)
            ring->numbers[ring->put++] = number;
    }
}

static void print_number(unsigned char *user, const struct pcap_pkthdr *head, const unsigned char *bytes) {
    (void)user;
    (void)bytes;
    printf("%u ", head->len);
}

static void begin(void) {
    for (int kind = 0; kind < RINGS; kind++)
        rings.each[kind] =
            (struct ring){.pcap = (pcap_t *)&played[kind], .kind = (enum ring_kind)kind, .len = SLOTS * SLOT_LEN};
    rings.since = steady;
    printf("%d", group_rings(&rings));
}

static void answer(const char *call) {
    if (is(call, "begin")) {
        begin();
    } else if (is(call, "come")) {
        put_frames(next_number());
    } else if (is(call, "turn")) {
        take_frames_in_use(&rings, print_number, NULL);
        follow_rate(&rings, print_number, NULL);
    } else if (is(call, "relieve")) {
        relieve_quiet_ring(&rings);
    } else if (is(call, "drop")) {
        played[next_number()].dropped++;
    } else if (is(call, "down")) {
        exchanged ^= 1;
    } else if (is(call, "exchange")) {
        exchange_rings(&rings, print_number, NULL);
    } else if (is(call, "end")) {
        take_all_rest(&rings, print_number, NULL);
    } else if (is(call, "way")) {
        printf("%" PRId64, steady - none_before(&rings, steady));
    } else if (is(call, "shut")) {
        printf("%d %d", played[QUIET_RING].is_shut, played[BURST_RING].is_shut);
    } else if (is(call, "where")) {
        printf("%d %d", rings.in_use, (int)((chosen ^ exchanged) % RINGS));
    }
}
