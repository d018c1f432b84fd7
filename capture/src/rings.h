/* The two rings of an interface, and which of them its frames go into.
 *
 * While few frames come they go into the quiet ring, and are here at once. While many come they go into the burst ring,
 * which takes less time for a frame, and wakes for none. The two are one group of packet sockets (PACKET_FANOUT): the
 * kernel puts each frame into one of them. All of the one is taken before the other's first, so frames stay in order.
 */
#ifndef RINGS_H
#define RINGS_H

#include "ring.h"

#include <stdbool.h>
#include <stdint.h>

struct rings {
    struct ring each[RINGS];
    enum ring_kind in_use; /* the ring that frames are taken of */
    enum ring_kind filled; /* the ring that frames go into, which is taken of once the other is empty */
    bool are_exchanged;    /* the kernel has their places exchanged */
    int64_t since;         /* from when on frames are counted */
    unsigned frames;       /* that came since then */
};

/* Makes a group of two rings that are active, of which the quiet one gets all frames. Those that came before are passed
 * over. Whether it could; else `errno` says why not. */
bool group_rings(struct rings *rings);

struct ring *ring_in_use(struct rings *rings);

struct ring *other_ring(struct rings *rings);

/* Takes frames of the ring in use, as `take_frames` does. */
int take_frames_in_use(struct rings *rings, pcap_handler take, void *user);

/* Has frames go into the other ring where they come that fast or slowly by now, and takes the rest of the ring before.
 */
void follow_rate(struct rings *rings, pcap_handler take, void *user);

/* Has frames go into the burst ring where the quiet one fills, while none can be taken. */
void relieve_quiet_ring(struct rings *rings);

/* Goes over to the other ring, which has frames though they were to go into the one in use, once that one's rest is
 * taken. That is so after the interface was down: the kernel may exchange the places of both as it comes up. */
void exchange_rings(struct rings *rings, pcap_handler take, void *user);

/* Shuts both rings and takes all that is in them. */
void take_all_rest(struct rings *rings, pcap_handler take, void *user);

/* The moment before which no frame comes of them any more, where both were looked at from a moment on and had none. */
int64_t none_before(const struct rings *rings, int64_t looked);

void close_rings(struct rings *rings);

#endif
