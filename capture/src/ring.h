/* A buffer of the kernel for the frames of an interface, by libpcap. */
#ifndef RING_H
#define RING_H

#include "moment.h"

#include <pcap/pcap.h>
#include <stdbool.h>

enum ring_kind {
    QUIET_RING, /* gives each frame as it comes, for which the kernel wakes the program */
    BURST_RING, /* gives blocks of frames, once they are full or some milliseconds old */
    RINGS,
};

enum { FRAMES_A_TURN = 512 };

/* By then the kernel has handed over a last block, also a kernel that counts in hundredths of a second. */
static const int64_t LAST_BLOCK = 50 * (int64_t)NANOSECONDS_PER_MS;

struct ring {
    pcap_t *pcap; /* NULL once it is closed */
    enum ring_kind kind;
    int len;               /* of its memory, in bytes */
    unsigned taken;        /* frames that it gave since it was opened, as libpcap counts them: modulo 2^32 */
    struct pcap_stat seen; /* what libpcap said at the last look, since it was opened */
};

/* What was lost between two looks. */
struct ring_losses {
    unsigned dropped; /* by the kernel, for want of room */
    unsigned missed;  /* by the interface */
};

/* Sets how a ring gives its frames and how large it is, of an interface's memory in MiB, before it is activated. */
void prepare_ring(struct ring *ring, int buffer_mib);

/* Keeps further frames out of a ring, but for those that are on their way by now. It goes past libpcap, which would
 * take those in the ring for unwanted too. */
void shut_ring(const struct ring *ring);

/* Takes frames that the kernel has handed over, FRAMES_A_TURN at most: `take` gets each with `user`. How many; below 0
 * the interface failed. */
int take_frames(struct ring *ring, pcap_handler take, void *user);

/* Takes all frames of a ring that gets no more, for which none is on its way; also those of a block that isn't full. */
void take_rest(struct ring *ring, pcap_handler take, void *user);

/* Whether the kernel has put frames into it that weren't taken, as into a block that isn't full. */
bool has_waiting(const struct ring *ring);

/* Forgets that the interface failed, where this ring was told of it too. */
void forget_fault(const struct ring *ring);

/* Whether frames fill a ring that has slots: three quarters of them do, or some frames had no room. */
bool is_filling(const struct ring *ring);

/* What was lost since the last look. */
struct ring_losses look_at_losses(struct ring *ring);

void close_ring(struct ring *ring);

#endif
