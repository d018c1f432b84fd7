/* An interface whose frames become a feed, by libpcap. */
#ifndef INTERFACE_H
#define INTERFACE_H

#include "adapter.h"
#include "arguments.h"
#include "clock.h"
#include "counts.h"
#include "feed.h"
#include "marks.h"
#include "moment.h"
#include "rings.h"

#include <stdatomic.h>
#include <stdbool.h>

struct interface {
    const char *name;
    const struct route *route;
    const struct arguments *arguments;
    struct rings rings; /* closed while it is gone */
    unsigned number;    /* the kernel's */
    bool has_check_sequences;
    int nanoseconds_per_unit;
    enum stamping stamping;
    int clock_number;      /* of the adapter, as of /dev/ptp0; -1 where it has none that is known */
    bool is_scale_unknown; /* frames have the adapter's time as it runs, and none has shown its scale yet */
    struct frame_clock clock;
    struct feed feed;
    struct counts counts;
    struct marks marks;
    int64_t next_look; /* whether it is up, or back */
    bool is_down;      /* or has no carrier */
    bool is_gone;
};

/* Begins to capture an interface's frames, which the kernel keeps until they are taken. Whether it could;
 * else a line has said why not. */
bool open_interface(struct interface *interface, const struct route *route, const struct arguments *arguments);

/* Logs how much memory the kernel really has for its frames, and whose clock stamps them. */
void log_opened(const struct interface *interface);

/* Opens an interface again that was gone, where one of its name is there and up. Whether it could. */
bool open_again(struct interface *interface);

/* Writes the frames into the feed until the run is stopped or the feed is gone, and reports the counts. */
void run_interface(struct interface *interface);

/* After its end: opens and closes each later pipe, so that no recorder waits for it, until all have ended or the run is
 * to end at once. `running` is how many haven't ended. */
void pass_later_feeds(struct interface *interface, const atomic_int *running);

/* Whether the interface ended as it should. */
bool is_well(const struct interface *interface);

#endif
