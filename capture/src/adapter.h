/* What the kernel says of an interface's adapter. */
#ifndef ADAPTER_H
#define ADAPTER_H

#include "moment.h"
#include "scale.h"

#include <stdbool.h>

enum { JOINING_LEN = 128 };

struct adapter {
    bool gives_check_sequences; /* frames come with their check sequences */
    char joining[JOINING_LEN];  /* the features by which frames are joined to longer ones, as `ethtool -k` names them */
    int clock;                  /* the number of its clock, as of /dev/ptp0; -1 where it has none that is known */
};

/* Whose clock frames are stamped by. */
enum stamping {
    BY_HOST,
    BY_DISCIPLINED_ADAPTER, /* which follows the host's */
    BY_ADAPTER,             /* as it runs */
};

/* Asks the kernel, which knows nothing of some interfaces. */
void ask_adapter(const char *interface, struct adapter *adapter);

/* Whether there is an interface of this name, and it is up. */
bool is_interface_up(const char *name);

/* Whether an interface has a carrier, as a plugged cable gives it; so has one of which the kernel doesn't know. */
bool has_carrier(const char *name);

/* How many bytes of memory the kernel has for the frames of a packet socket; 0 where it doesn't say. */
uint64_t ring_len(int socket);

/* Logs which clock stamps the frames of an interface, by the number of the adapter's, and in which scale where that is
 * known. */
void log_clock(const char *interface, int number, enum stamping stamping);

/* Finds and logs in which scale an adapter's own clock runs, by a frame that comes now. */
struct scale log_adapter_clock(const char *interface, nanoseconds stamp);

#endif
