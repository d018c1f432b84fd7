#define _GNU_SOURCE
#include "adapter.h"
#include "interface.h"
#include "log.h"
#include "prefilter.h"
#include "privileges.h"

#include <errno.h>
#include <inttypes.h>
#include <limits.h>
#include <net/if.h>
#include <pthread.h>
#include <string.h>
#include <unistd.h>

enum {
    /* Longer than any frame of a feed, so that a longer one is seen to be cut. */
    MOST_CAPTURED = 16384,
    BYTES_A_MIB = 1 << 20,
};

/* Says why an interface can't be captured: false. */
static bool refused(const char *name, const char *why) {
    log_line("%s: %s", name, why);
    return false;
}

/* Says how a group gets the permission, for this program by its path. */
static bool refused_permission(const char *name) {
    char path[PATH_MAX] = "bin/capture";
    ssize_t len = readlink("/proc/self/exe", path, sizeof path - 1);
    if (len > 0)
        path[len] = 0;
    log_line("%s: no permission to capture: be root, or have a group capture, as using/record.md says: "
             "chgrp recorder F && chmod 750 F && setcap cap_net_raw=ep F, where F is %s",
             name, path);
    return false;
}

/* Why an interface can't be captured, in one line. */
static bool refused_by(pcap_t *pcap, const char *name, int status) {
    switch (status) {
    case PCAP_ERROR_PERM_DENIED:
    case PCAP_ERROR_PROMISC_PERM_DENIED:
        return refused_permission(name);
    case PCAP_ERROR_NO_SUCH_DEVICE:
        return refused(name, "no such interface");
    case PCAP_ERROR_IFACE_NOT_UP:
        log_line("%s: it is down: ip link set %s up", name, name);
        return false;
    case PCAP_ERROR:
        return refused(name, pcap_geterr(pcap));
    default:
        return refused(name, pcap_statustostr(status));
    }
}

/* Takes the adapter's clock, where it is disciplined to the host's, and else as it runs. Whether there is one. */
static bool use_adapter_clock(struct interface *interface, pcap_t *pcap) {
    static const int CLOCKS[] = {PCAP_TSTAMP_ADAPTER, PCAP_TSTAMP_ADAPTER_UNSYNCED};
    int *known, count = pcap_list_tstamp_types(pcap, &known);
    bool is_set = false;
    for (size_t clock = 0; clock < sizeof CLOCKS / sizeof *CLOCKS && !is_set; clock++)
        for (int i = 0; i < count && !is_set; i++) {
            is_set = known[i] == CLOCKS[clock] && pcap_set_tstamp_type(pcap, known[i]) == 0;
            interface->stamping = known[i] == PCAP_TSTAMP_ADAPTER ? BY_DISCIPLINED_ADAPTER : BY_ADAPTER;
        }
    if (count > 0)
        pcap_free_tstamp_types(known);
    interface->is_scale_unknown = is_set && interface->stamping == BY_ADAPTER;
    return is_set;
}

static bool activate(const struct interface *interface, enum ring_kind kind) {
    pcap_t *pcap = interface->rings.each[kind].pcap;
    int status = pcap_activate(pcap);
    if (status < 0)
        return refused_by(pcap, interface->name, status);
    if (status > 0 && kind == QUIET_RING)
        log_line("%s: %s", interface->name, status == PCAP_WARNING ? pcap_geterr(pcap) : pcap_statustostr(status));
    if (pcap_datalink(pcap) != DLT_EN10MB)
        return refused(interface->name, "no Ethernet interface");
    return true;
}

static bool set_up(struct interface *interface, enum ring_kind kind) {
    struct ring *ring = &interface->rings.each[kind];
    const struct arguments *arguments = interface->arguments;
    pcap_set_snaplen(ring->pcap, MOST_CAPTURED);
    /* It is asked of the interface, so one ring does for both. */
    pcap_set_promisc(ring->pcap, arguments->is_promiscuous && kind == QUIET_RING);
    prepare_ring(ring, arguments->buffer_mib);
    pcap_set_tstamp_precision(ring->pcap, PCAP_TSTAMP_PRECISION_NANO);
    if (arguments->uses_adapter_clock && !use_adapter_clock(interface, ring->pcap))
        return refused(interface->name, "its adapter gives no times");
    return activate(interface, kind);
}

static bool set_direction(pcap_t *pcap, const char *name, enum direction direction) {
    static const pcap_direction_t DIRECTIONS[] = {PCAP_D_INOUT, PCAP_D_IN, PCAP_D_OUT};
    if (pcap_setdirection(pcap, DIRECTIONS[direction]) != 0)
        return refused(name, pcap_geterr(pcap));
    return true;
}

static void note_adapter(struct interface *interface) {
    struct adapter adapter;
    ask_adapter(interface->name, &adapter);
    enum check_sequences asked = interface->arguments->check_sequences;
    interface->has_check_sequences = asked == AS_THE_ADAPTER_SAYS ? adapter.gives_check_sequences : asked == GIVEN;
    interface->clock_number = adapter.clock;
    if (adapter.joining[0] != 0)
        log_line(
            "%s: the kernel may join frames (%s), and a joined frame was never on the wire: ethtool -K %s gro off lro "
            "off gso off tso off",
            interface->name, adapter.joining, interface->name);
}

void log_opened(const struct interface *interface) {
    uint64_t len = 0;
    for (int kind = 0; kind < RINGS; kind++)
        len += ring_len(pcap_fileno(interface->rings.each[kind].pcap));
    if (len > 0)
        log_line("%s buffer %" PRIu64 " MiB", interface->name, len / BYTES_A_MIB);
    log_clock(interface->name, interface->clock_number, interface->stamping);
}

/* Opens one of the rings of an interface that is there by now. */
static bool open_ring(struct interface *interface, enum ring_kind kind) {
    char error[PCAP_ERRBUF_SIZE];
    const char *name = interface->name;
    pcap_t *pcap = pcap_create(name, error);
    interface->rings.each[kind] = (struct ring){.pcap = pcap, .kind = kind};
    if (pcap == NULL)
        return refused(name, error);
    if (!set_up(interface, kind) || !set_direction(pcap, name, interface->arguments->direction))
        return false;
    return pcap_setnonblock(pcap, 1, error) == 0 || refused(name, error);
}

/* Has the kernel drop what the interface's prefilter drops, where it has one. Whether it could. */
static bool set_prefilter(const struct interface *interface) {
    const struct ring *each = interface->rings.each;
    pcap_t *const pcaps[RINGS] = {each[QUIET_RING].pcap, each[BURST_RING].pcap};
    const char *path = interface->route->prefilter;
    return path == NULL || drop_by_listing(pcaps, RINGS, interface->name, path);
}

/* Opens an interface that is there by now, as it was asked for. */
static bool open_all_of(struct interface *interface) {
    static const struct scale UTC = {.kind = SCALE_UTC};
    note_none_before(&interface->clock, steady_now());
    interface->number = if_nametoindex(interface->name);
    for (int kind = 0; kind < RINGS; kind++)
        if (!open_ring(interface, (enum ring_kind)kind))
            return false;
    if (!set_prefilter(interface))
        return false;
    if (!group_rings(&interface->rings))
        return refused(interface->name, strerror(errno));
    bool is_nano = pcap_get_tstamp_precision(interface->rings.each[QUIET_RING].pcap) == PCAP_TSTAMP_PRECISION_NANO;
    interface->nanoseconds_per_unit = is_nano ? 1 : 1000;
    note_adapter(interface);
    if (!interface->is_scale_unknown)
        show_scale(interface->name, &UTC);
    return true;
}

bool open_interface(struct interface *interface, const struct route *route, const struct arguments *arguments) {
    *interface = (struct interface){
        .name = route->from,
        .route = route,
        .arguments = arguments,
        .feed = {.output.fd = -1},
        .marks = marks_of(route->span),
        .counts = {.interface = route->from,
                   .feed = &interface->feed,
                   .rings = &interface->rings,
                   .is_quiet = arguments->is_quiet,
                   .descriptor = arguments->counts},
    };
    return open_all_of(interface);
}

bool open_again(struct interface *interface) {
    /* A listing is read into room that all interfaces share. */
    static pthread_mutex_t opening = PTHREAD_MUTEX_INITIALIZER;
    pthread_mutex_lock(&opening);
    begin_to_open();
    bool is_open = open_all_of(interface);
    end_to_open();
    pthread_mutex_unlock(&opening);
    if (is_open)
        log_opened(interface);
    else
        close_rings(&interface->rings);
    return is_open;
}
