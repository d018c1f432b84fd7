#define _GNU_SOURCE
#include "adapter.h"
#include "log.h"

#include <inttypes.h>
#include <linux/ethtool.h>
#include <linux/sockios.h>
#include <net/if.h>
#include <stddef.h>
#include <stdint.h>
#include <stdio.h>
#include <stdlib.h>
#include <string.h>
#include <sys/ioctl.h>
#include <sys/socket.h>
#include <sys/stat.h>
#include <time.h>
#include <unistd.h>

enum { FEATURES_A_BLOCK = 32, CLOCK_LEN = 32 };

static const char *const JOINING[] = {"rx-gro", "rx-lro", "rx-gro-hw", "tx-generic-segmentation",
                                      "tx-tcp-segmentation"};

static int ask(int socket, const char *interface, void *question) {
    struct ifreq request = {0};
    snprintf(request.ifr_name, sizeof request.ifr_name, "%s", interface);
    request.ifr_data = question;
    return ioctl(socket, SIOCETHTOOL, &request);
}

/* How many features the kernel knows. */
static uint32_t count_features(int socket, const char *interface) {
    union {
        struct ethtool_sset_info info;
        unsigned char room[sizeof(struct ethtool_sset_info) + sizeof(uint32_t)];
    } sets = {.info = {.cmd = ETHTOOL_GSSET_INFO, .sset_mask = 1ULL << ETH_SS_FEATURES}};
    uint32_t count = 0;
    if (ask(socket, interface, &sets) == 0 && sets.info.sset_mask != 0)
        memcpy(&count, sets.room + sizeof(struct ethtool_sset_info), sizeof count);
    return count;
}

static void note(struct adapter *adapter, const char *name) {
    if (strcmp(name, "rx-fcs") == 0)
        adapter->gives_check_sequences = true;
    for (size_t i = 0; i < sizeof JOINING / sizeof *JOINING; i++) {
        size_t len = strlen(adapter->joining);
        if (strcmp(name, JOINING[i]) == 0)
            snprintf(adapter->joining + len, JOINING_LEN - len, "%s%s", len ? ", " : "", name);
    }
}

static void ask_features(int socket, const char *interface, uint32_t count, struct adapter *adapter) {
    uint32_t blocks = (count + FEATURES_A_BLOCK - 1) / FEATURES_A_BLOCK;
    struct ethtool_gstrings *names = calloc(1, sizeof *names + (size_t)count * ETH_GSTRING_LEN);
    struct ethtool_gfeatures *features = calloc(1, sizeof *features + blocks * sizeof features->features[0]);
    if (names != NULL && features != NULL) {
        *names = (struct ethtool_gstrings){.cmd = ETHTOOL_GSTRINGS, .string_set = ETH_SS_FEATURES, .len = count};
        *features = (struct ethtool_gfeatures){.cmd = ETHTOOL_GFEATURES, .size = blocks};
        if (ask(socket, interface, names) == 0 && ask(socket, interface, features) == 0)
            for (uint32_t at = 0; at < count; at++) {
                char name[ETH_GSTRING_LEN + 1] = {0};
                memcpy(name, names->data + (size_t)at * ETH_GSTRING_LEN, ETH_GSTRING_LEN);
                if (features->features[at / FEATURES_A_BLOCK].active >> at % FEATURES_A_BLOCK & 1)
                    note(adapter, name);
            }
    }
    free(names);
    free(features);
}

/* The number of an adapter's clock, or -1. */
static int ask_clock(int socket, const char *interface) {
    struct ethtool_ts_info info = {.cmd = ETHTOOL_GET_TS_INFO};
    return ask(socket, interface, &info) == 0 ? info.phc_index : -1;
}

void ask_adapter(const char *interface, struct adapter *adapter) {
    int socket_fd = socket(AF_INET, SOCK_DGRAM | SOCK_CLOEXEC, 0);
    *adapter = (struct adapter){.clock = -1};
    if (socket_fd < 0)
        return;
    adapter->clock = ask_clock(socket_fd, interface);
    uint32_t count = count_features(socket_fd, interface);
    if (count > 0)
        ask_features(socket_fd, interface, count, adapter);
    close(socket_fd);
}

bool is_interface_up(const char *name) {
    int socket_fd = socket(AF_INET, SOCK_DGRAM | SOCK_CLOEXEC, 0);
    struct ifreq request = {0};
    if (socket_fd < 0)
        return false;
    snprintf(request.ifr_name, sizeof request.ifr_name, "%s", name);
    bool is_up = ioctl(socket_fd, SIOCGIFFLAGS, &request) == 0 && (request.ifr_flags & IFF_UP) != 0;
    close(socket_fd);
    return is_up;
}

bool has_carrier(const char *name) {
    struct ethtool_value link = {.cmd = ETHTOOL_GLINK};
    int socket_fd = socket(AF_INET, SOCK_DGRAM | SOCK_CLOEXEC, 0);
    if (socket_fd < 0)
        return true;
    bool is_known = ask(socket_fd, name, &link) == 0;
    close(socket_fd);
    return !is_known || link.data != 0;
}

uint64_t ring_len(int socket) {
    char line[512], name[64];
    struct stat kind;
    uint64_t len = 0;
    FILE *maps = fopen("/proc/self/maps", "r");
    if (maps == NULL)
        return 0;
    bool is_known = fstat(socket, &kind) == 0;
    snprintf(name, sizeof name, "socket:[%" PRIu64 "]", is_known ? (uint64_t)kind.st_ino : 0);
    while (is_known && fgets(line, sizeof line, maps) != NULL)
        if (strstr(line, name) != NULL) {
            char *behind;
            uint64_t begin = strtoull(line, &behind, 16);
            len += strtoull(behind + 1, NULL, 16) - begin;
        }
    fclose(maps);
    return len;
}

void log_clock(const char *interface, int number, enum stamping stamping) {
    char clock[CLOCK_LEN] = "";
    if (number >= 0)
        snprintf(clock, sizeof clock, " /dev/ptp%d", number);
    if (stamping == BY_HOST)
        log_line("%s clock host: UTC", interface);
    else if (stamping == BY_DISCIPLINED_ADAPTER)
        log_line("%s clock adapter%s, which follows the host's: UTC", interface, clock);
    else
        log_line("%s clock adapter%s: its first frame shows the scale", interface, clock);
}

struct scale log_adapter_clock(const char *interface, nanoseconds stamp) {
    struct timespec now;
    clock_gettime(CLOCK_REALTIME, &now);
    nanoseconds ahead = stamp - ((nanoseconds)now.tv_sec * NANOSECONDS_PER_SECOND + now.tv_nsec);
    struct scale scale = scale_ahead(ahead);
    if (scale.kind == SCALE_TAI)
        log_line("%s: the adapter's clock runs TAI, %d s ahead of UTC, and so do the times of its frames", interface,
                 scale.tai_offset);
    else if (scale.kind == SCALE_UTC)
        log_line("%s: the adapter's clock runs UTC, and so do the times of its frames", interface);
    else
        log_line("%s: the adapter's clock is %+.3f s ahead of the host's, and so are the times of its frames",
                 interface, (double)ahead / NANOSECONDS_PER_SECOND);
    return scale;
}
