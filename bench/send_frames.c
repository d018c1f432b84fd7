/* Sends numbered UDP frames into interfaces as fast as it can, or at a rate.
 *
 * usage: send_frames INTERFACE[,INTERFACE..] LENGTH COUNT [FRAMES_A_SECOND]
 *
 * A frame has LENGTH bytes with its check sequence, which the adapter adds; its last 8 bytes before that are its
 * number, the highest first. One in 32 goes to port 53, the others to ports from 1024 on. With several interfaces
 * each frame goes into all of them, one after the other. It prints how many frames it sent into each, and the seconds.
 */
#define _GNU_SOURCE
#include <arpa/inet.h>
#include <errno.h>
#include <linux/if_packet.h>
#include <net/ethernet.h>
#include <net/if.h>
#include <poll.h>
#include <stdint.h>
#include <stdio.h>
#include <stdlib.h>
#include <string.h>
#include <sys/socket.h>
#include <time.h>
#include <unistd.h>

enum { BATCH = 64, MOST_LEN = 9018, HEADERS_LEN = 42, NUMBER_LEN = 8, MOST_INTERFACES = 8, ONE_IN = 32, PORT = 53 };

struct sender {
    int sockets[MOST_INTERFACES];
    int count;
    size_t len;
    unsigned char frames[BATCH][MOST_LEN];
    struct iovec parts[BATCH];
    struct mmsghdr messages[BATCH];
};

static void fail(const char *what) {
    fprintf(stderr, "send_frames: %s: %s\n", what, strerror(errno));
    exit(1);
}

static double now(void) {
    struct timespec time;
    clock_gettime(CLOCK_MONOTONIC, &time);
    return (double)time.tv_sec + (double)time.tv_nsec / 1e9;
}

static int socket_into(const char *interface) {
    int one = 1, fd = socket(AF_PACKET, SOCK_RAW, 0);
    struct sockaddr_ll address = {.sll_family = AF_PACKET, .sll_protocol = htons(ETH_P_ALL)};
    address.sll_ifindex = (int)if_nametoindex(interface);
    /* Nothing is received here, and no queue of the interface is between. */
    address.sll_protocol = 0;
    if (fd < 0 || address.sll_ifindex == 0 || bind(fd, (struct sockaddr *)&address, sizeof address) != 0)
        fail(interface);
    setsockopt(fd, SOL_PACKET, PACKET_QDISC_BYPASS, &one, sizeof one);
    return fd;
}

static void put(unsigned char *at, int bytes, uint64_t value) {
    for (int i = 0; i < bytes; i++)
        at[i] = (unsigned char)(value >> 8 * (bytes - 1 - i));
}

static void make_frame(unsigned char *frame, size_t len) {
    static const unsigned char head[] = {2, 0, 0, 0, 0, 2, 2, 0, 0, 0, 0, 1, 8, 0, 0x45};
    memset(frame, 0, len);
    memcpy(frame, head, sizeof head);
    put(frame + 16, 2, len - 14);
    frame[22] = 64;
    frame[23] = 17;
    put(frame + 26, 4, 0x0A000001);
    put(frame + 30, 4, 0x0A000002);
    uint32_t sum = 0;
    for (int at = 14; at < 34; at += 2)
        sum += (uint32_t)frame[at] << 8 | frame[at + 1];
    put(frame + 24, 2, ~((sum & 0xFFFF) + (sum >> 16)) & 0xFFFF);
    put(frame + 34, 2, 40000);
    put(frame + 38, 2, len - 34);
}

static void number_frame(unsigned char *frame, size_t len, uint64_t number) {
    put(frame + 36, 2, number % ONE_IN == 0 ? PORT : 1024 + number % 1000);
    put(frame + len - NUMBER_LEN, NUMBER_LEN, number);
}

/* Sends the first frames of the batch into one interface, and waits where it takes none. */
static void send_batch(struct sender *sender, int fd, unsigned count) {
    for (unsigned done = 0; done < count;) {
        int sent = sendmmsg(fd, sender->messages + done, count - done, 0);
        if (sent > 0)
            done += (unsigned)sent;
        else if (errno == ENOBUFS || errno == EAGAIN || errno == EINTR)
            poll(NULL, 0, 1);
        else
            fail("sendmmsg");
    }
}

static void prepare(struct sender *sender) {
    for (int i = 0; i < BATCH; i++) {
        make_frame(sender->frames[i], sender->len);
        sender->parts[i] = (struct iovec){sender->frames[i], sender->len};
        sender->messages[i].msg_hdr = (struct msghdr){.msg_iov = &sender->parts[i], .msg_iovlen = 1};
    }
}

/* Waits until a frame's time has come, at so many frames a second. */
static void pace(double begin, uint64_t number, double rate) {
    double early = begin + (double)number / rate - now();
    if (rate > 0 && early > 0)
        nanosleep(&(struct timespec){(time_t)early, (long)((early - (double)(time_t)early) * 1e9)}, NULL);
}

int main(int argc, char **argv) {
    static struct sender sender;
    if (argc < 4) {
        fprintf(stderr, "usage: send_frames INTERFACE[,INTERFACE..] LENGTH COUNT [FRAMES_A_SECOND]\n");
        return 2;
    }
    for (char *name = strtok(argv[1], ","); name != NULL && sender.count < MOST_INTERFACES; name = strtok(NULL, ","))
        sender.sockets[sender.count++] = socket_into(name);
    sender.len = strtoul(argv[2], NULL, 10) - 4;
    uint64_t count = strtoull(argv[3], NULL, 10);
    double rate = argc > 4 ? strtod(argv[4], NULL) : 0, begin = now();
    if (sender.len < HEADERS_LEN + NUMBER_LEN || sender.len > MOST_LEN) {
        fprintf(stderr, "send_frames: a LENGTH is 54 to 9022\n");
        return 2;
    }
    prepare(&sender);
    uint64_t batch = rate > 0 && rate < 100000 ? 1 : BATCH;
    for (uint64_t number = 0; number < count; number += batch) {
        uint64_t these = count - number < batch ? count - number : batch;
        for (uint64_t i = 0; i < these; i++)
            number_frame(sender.frames[i], sender.len, number + i);
        pace(begin, number, rate);
        for (int i = 0; i < sender.count; i++)
            send_batch(&sender, sender.sockets[i], (unsigned)these);
    }
    printf("%llu %.6f\n", (unsigned long long)count, now() - begin);
    return 0;
}
