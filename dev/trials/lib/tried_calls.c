/* Preloaded before a program: once it has limited its calls of the kernel, all others are tried, and standard error
 says
 * how each ended: by an error that says that it is forbidden, or done.

   TRIED_FILE   a file that is tried to be read, written and emptied, and beside which another is tried to be made
   SPARED       the numbers of the calls that are needed, between spaces: those aren't tried with any arguments */
#define _GNU_SOURCE
#include <dlfcn.h>
#include <errno.h>
#include <fcntl.h>
#include <linux/netlink.h>
#include <sched.h>
#include <signal.h>
#include <stdio.h>
#include <stdlib.h>
#include <string.h>
#include <sys/ioctl.h>
#include <sys/mman.h>
#include <sys/socket.h>
#include <sys/stat.h>
#include <sys/syscall.h>
#include <unistd.h>

enum { MOST_CALLS = 512, ARGUMENTS = 6 };

/* Calls of which some may be made, with arguments with which none may. */
static const struct {
    const char *name;
    long number, arguments[ARGUMENTS];
} TRIED[] = {
    {"mmap executed", SYS_mmap, {0, 4096, PROT_READ | PROT_EXEC, MAP_PRIVATE | MAP_ANONYMOUS, -1, 0}},
    {"mmap written and executed", SYS_mmap, {0, 4096, PROT_WRITE | PROT_EXEC, MAP_PRIVATE | MAP_ANONYMOUS, -1, 0}},
    {"mprotect executed", SYS_mprotect, {0, 0, PROT_READ | PROT_EXEC}},
    {"pkey_mprotect executed", SYS_pkey_mprotect, {0, 0, PROT_READ | PROT_EXEC, -1}},
    {"kill of init", SYS_kill, {1, 0}},
    {"kill of the own process", SYS_kill, {0, 0}},
    {"tgkill of init", SYS_tgkill, {1, 1, 0}},
    {"tkill of init", SYS_tkill, {1, 0}},
    {"TIOCSTI", SYS_ioctl, {0, TIOCSTI, 0}},
    {"TIOCSTI with upper bits", SYS_ioctl, {0, TIOCSTI | 1L << 32, 0}},
    {"TIOCLINUX", SYS_ioctl, {0, TIOCLINUX, 0}},
    {"TIOCSCTTY", SYS_ioctl, {0, TIOCSCTTY, 0}},
    {"FIONREAD", SYS_ioctl, {0, FIONREAD, 0}},
    {"SIOCSIFFLAGS", SYS_ioctl, {0, 0x8914, 0}},
    {"socket of TCP", SYS_socket, {AF_INET, SOCK_STREAM, 0}},
    {"socket of raw IP", SYS_socket, {AF_INET, SOCK_RAW, 1}},
    {"socket of IPv6", SYS_socket, {AF_INET6, SOCK_DGRAM, 0}},
    {"socket of streams", SYS_socket, {AF_UNIX, SOCK_STREAM, 0}},
    {"socket of routes", SYS_socket, {AF_NETLINK, SOCK_RAW, NETLINK_ROUTE}},
    {"socket of packets without headers", SYS_socket, {AF_PACKET, SOCK_DGRAM, 0}},
    {"socket of algorithms", SYS_socket, {AF_ALG, SOCK_SEQPACKET, 0}},
    {"socket of machines", SYS_socket, {AF_VSOCK, SOCK_STREAM, 0}},
    {"clone of a process", SYS_clone, {SIGCHLD, 0, 0, 0, 0}},
    {"clone of a process in its memory", SYS_clone, {CLONE_VM | SIGCHLD, 0, 0, 0, 0}},
    {"clone3", SYS_clone3, {0, 0}},
};

static void tell(const char *name, long done) {
    int is_refused = done < 0 && (errno == EPERM || errno == ENOSYS || errno == EACCES);
    fprintf(stderr, "tried %s: %s\n", name, is_refused ? "forbidden" : done < 0 ? strerror(errno) : "done");
}

/* Tries each call but those that are spared, whose numbers are given. */
static void try_others(const char *spared) {
    for (long number = 0; number < MOST_CALLS; number++) {
        char name[32];
        snprintf(name, sizeof name, " %ld ", number);
        if (strstr(spared, name) != NULL)
            continue;
        snprintf(name, sizeof name, "call %ld", number);
        tell(name, syscall(number, -1, 0, 0, 0, 0, 0));
    }
}

/* Tries to write what stands elsewhere. */
static void try_to_write(const char *path) {
    char beside[4096];
    int made;
    tell("open to be written", open(path, O_WRONLY));
    tell("open to be read", open(path, O_RDONLY));
    tell("open to be emptied", open(path, O_RDONLY | O_TRUNC));
    snprintf(beside, sizeof beside, "%s.made", path);
    tell("open to be made", made = open(beside, O_WRONLY | O_CREAT | O_EXCL, 0600));
    if (made >= 0)
        unlink(beside);
}

int seccomp_load(const void *filter) {
    int (*real)(const void *) = dlsym(RTLD_NEXT, "seccomp_load");
    int result = real(filter);

    for (size_t at = 0; at < sizeof TRIED / sizeof *TRIED; at++) {
        const long *it = TRIED[at].arguments;
        tell(TRIED[at].name, syscall(TRIED[at].number, it[0], it[1], it[2], it[3], it[4], it[5]));
    }
    if (getenv("SPARED"))
        try_others(getenv("SPARED"));
    if (getenv("TRIED_FILE"))
        try_to_write(getenv("TRIED_FILE"));
    return result;
}
