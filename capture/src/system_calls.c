#define _GNU_SOURCE
#include "system_calls.h"
#include "log.h"

#ifdef WITH_SECCOMP

#include <errno.h>
#include <linux/netlink.h>
#include <linux/sockios.h>
#include <sched.h>
#include <seccomp.h>
#include <stddef.h>
#include <string.h>
#include <sys/ioctl.h>
#include <sys/mman.h>
#include <sys/socket.h>
#include <unistd.h>

/* By what they are for; names that a kernel or an architecture doesn't have are skipped. In brackets are those of other
 * machines and C libraries than Debian's of x86-64. */
static const char *const ALLOWED[] = {
    /* frames, feeds, counts and standard error (ppoll, readv) */
    "poll",
    "ppoll",
    "read",
    "readv",
    "write",
    "recvfrom",
    /* feeds that are opened and exchanged, listings, and what the kernel says of an interface (open, stat, statx) */
    "open",
    "openat",
    "close",
    "stat",
    "lstat",
    "fstat",
    "newfstatat",
    "statx",
    "dup",
    "fcntl",
    "pipe2",
    "ftruncate",
    "uname",
    /* interfaces that are opened again */
    "bind",
    "getsockname",
    "getsockopt",
    "setsockopt",
    "eventfd2",
    "capget",
    "capset",
    /* clocks (clock_gettime, nanosleep) */
    "clock_gettime",
    "clock_nanosleep",
    "nanosleep",
    "adjtimex",
    "clock_adjtime",
    /* of these, the names of machines of 32 bits */
    "fcntl64",
    "fstat64",
    "stat64",
    "lstat64",
    "fstatat64",
    "ftruncate64",
    "clock_gettime64",
    "clock_nanosleep_time64",
    "ppoll_time64",
    "futex_time64",
    "clock_adjtime64",
    "recv",
    /* threads and memory */
    "futex",
    "set_robust_list",
    "rseq",
    "sched_getaffinity",
    "gettid",
    "getpid",
    "munmap",
    "mremap",
    "madvise",
    "brk",
    /* signals and the end */
    "rt_sigprocmask",
    "rt_sigaction",
    "rt_sigreturn",
    "restart_syscall",
    "exit",
    "exit_group",
};

/* What is asked of interfaces, by libpcap and the C library too; an adapter's clock is set up by the last one. */
static const unsigned ASKED[] = {SIOCGIFFLAGS, SIOCGIFHWADDR, SIOCGIFINDEX, SIOCGIFMTU,
                                 SIOCGIFNAME,  SIOCETHTOOL,   SIOCSHWTSTAMP};

/* The sockets that are opened: of frames, and those by which interfaces are asked. */
static const struct {
    int family, type;
} SOCKETS[] = {{AF_PACKET, SOCK_RAW}, {AF_NETLINK, SOCK_RAW}, {AF_UNIX, SOCK_DGRAM}, {AF_INET, SOCK_DGRAM}};

enum { TYPE_OF_SOCKET = 0xf };

#if defined(__s390__)
enum { CLONE_FLAGS = 1 };
#else
enum { CLONE_FLAGS = 0 };
#endif

/* A comparison of an argument: one is equal to a value in the bits of a mask. */
static struct scmp_arg_cmp has(unsigned argument, uint64_t mask, uint64_t value) {
    return (struct scmp_arg_cmp){argument, SCMP_CMP_MASKED_EQ, mask, value};
}

static struct scmp_arg_cmp is(unsigned argument, uint64_t value) {
    return (struct scmp_arg_cmp){argument, SCMP_CMP_EQ, value, 0};
}

/* Allows a call where its arguments are so. 0, or an error. */
static int allow(scmp_filter_ctx filter, const char *name, unsigned count, const struct scmp_arg_cmp *arguments) {
    int call = seccomp_syscall_resolve_name(name);
    return call == __NR_SCMP_ERROR ? 0 : seccomp_rule_add_array(filter, SCMP_ACT_ALLOW, call, count, arguments);
}

/* Memory that isn't executed, threads and no processes, and signals to this process alone. 0, or an error. */
static int allow_limited(scmp_filter_ctx filter) {
    const struct scmp_arg_cmp not_executed = has(2, PROT_EXEC, 0);
    const struct scmp_arg_cmp is_thread = has(CLONE_FLAGS, CLONE_THREAD, CLONE_THREAD), own = is(0, (uint64_t)getpid());
    int error = allow(filter, "mmap", 1, &not_executed);
    error = error == 0 ? allow(filter, "mmap2", 1, &not_executed) : error;
    error = error == 0 ? allow(filter, "mprotect", 1, &not_executed) : error;
    error = error == 0 ? allow(filter, "tgkill", 1, &own) : error;
    error = error == 0 ? allow(filter, "clone", 1, &is_thread) : error;
    /* Its flags can't be seen, so the C library is to take the other one. */
    return error == 0 ? seccomp_rule_add(filter, SCMP_ACT_ERRNO(ENOSYS), SCMP_SYS(clone3), 0) : error;
}

/* What is asked of interfaces, and by which sockets. 0, or an error. */
static int allow_asking(scmp_filter_ctx filter) {
    int error = 0;
    for (size_t at = 0; at < sizeof ASKED / sizeof *ASKED && error == 0; at++) {
        const struct scmp_arg_cmp asked = is(1, ASKED[at]);
        error = allow(filter, "ioctl", 1, &asked);
    }
    for (size_t at = 0; at < sizeof SOCKETS / sizeof *SOCKETS && error == 0; at++) {
        struct scmp_arg_cmp socket[] = {is(0, (uint64_t)SOCKETS[at].family),
                                        has(1, TYPE_OF_SOCKET, (uint64_t)SOCKETS[at].type), is(2, NETLINK_GENERIC)};
        error = allow(filter, "socket", SOCKETS[at].family == AF_NETLINK ? 3 : 2, socket);
    }
    return error;
}

/* Whether the kernel takes a filter of these calls alone; 0, or an error. */
static int load(scmp_filter_ctx filter) {
    int error = seccomp_attr_set(filter, SCMP_FLTATR_CTL_NNP, 0);
    for (size_t at = 0; at < sizeof ALLOWED / sizeof *ALLOWED && error == 0; at++)
        error = allow(filter, ALLOWED[at], 0, NULL);
    error = error == 0 ? allow_limited(filter) : error;
    error = error == 0 ? allow_asking(filter) : error;
    return error == 0 ? seccomp_load(filter) : error;
}

void forbid_other_calls(void) {
    scmp_filter_ctx filter = seccomp_init(SCMP_ACT_ERRNO(EPERM));
    int error = filter != NULL ? load(filter) : -ENOMEM;
    seccomp_release(filter);
    if (error != 0)
        log_line("calls of the kernel aren't limited: %s", strerror(-error));
}

#else

void forbid_other_calls(void) {
}

#endif
