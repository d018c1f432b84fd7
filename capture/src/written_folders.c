#define _GNU_SOURCE
#include "written_folders.h"
#include "log.h"

#include <errno.h>
#include <fcntl.h>
#include <limits.h>
#include <stddef.h>
#include <stdint.h>
#include <stdio.h>
#include <string.h>
#include <sys/stat.h>
#include <sys/syscall.h>
#include <unistd.h>

/* Headers may be older than the kernel, so what is asked of Landlock stands here. Its calls have these numbers on each
 * architecture. */
enum { CREATE_RULESET = 444, ADD_RULE = 445, RESTRICT_SELF = 446, ASK_VERSION = 1, BELOW_PATH = 1 };

/* Sanitizers write their reports where they are told to. */
#ifdef UNLIMITED_WRITING
enum { IS_LIMITED = 0 };
#else
enum { IS_LIMITED = 1 };
#endif

/* What a program may do with files, as bits. */
#define EXECUTE (1ULL << 0)
#define WRITE_FILE (1ULL << 1)
#define REMOVE_AND_MAKE (0x1ffULL << 4)
#define MAKE_FILE (1ULL << 8)
#define REFER (1ULL << 13)
#define TRUNCATE (1ULL << 14)
#define IOCTL_DEVICE (1ULL << 15)
/* What is refused beside: TCP, and sockets and signals of processes outside. */
#define BIND_AND_CONNECT 3ULL
#define ABSTRACT_SOCKETS_AND_SIGNALS 3ULL

enum { WITH_REFER = 2, WITH_TRUNCATE = 3, WITH_NETWORK = 4, WITH_IOCTL = 5, WITH_SCOPES = 6 };

struct ruleset {
    uint64_t files, network, scopes;
};

/* What is allowed below a folder, or of a file. */
struct rule {
    uint64_t allowed;
    int32_t folder;
} __attribute__((packed));

static int version(void) {
    return (int)syscall(CREATE_RULESET, NULL, (size_t)0, ASK_VERSION);
}

bool has_landlock(void) {
    return version() > 0;
}

/* All that this kernel's Landlock can refuse, but reading. */
static struct ruleset all_refused(int known) {
    struct ruleset refused = {EXECUTE | WRITE_FILE | REMOVE_AND_MAKE, 0, 0};
    refused.files |= known >= WITH_REFER ? REFER : 0;
    refused.files |= known >= WITH_TRUNCATE ? TRUNCATE : 0;
    refused.files |= known >= WITH_IOCTL ? IOCTL_DEVICE : 0;
    refused.network = known >= WITH_NETWORK ? BIND_AND_CONNECT : 0;
    refused.scopes = known >= WITH_SCOPES ? ABSTRACT_SOCKETS_AND_SIGNALS : 0;
    return refused;
}

/* Allows to write a file that is open. One that is in no folder, as a pipe of a shell, may be written as it is. */
static void allow_file(int ruleset, int fd, const struct ruleset *refused) {
    struct rule rule = {refused->files & (WRITE_FILE | TRUNCATE | IOCTL_DEVICE), fd};
    syscall(ADD_RULE, ruleset, BELOW_PATH, &rule, 0);
}

/* Cuts a path behind its last sign, to that of its folder. */
static void cut_last(char path[PATH_MAX]) {
    char *sign = strrchr(path, '/');
    if (sign == NULL)
        memcpy(path, ".", sizeof ".");
    else
        sign[sign == path] = '\0';
}

/* Whether a path is a link to what stands beside it, in a folder that isn't the topmost one. */
static bool is_link_beside(const char *path) {
    char to[PATH_MAX];
    ssize_t len = readlink(path, to, sizeof to);
    return len > 0 && memchr(to, '/', (size_t)len) == NULL && strrchr(path, '/') != path;
}

/* Cuts a path to that of its folder; where that is a link to one beside it, to the folder of both, since it may lead to
 * another of those later. */
static void cut_to_folder(char path[PATH_MAX]) {
    do
        cut_last(path);
    while (is_link_beside(path));
}

/* Folders that hold devices or all that there is: what stands there is allowed alone. */
static bool holds_others(const char *folder) {
    return strcmp(folder, "/") == 0 || strcmp(folder, "/dev") == 0 || strcmp(folder, "/dev/fd") == 0 ||
           strncmp(folder, "/proc", 5) == 0;
}

/* Allows to make files and write them in the folder of a path, and below, and to write what the path names. */
static void allow_path(int ruleset, const char *path, const struct ruleset *refused) {
    char folder[PATH_MAX];
    if (snprintf(folder, sizeof folder, "%s", path) >= PATH_MAX)
        return;
    int fd = open(path, O_PATH | O_CLOEXEC);
    if (fd >= 0) {
        allow_file(ruleset, fd, refused);
        close(fd);
    }
    cut_to_folder(folder);
    fd = holds_others(folder) ? -1 : open(folder, O_PATH | O_DIRECTORY | O_CLOEXEC);
    if (fd < 0)
        return;
    struct rule rule = {refused->files & (WRITE_FILE | TRUNCATE | MAKE_FILE), fd};
    syscall(ADD_RULE, ruleset, BELOW_PATH, &rule, 0);
    close(fd);
}

static void allow_all(int ruleset, const struct arguments *arguments, const struct ruleset *refused) {
    for (int at = 0; at < arguments->count; at++)
        if (strcmp(arguments->routes[at].to, "-") != 0)
            allow_path(ruleset, arguments->routes[at].to, refused);
    if (arguments->events != NULL)
        allow_path(ruleset, arguments->events, refused);
    /* It is opened anew where it is a pipe. */
    allow_file(ruleset, STDOUT_FILENO, refused);
}

void limit_writing(const struct arguments *arguments) {
    int known = IS_LIMITED ? version() : 0;
    if (known <= 0)
        return;
    struct ruleset refused = all_refused(known);
    /* An older kernel takes no more of it than it knows. */
    size_t len = known >= WITH_SCOPES    ? sizeof refused
                 : known >= WITH_NETWORK ? offsetof(struct ruleset, scopes)
                                         : offsetof(struct ruleset, network);
    int ruleset = (int)syscall(CREATE_RULESET, &refused, len, 0);
    if (ruleset >= 0)
        allow_all(ruleset, arguments, &refused);
    if (ruleset < 0 || syscall(RESTRICT_SELF, ruleset, 0) != 0)
        log_line("what may be written isn't limited: %s", strerror(errno));
    if (ruleset >= 0)
        close(ruleset);
}
