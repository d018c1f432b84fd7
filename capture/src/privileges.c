#define _GNU_SOURCE
#include "privileges.h"
#include "log.h"
#include "written_folders.h"

#include <errno.h>
#include <grp.h>
#include <linux/capability.h>
#include <stdint.h>
#include <string.h>
#include <sys/prctl.h>
#include <sys/stat.h>
#include <sys/syscall.h>
#include <unistd.h>

#define NOT_GIVEN_UP "privileges can't be given up"

enum { WORDS = _LINUX_CAPABILITY_U32S_3 };

static const uint32_t TO_OPEN = 1U << CAP_NET_RAW;
/* By which root opens the files of others. */
static const uint32_t TO_READ_FILES = 1U << CAP_DAC_OVERRIDE | 1U << CAP_DAC_READ_SEARCH;

/* Says which right could not be set, and why: false. */
static bool refused(const char *what) {
    log_line("%s: %s", what, strerror(errno));
    return false;
}

/* Drops all capabilities of this thread but `allowed`, of which it makes `in_force` effective. Whether that holds; if
 * it had none, nothing is asked of the kernel. */
static bool set_capabilities(uint32_t allowed, uint32_t in_force) {
    struct __user_cap_header_struct head = {.version = _LINUX_CAPABILITY_VERSION_3};
    struct __user_cap_data_struct had[WORDS] = {0}, kept[WORDS] = {0};
    if (syscall(SYS_capget, &head, had) != 0)
        return false;
    kept[0].permitted = had[0].permitted & allowed;
    kept[0].effective = kept[0].permitted & in_force;
    return memcmp(had, kept, sizeof had) == 0 || syscall(SYS_capset, &head, kept) == 0;
}

/* Gives up all that could be gained, and all capabilities but these. Whether that could be done. */
static bool keep_alone(uint32_t allowed, uint32_t in_force) {
    if (prctl(PR_SET_NO_NEW_PRIVS, 1, 0, 0, 0) != 0 || prctl(PR_CAP_AMBIENT, PR_CAP_AMBIENT_CLEAR_ALL, 0, 0, 0) != 0 ||
        !set_capabilities(allowed, in_force))
        return refused(NOT_GIVEN_UP);
    return true;
}

/* The one owner of all feeds that are there; root where they have several. */
static struct stat owner_of_feeds(const struct arguments *arguments) {
    struct stat owner = {0}, each;
    for (int at = 0; at < arguments->count; at++) {
        const char *path = arguments->routes[at].to;
        if ((strcmp(path, "-") == 0 ? fstat(STDOUT_FILENO, &each) : stat(path, &each)) != 0)
            return (struct stat){0};
        if (at > 0 && each.st_uid != owner.st_uid)
            return (struct stat){0};
        owner = each;
    }
    return owner;
}

/* Becomes the owner of the feeds, where root would write what it likes. A feed of root's nobody else could open later,
 * so root stays root there. Whether that could be done. */
static bool stop_being_root(const struct arguments *arguments) {
    struct stat owner = owner_of_feeds(arguments);
    if (geteuid() != 0 || has_landlock())
        return true;
    if (owner.st_uid == 0) {
        log_line("it may write all that root may: the kernel has no Landlock, and its feeds are root's");
        return true;
    }
    return prctl(PR_SET_KEEPCAPS, 1, 0, 0, 0) == 0 && setgroups(0, NULL) == 0 &&
           setresgid(owner.st_gid, owner.st_gid, owner.st_gid) == 0 &&
           setresuid(owner.st_uid, owner.st_uid, owner.st_uid) == 0;
}

bool drop_privileges(const struct arguments *arguments) {
    return stop_being_root(arguments) ? keep_alone(TO_OPEN, 0) : refused(NOT_GIVEN_UP);
}

bool drop_privileges_but_files(void) {
    return keep_alone(TO_READ_FILES, TO_READ_FILES);
}

void begin_to_open(void) {
    if (!set_capabilities(TO_OPEN, TO_OPEN))
        refused("cap_net_raw can't be put in force");
}

void end_to_open(void) {
    if (!set_capabilities(TO_OPEN, 0))
        refused("cap_net_raw stays in force");
}
