/* Descriptors and their objects. */
#include "objects.h"

#include <dirent.h>
#include <fcntl.h>
#include <stdatomic.h>
#include <stddef.h>
#include <string.h>
#include <sys/stat.h>
#include <unistd.h>

#include "raw.h"

/* the kernel's own limit, unless fs.nr_open was raised: descriptors above it are not recorded */
#define MOST_FDS (1 << 20)
#define OWN (UINT64_C(1) << 63)

/*
 * What the log knows of each descriptor of the process `owner`: the object, and OWN where the process has made it.
 * (Pages of this table that are never used cost nothing.)
 */
static _Atomic uint64_t known[MOST_FDS];
static _Atomic int highest = -1;
static _Atomic long owner;
static _Atomic uint64_t device; /* of the file system that all objects are in, once one was met */

/* The number of the inode of an object, 0 where a descriptor is no file of that file system. */
static uint64_t inode_of(int fd)
{
    struct stat found = { 0 };

    if (raw_failed(raw_call(SYS_fstat, fd, (long)&found, 0, 0, 0, 0)) || found.st_dev != atomic_load(&device))
        return 0;
    return found.st_ino;
}

static bool is_owner(void)
{
    return log_caller().pid == atomic_load_explicit(&owner, memory_order_relaxed);
}

static void note(const char *kind, uint64_t object, int fd)
{
    char bytes[LINE_BYTES];
    struct text line = text_over(bytes, sizeof bytes);

    text_descriptor(&line, object, fd);
    log_note(kind, &line);
}

uint64_t object_of_new(int fd)
{
    struct stat found = { 0 };

    if (raw_failed(raw_call(SYS_fstat, fd, (long)&found, 0, 0, 0, 0)))
        return 0;
    atomic_store(&device, found.st_dev);
    return found.st_ino;
}

uint64_t object_identify(int fd)
{
    static const char wanted[] = "anon_inode:[userfaultfd]", folder[] = "/proc/self/fd/";
    char bytes[sizeof folder + 20], link[sizeof wanted];
    struct text path = text_over(bytes, sizeof bytes - 1);
    struct text number;
    long length;

    if (fd < 0)
        return 0;
    text_word(&path, folder);
    number = text_over(bytes + path.length, sizeof bytes - 1 - path.length);
    text_number(&number, (unsigned)fd);
    bytes[path.length + number.length] = '\0';
    length = raw_call(SYS_readlinkat, AT_FDCWD, (long)bytes, (long)link, sizeof link, 0, 0);
    if (length != sizeof wanted - 1 || memcmp(link, wanted, sizeof wanted - 1) != 0)
        return 0;
    return object_of_new(fd);
}

bool object_is_possible(int fd)
{
    return fd >= 0 && fd < MOST_FDS && atomic_load_explicit(&known[fd], memory_order_relaxed);
}

bool object_any_is_possible(void)
{
    return object_highest() >= 0;
}

int object_highest(void)
{
    return atomic_load_explicit(&highest, memory_order_relaxed);
}

void object_introduce(uint64_t object, int fd, bool own)
{
    int top = atomic_load(&highest);
    uint64_t held;

    if (fd < 0 || fd >= MOST_FDS)
        return;
    held = atomic_exchange(&known[fd], object | (own ? OWN : 0)) & ~OWN;
    if (held && held != object && is_owner()) /* it was closed by a call that is not seen here, or its close has yet to
                                                 write its end */
        note("dropped", held, fd);
    while (top < fd && !atomic_compare_exchange_weak(&highest, &top, fd))
        ;
}

void object_forget(uint64_t object, int fd)
{
    uint64_t held = object, held_own = object | OWN;

    /* A thread of vfork(2) closes its own copy: the process whose memory it shares keeps its descriptor. */
    if (!object_is_possible(fd) || !is_owner())
        return;
    if (!atomic_compare_exchange_strong(&known[fd], &held, 0))
        (void)atomic_compare_exchange_strong(&known[fd], &held_own, 0); /* another thread has put a new one there */
}

bool object_is_own(uint64_t object, int fd)
{
    return fd >= 0 && fd < MOST_FDS && atomic_load(&known[fd]) == (object | OWN) && is_owner();
}

void object_found(uint64_t object, int fd)
{
    note("found", object, fd);
}

/* The descriptor is another file than the log knows. */
static void drop(uint64_t object, int fd)
{
    note("dropped", object, fd);
    object_forget(object, fd);
}

uint64_t object_for_line(int fd)
{
    uint64_t held, object;

    if (fd < 0 || fd >= MOST_FDS)
        return 0;
    held = atomic_load(&known[fd]) & ~OWN;
    if (held && is_owner()) {
        if (inode_of(fd) == held)
            return held;
        drop(held, fd);
        held = 0;
    }
    object = object_identify(fd);
    if (!object)
        return 0;
    note("found", object, fd);
    if (!held)
        object_introduce(object, fd, false);
    return object;
}

void object_discover(int fd)
{
    if (!object_is_possible(fd))
        (void)object_for_line(fd); /* for its `found` */
}

void objects_of_borrowed_memory(void)
{
    if (is_owner())
        return;
    for (int fd = 0; fd <= object_highest(); fd++) {
        uint64_t held = atomic_load_explicit(&known[fd], memory_order_relaxed);

        if (held & OWN && inode_of(fd) == (held & ~OWN))
            note("found", held & ~OWN, fd);
    }
}

void objects_after_fork(void)
{
    atomic_store(&owner, raw_call(SYS_getpid, 0, 0, 0, 0, 0, 0));
    for (int fd = 0; fd <= object_highest(); fd++) {
        uint64_t held = atomic_load_explicit(&known[fd], memory_order_relaxed) & ~OWN;

        if (!held)
            continue;
        /* The memory of the object is the parent's. */
        atomic_store(&known[fd], inode_of(fd) == held ? held : 0);
        if (object_is_possible(fd))
            note("found", held, fd);
    }
}

void objects_after_exec(void)
{
    DIR *folder = opendir("/proc/self/fd");
    struct dirent *entry;

    atomic_store(&owner, raw_call(SYS_getpid, 0, 0, 0, 0, 0, 0));
    if (!folder) /* without /proc they are found at their first ioctl, or never */
        return;
    while ((entry = readdir(folder))) {
        int fd = 0;

        for (const char *at = entry->d_name; *at >= '0' && *at <= '9' && fd < MOST_FDS; at++)
            fd = fd * 10 + (*at - '0');
        if (entry->d_name[0] != '.')
            object_discover(fd);
    }
    (void)closedir(folder); /* nothing was written by it */
}
