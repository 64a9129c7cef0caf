/* userfaultfd(2), /proc/self/pagemap and madvise(2). */
#include "kernel.h"

#include <errno.h>
#include <fcntl.h>
#include <limits.h>
#include <malloc.h>
#include <sched.h>
#include <stdio.h>
#include <stdlib.h>
#include <string.h>
#include <sys/ioctl.h>
#include <sys/mman.h>
#include <sys/resource.h>
#include <sys/syscall.h>
#include <sys/uio.h>
#include <time.h>
#include <unistd.h>

#include "live.h"
#include "sums.h"

#define FEATURES                                                                             \
    (UFFD_FEATURE_PAGEFAULT_FLAG_WP | UFFD_FEATURE_EVENT_REMAP | UFFD_FEATURE_EVENT_REMOVE | \
     UFFD_FEATURE_EVENT_UNMAP | UFFD_FEATURE_THREAD_ID)
/* A thread without a processor cannot finish its call. The driver yields this number of times before it sleeps. */
#define YIELDS 8u
#define LEAST_NICE (-20)
/* Ranges of one process_madvise(2), which takes at most what writev(2) does. */
#define MOST_RANGES 1024u

uint64_t kernel_now(void)
{
    struct timespec time;

    clock_gettime(CLOCK_MONOTONIC, &time);
    return (uint64_t)time.tv_sec * 1000000000u + (uint64_t)time.tv_nsec;
}

uint64_t kernel_thread_time(void)
{
    struct timespec time;

    clock_gettime(CLOCK_THREAD_CPUTIME_ID, &time);
    return (uint64_t)time.tv_sec * 1000000000u + (uint64_t)time.tv_nsec;
}

static _Thread_local struct {
    bool is_allowed, is_now; /* SCHED_RR: who is yielded to runs only while this thread sleeps */
} first;

static bool set_policy(int policy, int priority)
{
    const struct sched_param parameter = { .sched_priority = priority };

    return !sched_setscheduler(0, policy | SCHED_RESET_ON_FORK, &parameter);
}

void kernel_first(bool is_first)
{
    if (!first.is_allowed || first.is_now == is_first)
        return;
    if (set_policy(is_first ? SCHED_RR : SCHED_OTHER, is_first ? sched_get_priority_min(SCHED_RR) : 0))
        first.is_now = is_first;
}

/* (alone on one processor it would leave the others nothing) */
const char *kernel_go_first(void)
{
    cpu_set_t set;

    if (!sched_getaffinity(0, sizeof set, &set) && CPU_COUNT(&set) > 1 &&
        set_policy(SCHED_RR, sched_get_priority_min(SCHED_RR))) {
        first.is_allowed = first.is_now = true;
        return "SCHED_RR while someone waits";
    }
    if (!setpriority(PRIO_PROCESS, (id_t)gettid(), LEAST_NICE))
        return "nice";
    return "none: it needs CAP_SYS_NICE, or a limit of real-time priority (RLIMIT_RTPRIO) of 1";
}

void kernel_yield(uint32_t times)
{
    const struct timespec moment = { .tv_nsec = 20000 };

    if (first.is_now || times > YIELDS)
        (void)nanosleep(&moment, NULL); /* a shorter sleep is as good */
    else
        (void)sched_yield(); /* it always succeeds */
}

/* What smaps says of the area that begins at `at`: whether the kernel would make huge pages there. */
static bool may_be_huge(const char *at)
{
    FILE *file = fopen("/proc/self/smaps", "re");
    char line[512];
    unsigned long start, end;
    bool is_here = false;
    int eligible = 0;

    if (!file)
        refuse_errno(errno, "/proc/self/smaps");
    while (fgets(line, sizeof line, file)) {
        if (sscanf(line, "%lx-%lx ", &start, &end) == 2 && strchr(line, '-') < strchr(line, ' '))
            is_here = start <= (uintptr_t)at && (uintptr_t)at < end;
        else if (is_here && sscanf(line, "THPeligible: %d", &eligible) == 1)
            break;
    }
    (void)fclose(file); /* it was only read */
    return eligible;
}

void kernel_reserve(size_t bytes)
{
    void *volatile all; /* (else a compiler may leave all of it out) */

    /* All of the heap is one piece, which is never made smaller, and no allocation is a mapping of its own.
       (Another malloc(3) than glibc's has no such settings: there this only asks whether it is there.) */
    (void)mallopt(M_MMAP_MAX, 0);
    (void)mallopt(M_TRIM_THRESHOLD, INT_MAX);
    (void)mallopt(M_ARENA_MAX, 1);
    all = malloc(bytes);
    if (!all)
        refuse("no memory: %zu bytes are needed for the node", bytes);
    free(all);
}

char *kernel_map(size_t bytes)
{
    char *at = mmap(NULL, bytes, PROT_READ | PROT_WRITE, MAP_PRIVATE | MAP_ANONYMOUS | MAP_NORESERVE, -1, 0);

    if (at == MAP_FAILED)
        refuse_errno(errno, "%zu bytes cannot be mapped", bytes);
    /* (a kernel without huge pages does not know the advice) */
    if (madvise(at, bytes, MADV_NOHUGEPAGE) && errno != EINVAL)
        refuse_errno(errno, "MADV_NOHUGEPAGE");
    if (may_be_huge(at))
        refuse("transparent huge pages are on for the guest's memory: pages move one by one. "
               "Write `madvise` or `never` to /sys/kernel/mm/transparent_hugepage/enabled");
    return at;
}

/* By the system call, by the device, or for faults in user mode alone, which needs no privilege and is enough
   here. */
static int new_userfault(void)
{
    const int flags = O_CLOEXEC | O_NONBLOCK;
    int made = (int)syscall(SYS_userfaultfd, flags), device;

    if (made >= 0)
        return made;
    device = open("/dev/userfaultfd", O_RDWR | O_CLOEXEC);
    if (device >= 0) {
        made = ioctl(device, USERFAULTFD_IOC_NEW, flags);
        (void)close(device); /* nothing was written */
    }
    return made >= 0 ? made : (int)syscall(SYS_userfaultfd, flags | UFFD_USER_MODE_ONLY);
}

int kernel_open_userfault(void)
{
    struct uffdio_api api = { .api = UFFD_API, .features = FEATURES };
    int made = new_userfault();

    if (made < 0)
        refuse_errno(
            errno,
            "there is no userfaultfd(2) for this user. `sysctl -w vm.unprivileged_userfaultfd=1` opens it for all, "
            "else root is needed");
    if (ioctl(made, UFFDIO_API, &api))
        refuse_errno(errno,
                     "this kernel lacks some of the features of userfaultfd(2) that are needed, 0x%llx; Linux 5.7 or "
                     "later has them",
                     (unsigned long long)FEATURES);
    return made;
}

static struct uffdio_range range_of(const char *at, size_t bytes)
{
    return (struct uffdio_range){ .start = (uintptr_t)at, .len = bytes };
}

/* Returns 0 or an errno. Where memory was lacking nothing was done, and it is tried again. */
static int call_userfault(int userfault, unsigned long request, const char *name, void *argument)
{
    while (ioctl(userfault, request, argument)) {
        if (errno != ENOMEM)
            return errno;
        lack(ENOMEM, "%s", name);
    }
    return 0;
}

void kernel_register(int userfault, char *at, size_t bytes, bool with_protection)
{
    uint64_t modes = UFFDIO_REGISTER_MODE_MISSING | (with_protection ? UFFDIO_REGISTER_MODE_WP : 0);
    struct uffdio_register call = { .range = range_of(at, bytes), .mode = modes };
    uint64_t needed = 1ull << _UFFDIO_WAKE | 1ull << _UFFDIO_COPY | 1ull << _UFFDIO_ZEROPAGE;
    int error = call_userfault(userfault, UFFDIO_REGISTER, "UFFDIO_REGISTER", &call);

    if (with_protection)
        needed |= 1ull << _UFFDIO_WRITEPROTECT;
    if (error)
        refuse_errno(error, "UFFDIO_REGISTER of the guest's memory");
    if ((call.ioctls & needed) != needed)
        refuse("UFFDIO_REGISTER allows the calls 0x%llx, and 0x%llx are needed", (unsigned long long)call.ioctls,
               (unsigned long long)needed);
}

void kernel_unregister(int userfault, char *at, size_t bytes)
{
    struct uffdio_range range = range_of(at, bytes);

    if (ioctl(userfault, UFFDIO_UNREGISTER, &range))
        refuse_errno(errno, "UFFDIO_UNREGISTER of the guest's memory");
    /* (The kernel wakes before it clears the range, and no one at a protected page: who faults in between would
       sleep for ever.) */
    if (ioctl(userfault, UFFDIO_WAKE, &range))
        refuse_errno(errno, "UFFDIO_WAKE of the guest's memory");
}

int kernel_copy_pages(int userfault, char *to, const void *from, size_t pages, size_t *installed)
{
    struct uffdio_copy call = { .dst = (uintptr_t)to, .src = (uintptr_t)from, .len = pages * PAGE_BYTES };
    int error = call_userfault(userfault, UFFDIO_COPY, "UFFDIO_COPY", &call);

    *installed = call.copy > 0 ? (size_t)call.copy / PAGE_BYTES : 0; /* else it is an errno, or was not written */
    sums_installed(to, from, *installed);
    return error;
}

static int install_zeros(int userfault, char *to, uint64_t mode)
{
    struct uffdio_zeropage call = { .range = range_of(to, PAGE_BYTES), .mode = mode };

    return call_userfault(userfault, UFFDIO_ZEROPAGE, "UFFDIO_ZEROPAGE", &call);
}

int kernel_copy(int userfault, char *to, const void *from)
{
    size_t installed;
    int error;

    if (from)
        return kernel_copy_pages(userfault, to, from, 1, &installed);
    error = install_zeros(userfault, to, 0);
    if (!error)
        sums_installed(to, NULL, 1);
    return error;
}

int kernel_zero(int userfault, char *to)
{
    return install_zeros(userfault, to, 0);
}

int kernel_zero_asleep(int userfault, char *to)
{
    return install_zeros(userfault, to, UFFDIO_ZEROPAGE_MODE_DONTWAKE);
}

int kernel_unprotect(int userfault, char *at, size_t bytes)
{
    struct uffdio_writeprotect call = { .range = range_of(at, bytes) };

    return call_userfault(userfault, UFFDIO_WRITEPROTECT, "UFFDIO_WRITEPROTECT", &call);
}

int kernel_protect(int userfault, char *at, size_t bytes)
{
    struct uffdio_writeprotect call = { .range = range_of(at, bytes), .mode = UFFDIO_WRITEPROTECT_MODE_WP };

    return call_userfault(userfault, UFFDIO_WRITEPROTECT, "UFFDIO_WRITEPROTECT", &call);
}

int kernel_wake(int userfault, char *at)
{
    struct uffdio_range range = range_of(at, PAGE_BYTES);

    return call_userfault(userfault, UFFDIO_WAKE, "UFFDIO_WAKE", &range);
}

/* (a fault of the kernel's own, on behalf of the process, does not wait for a userfaultfd: the call fails) */
bool kernel_peek(const char *at, size_t bytes, void *to)
{
    static _Thread_local int file = -1;
    size_t done = 0;

    if (file < 0 && (file = open("/proc/self/mem", O_RDONLY | O_CLOEXEC)) < 0)
        refuse_errno(errno, "/proc/self/mem");
    while (done < bytes) {
        ssize_t got = pread(file, (char *)to + done, bytes - done, (off_t)((uintptr_t)at + done));

        if (got <= 0)
            return false;
        done += (size_t)got;
    }
    return true;
}

size_t kernel_read(int userfault, struct uffd_msg *messages, size_t most)
{
    ssize_t length = read(userfault, messages, most * sizeof *messages);

    if (length < 0 && errno == EAGAIN)
        return 0;
    if (length <= 0 || (size_t)length % sizeof *messages)
        refuse_errno(length < 0 ? errno : EIO, "the userfaultfd cannot be read");
    return (size_t)length / sizeof *messages;
}

void kernel_pagemap(const char *at, size_t pages, uint64_t *entries)
{
    static _Thread_local int file = -1;
    size_t length = pages * sizeof *entries, done = 0;

    if (file < 0 && (file = open("/proc/self/pagemap", O_RDONLY | O_CLOEXEC)) < 0)
        refuse_errno(errno, "/proc/self/pagemap");
    while (done < length) {
        off_t offset = (off_t)((uintptr_t)at / PAGE_BYTES * sizeof *entries + done);
        ssize_t got = pread(file, (char *)entries + done, length - done, offset);

        if (got <= 0)
            refuse_errno(got < 0 ? errno : EIO, "/proc/self/pagemap cannot be read");
        done += (size_t)got;
    }
}

/* This process, for process_madvise(2); -1 where the kernel has no such thing. */
static int self(void)
{
    static _Thread_local int pidfd = -2;

    if (pidfd == -2)
        pidfd = (int)syscall(SYS_pidfd_open, getpid(), 0);
    return pidfd;
}

/* By one call. False where the kernel does not do so: before 6.13 it does not take this advice. */
static bool give_back_at_once(const struct kernel_range *ranges, size_t count)
{
    struct iovec parts[MOST_RANGES];
    size_t bytes = 0;

    for (size_t i = 0; i < count; i++) {
        parts[i] = (struct iovec){ ranges[i].at, ranges[i].bytes };
        bytes += ranges[i].bytes;
    }
    return self() >= 0 && syscall(SYS_process_madvise, self(), parts, count, MADV_DONTNEED, 0) == (long)bytes;
}

void kernel_give_back(const struct kernel_range *ranges, size_t count)
{
    for (size_t at = 0; at < count; at += MOST_RANGES) {
        size_t few = count - at < MOST_RANGES ? count - at : MOST_RANGES;

        if (give_back_at_once(ranges + at, few))
            continue;
        for (size_t i = at; i < at + few; i++)
            if (madvise(ranges[i].at, ranges[i].bytes, MADV_DONTNEED))
                refuse_errno(errno, "MADV_DONTNEED");
    }
}
