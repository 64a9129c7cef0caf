/* Writes lines. No lock and no buffer: a line is in the kernel before the call that it is about begins. */
#include "log.h"

#include <errno.h>
#include <fcntl.h>
#include <signal.h>
#include <stdatomic.h>
#include <string.h>
#include <sys/stat.h>
#include <sys/uio.h>
#include <time.h>

#include "raw.h"
#include "shared.h"

/* The log's descriptor is moved up here, out of the way of what the program opens. */
#define LEAST_FD 900
#define KERNEL_SIGSET_BYTES 8
#define PATH_BYTES 4096

static char log_path[PATH_BYTES];
static dev_t log_device;
static ino_t log_inode;
static _Atomic int log_fd = -1;
static _Atomic bool after_part; /* the last write was short: the next one begins with a line feed */
static _Atomic uint64_t last_number;
/* Who has asked last. (In the static block of each thread, which needs no allocation.) */
static _Thread_local long last_pid __attribute__((tls_model("initial-exec")));
static _Thread_local long last_tid __attribute__((tls_model("initial-exec")));

static bool is_the_log(int fd)
{
    struct stat found = { 0 };

    return fd >= 0 && !raw_failed(raw_call(SYS_fstat, fd, (long)&found, 0, 0, 0, 0)) && found.st_ino == log_inode &&
        found.st_dev == log_device;
}

static int open_high(void)
{
    long low = raw_call(SYS_openat, AT_FDCWD, (long)log_path, O_WRONLY | O_APPEND | O_CLOEXEC, 0, 0, 0), high;

    if (raw_failed(low))
        return -1;
    high = raw_call(SYS_fcntl, low, F_DUPFD_CLOEXEC, LEAST_FD, 0, 0, 0);
    if (raw_failed(high)) /* a low limit of descriptors */
        return (int)low;
    (void)raw_call(SYS_close, low, 0, 0, 0, 0, 0); /* nothing was written by it */
    return (int)high;
}

bool log_open(const char *path)
{
    struct stat found = { 0 };
    size_t length = strlen(path);
    int fd;

    if (length >= sizeof log_path)
        return false;
    memcpy(log_path, path, length + 1);
    fd = open_high();
    if (fd < 0 || raw_failed(raw_call(SYS_fstat, fd, (long)&found, 0, 0, 0, 0)))
        return false;
    log_device = found.st_dev;
    log_inode = found.st_ino;
    atomic_store(&log_fd, fd);
    return true;
}

bool log_is_open(void)
{
    return log_path[0] && log_inode;
}

int log_number(void)
{
    return atomic_load_explicit(&log_fd, memory_order_relaxed);
}

bool log_has(int fd)
{
    return fd >= 0 && fd == log_number();
}

void log_leave(int fd)
{
    long moved;

    if (!log_has(fd))
        return;
    moved = raw_call(SYS_fcntl, fd, F_DUPFD_CLOEXEC, fd + 1, 0, 0, 0);
    if (raw_failed(moved))
        moved = raw_call(SYS_fcntl, fd, F_DUPFD_CLOEXEC, 0, 0, 0, 0);
    atomic_store(&log_fd, raw_failed(moved) ? -1 : (int)moved);
}

/* The log's descriptor: opened again where the program has closed it by a call that is not seen here, or has put
   another file there. */
static int descriptor(void)
{
    int fd = atomic_load_explicit(&log_fd, memory_order_relaxed);

    if (is_the_log(fd))
        return fd;
    fd = open_high();
    if (fd >= 0 && !is_the_log(fd)) {
        (void)raw_call(SYS_close, fd, 0, 0, 0, 0, 0);
        fd = -1;
    }
    atomic_store(&log_fd, fd);
    return fd;
}

/* Takes back the signal of a write past RLIMIT_FSIZE, which is blocked and would end the program. */
static void forget_file_limit(void)
{
    uint64_t limit = UINT64_C(1) << (SIGXFSZ - 1);
    struct timespec none = { 0, 0 };

    (void)raw_call(SYS_rt_sigtimedwait, (long)&limit, 0, (long)&none, KERNEL_SIGSET_BYTES, 0, 0);
}

/* Two parts of a line as one write. */
static bool write_line(const struct text *first, const struct text *rest)
{
    bool feed = atomic_exchange(&after_part, false);
    size_t length = feed + first->length + rest->length;
    struct iovec parts[3] = { { "\n", feed }, { first->bytes, first->length }, { rest->bytes, rest->length } };
    int fd = descriptor();
    long written;

    do
        written = fd < 0 ? -EBADF : raw_call(SYS_writev, fd, (long)parts, 3, 0, 0, 0);
    while (written == -EINTR);
    if (written == (long)length)
        return true;
    if (written == -EFBIG)
        forget_file_limit();
    atomic_store(&after_part, written > 0 ? written > feed : feed);
    return false;
}

/* `lost N`, where lines were lost before. */
static void write_lost(void)
{
    char bytes[LINE_BYTES];
    struct text line = text_over(bytes, sizeof bytes), nothing = text_over(NULL, 0);
    uint64_t lost = atomic_exchange(&shared()->lost, 0);

    if (!lost)
        return;
    text_word(&line, "lost");
    text_number(&line, lost);
    text_end(&line);
    if (!write_line(&line, &nothing))
        log_count_lost(lost);
}

void log_count_lost(uint64_t lines)
{
    atomic_fetch_add(&shared()->lost, lines);
}

static uint64_t now(void)
{
    struct timespec time = { 0, 0 };

    (void)clock_gettime(CLOCK_MONOTONIC, &time); /* cannot fail for this clock */
    return (uint64_t)time.tv_sec * 1000000000u + (uint64_t)time.tv_nsec;
}

/*
 * Writes a line; with a new number where it is none yet. Signals are blocked, since a handler that records a call would
 * put its later time and its higher number above this line.
 */
static void write_entry(struct call *call, const char *kind, bool numbered, struct text *rest)
{
    char bytes[LINE_BYTES];
    struct text first = text_over(bytes, sizeof bytes);
    uint64_t all = ~UINT64_C(0), before = 0;

    (void)raw_call(SYS_rt_sigprocmask, SIG_SETMASK, (long)&all, (long)&before, KERNEL_SIGSET_BYTES, 0, 0);
    if (numbered && !call->number)
        call->number = atomic_fetch_add(&last_number, 1) + 1;
    if (atomic_load_explicit(&shared()->lost, memory_order_relaxed))
        write_lost();
    text_number(&first, now());
    text_number(&first, (uint64_t)call->pid);
    text_number(&first, (uint64_t)call->tid);
    text_word(&first, kind);
    if (numbered)
        text_number(&first, call->number);
    if (rest->length)
        text_word(&first, "");
    text_end(rest);
    if (first.cut || rest->cut || !write_line(&first, rest))
        log_count_lost(1);
    (void)raw_call(SYS_rt_sigprocmask, SIG_SETMASK, (long)&before, 0, KERNEL_SIGSET_BYTES, 0, 0);
}

struct call log_caller(void)
{
    struct call caller = { .tid = raw_call(SYS_gettid, 0, 0, 0, 0, 0, 0) };

    /* The process of a thread never changes, and a thread that lives keeps its number: only another one asks
       again. */
    if (last_tid == caller.tid) {
        caller.pid = last_pid;
        return caller;
    }
    caller.pid = raw_call(SYS_getpid, 0, 0, 0, 0, 0, 0);
    last_pid = caller.pid; /* (first: a signal handler may come between) */
    atomic_signal_fence(memory_order_seq_cst);
    last_tid = caller.tid;
    return caller;
}

long log_last_thread(void)
{
    return last_tid ? last_tid : log_caller().tid;
}

struct call log_begin(struct text *rest)
{
    struct call call = log_caller();

    write_entry(&call, "begin", true, rest);
    return call;
}

void log_of_call(const struct call *call, const char *kind, struct text *rest)
{
    struct call same = *call;

    write_entry(&same, kind, true, rest);
}

void log_note(const char *kind, struct text *rest)
{
    struct call caller = log_caller();

    write_entry(&caller, kind, false, rest);
}
