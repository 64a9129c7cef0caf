/* syscall(2), for the calls that are recorded. The others continue as they are. */
#include <errno.h>
#include <fcntl.h>
#include <poll.h>
#include <stdarg.h>
#include <stddef.h>
#include <sys/ioctl.h>
#include <sys/mman.h>
#include <sys/socket.h>
#include <sys/uio.h>
#include <unistd.h>

#include "next.h"
#include "objects.h"
#include "raw.h"
#include "recorder.h"

#define MOST_ARGUMENTS 6

int close_range(unsigned first, unsigned last, int flags);

static long received(int fd)
{
    int error = errno;

    if (fd >= 0)
        object_discover(fd);
    errno = error;
    return fd;
}

static long pass(long number, const long *a)
{
    return next()->syscall(number, a[0], a[1], a[2], a[3], a[4], a[5]);
}

static long map_call(long number, const long *a)
{
    switch (number) {
    case SYS_mmap:
        return (long)mmap((void *)a[0], (size_t)a[1], (int)a[2], (int)a[3], (int)a[4], a[5]);
    case SYS_munmap:
        return munmap((void *)a[0], (size_t)a[1]);
    case SYS_mremap:
        return (long)mremap((void *)a[0], (size_t)a[1], (size_t)a[2], (int)a[3], (void *)a[4]);
    case SYS_madvise:
        return madvise((void *)a[0], (size_t)a[1], (int)a[2]);
    default:
        return pass(number, a);
    }
}

static long descriptor_call(long number, const long *a)
{
    switch (number) {
    case SYS_close:
        return close((int)a[0]);
    case SYS_close_range:
        return close_range((unsigned)a[0], (unsigned)a[1], (int)a[2]);
    case SYS_dup:
        return dup((int)a[0]);
#ifdef SYS_dup2
    case SYS_dup2:
        return dup2((int)a[0], (int)a[1]);
#endif
    case SYS_dup3:
        return dup3((int)a[0], (int)a[1], (int)a[2]);
    case SYS_fcntl:
        return fcntl((int)a[0], (int)a[1], a[2]);
    case SYS_recvmsg:
        return recvmsg((int)a[0], (struct msghdr *)a[1], (int)a[2]);
    case SYS_pidfd_getfd:
        return received((int)pass(number, a));
    default:
        return map_call(number, a);
    }
}

INTERPOSED long syscall(long number, ...)
{
    long a[MOST_ARGUMENTS];
    va_list arguments;

    /* A call with fewer arguments has what was in these registers: so it is in the C library's own function. */
    va_start(arguments, number);
    for (int i = 0; i < MOST_ARGUMENTS; i++)
        a[i] = va_arg(arguments, long);
    va_end(arguments);
    if (!log_is_open())
        return pass(number, a);
    switch (number) {
    case SYS_userfaultfd:
        return recorded_open(-1, (unsigned long)a[0]);
    case SYS_ioctl:
        return ioctl((int)a[0], (unsigned long)a[1], a[2]);
    case SYS_read:
        return read((int)a[0], (void *)a[1], (size_t)a[2]);
    case SYS_readv:
        return readv((int)a[0], (const struct iovec *)a[1], (int)a[2]);
#ifdef SYS_poll
    case SYS_poll:
        return poll((struct pollfd *)a[0], (nfds_t)a[1], (int)a[2]);
#endif
    default:
        return descriptor_call(number, a);
    }
}
