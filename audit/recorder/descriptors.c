/* Calls that make, pass and close descriptors. */
#include <errno.h>
#include <fcntl.h>
#include <limits.h>
#include <stdarg.h>
#include <stddef.h>
#include <string.h>
#include <sys/socket.h>
#include <unistd.h>

#include "memory.h"
#include "next.h"
#include "objects.h"
#include "recorder.h"

int fcntl64(int fd, int command, ...);

/* The object of a descriptor that a call is about to use, 0 where nothing is to be recorded. */
static uint64_t object_of(int fd)
{
    return log_is_open() && object_is_possible(fd) ? object_for_line(fd) : 0;
}

/* The log's own descriptor is none of the program's. */
static int refuse_log(void)
{
    errno = EBADF;
    return -1;
}

INTERPOSED int close(int fd)
{
    uint64_t object = object_of(fd);
    struct call call;
    int result, error;

    if (log_has(fd))
        return refuse_log();
    if (!object)
        return next()->close(fd);
    call = begin_of_object("close", object, fd);
    result = next()->close(fd);
    error = errno;
    object_forget(object, fd);
    end_plain(&call, result < 0, error);
    errno = error;
    return result;
}

/* Closes a range in which the log is not. */
static int close_others(unsigned first, unsigned last, int flags)
{
    return first > last ? 0 : next()->close_range(first, last, flags);
}

static int close_around_log(unsigned first, unsigned last, int flags)
{
    unsigned fd = (unsigned)log_number();

    if (fd > INT_MAX || fd < first || fd > last)
        return next()->close_range(first, last, flags);
    if (fd > first && close_others(first, fd - 1, flags) < 0)
        return -1;
    return close_others(fd + 1, last, flags);
}

/* Objects of the range are closed one by one, so that each has its lines; then what is left. */
INTERPOSED int close_range(unsigned first, unsigned last, int flags)
{
    if (log_is_open() && first <= last && !flags)
        for (unsigned fd = first; fd <= last && (long)fd <= object_highest(); fd++)
            if (object_is_possible((int)fd))
                (void)close((int)fd); /* (as close_range, which reports no error of a file) */
    return log_is_open() && first <= last ? close_around_log(first, last, flags)
                                          : next()->close_range(first, last, flags);
}

INTERPOSED void closefrom(int low)
{
    int error = errno;

    /* as the C library's, it has no one to report to */
    (void)close_range(low < 0 ? 0 : (unsigned)low, UINT_MAX, 0);
    errno = error;
}

/* The calls that copy a descriptor. */
static struct call begin_dup(uint64_t object, int fd, int target)
{
    char bytes[LINE_BYTES];
    struct text line = text_over(bytes, sizeof bytes);

    text_word(&line, "dup");
    text_descriptor(&line, object, fd);
    if (target < 0)
        text_word(&line, "-");
    else
        text_number(&line, (unsigned)target);
    return log_begin(&line);
}

static void put_fd(struct text *line, const void *of)
{
    const int *fd = of;

    text_number(line, (unsigned)*fd);
}

static int end_dup(const struct call *call, uint64_t object, int fd, int copy)
{
    int error = errno;

    if (copy >= 0 && copy != fd)
        object_introduce(object, copy, object_is_own(object, fd));
    end_call(call, copy < 0, error, copy < 0 ? NULL : put_fd, &copy);
    errno = error;
    return copy;
}

INTERPOSED int dup(int fd)
{
    uint64_t object = object_of(fd);
    struct call call;

    if (log_has(fd))
        return refuse_log();
    if (!object)
        return next()->dup(fd);
    call = begin_dup(object, fd, -1);
    return end_dup(&call, object, fd, next()->dup(fd));
}

static int copy_to(int fd, int target, int flags, bool is_dup3)
{
    return is_dup3 ? next()->dup3(fd, target, flags) : next()->dup2(fd, target);
}

/* Another file takes the number of an object, which closes it. */
static int copy_over(uint64_t closed, int fd, int target, int flags, bool is_dup3)
{
    struct call call = begin_of_object("close", closed, target);
    int result = copy_to(fd, target, flags, is_dup3), error = errno;

    if (result >= 0)
        object_forget(closed, target);
    end_plain(&call, result < 0, error);
    if (result < 0) /* nothing was closed, which the language cannot say of a close */
        object_found(closed, target);
    errno = error;
    return result;
}

static int copy_descriptor(int fd, int target, int flags, bool is_dup3)
{
    uint64_t object = object_of(fd), closed;
    struct call call;

    if (log_has(fd))
        return refuse_log();
    log_leave(target);
    if (object && fd != target) {
        call = begin_dup(object, fd, target);
        return end_dup(&call, object, fd, copy_to(fd, target, flags, is_dup3));
    }
    closed = fd == target ? 0 : object_of(target);
    return closed ? copy_over(closed, fd, target, flags, is_dup3) : copy_to(fd, target, flags, is_dup3);
}

INTERPOSED int dup2(int fd, int target)
{
    return copy_descriptor(fd, target, 0, false);
}

INTERPOSED int dup3(int fd, int target, int flags)
{
    return copy_descriptor(fd, target, flags, true);
}

static int recorded_nonblock(uint64_t object, int fd, long flags)
{
    char bytes[LINE_BYTES];
    struct text line = text_over(bytes, sizeof bytes);
    struct call call;
    int result, error;

    text_word(&line, "nonblock");
    text_descriptor(&line, object, fd);
    text_number(&line, (flags & O_NONBLOCK) != 0);
    call = log_begin(&line);
    result = next()->fcntl(fd, F_SETFL, flags);
    error = errno;
    end_plain(&call, result < 0, error);
    errno = error;
    return result;
}

static int recorded_fcntl(int fd, int command, long argument)
{
    bool copies = command == F_DUPFD || command == F_DUPFD_CLOEXEC;
    uint64_t object = copies || command == F_SETFL ? object_of(fd) : 0;
    struct call call;

    if (log_has(fd))
        return refuse_log();
    if (!object)
        return next()->fcntl(fd, command, argument);
    if (!copies)
        return recorded_nonblock(object, fd, argument);
    call = begin_dup(object, fd, -1);
    return end_dup(&call, object, fd, next()->fcntl(fd, command, argument));
}

INTERPOSED int fcntl(int fd, int command, ...)
{
    va_list arguments;
    long argument;

    va_start(arguments, command);
    argument = va_arg(arguments, long);
    va_end(arguments);
    return recorded_fcntl(fd, command, argument);
}

INTERPOSED int fcntl64(int fd, int command, ...)
{
    va_list arguments;
    long argument;

    va_start(arguments, command);
    argument = va_arg(arguments, long);
    va_end(arguments);
    return recorded_fcntl(fd, command, argument);
}

/* A handler gets the object of another process by a socket. */
INTERPOSED ssize_t recvmsg(int fd, struct msghdr *message, int flags)
{
    ssize_t got = next()->recvmsg(fd, message, flags);
    int error = errno;

    if (got < 0 || !log_is_open() || !message->msg_control)
        return got;
    for (struct cmsghdr *part = CMSG_FIRSTHDR(message); part; part = CMSG_NXTHDR(message, part)) {
        size_t bytes = part->cmsg_len - CMSG_LEN(0);

        if (part->cmsg_level != SOL_SOCKET || part->cmsg_type != SCM_RIGHTS || part->cmsg_len < CMSG_LEN(0))
            continue;
        for (size_t at = 0; at + sizeof(int) <= bytes; at += sizeof(int)) {
            int received;

            memcpy(&received, CMSG_DATA(part) + at, sizeof received);
            object_discover(received);
        }
    }
    errno = error;
    return got;
}
