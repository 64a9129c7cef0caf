/* Reads of messages, and polls for them. */
#include <errno.h>
#include <linux/userfaultfd.h>
#include <poll.h>
#include <stddef.h>
#include <string.h>
#include <sys/uio.h>

#include "memory.h"
#include "next.h"
#include "objects.h"
#include "recorder.h"

/* Objects of one poll(2) that are recorded; further ones are counted as lost. */
#define MOST_POLLED 8
#define POLL_CHUNK 16

int __poll_chk(struct pollfd *fds, nfds_t count, int timeout, size_t bytes);
int __ppoll_chk(struct pollfd *fds, nfds_t count, const struct timespec *timeout, const sigset_t *mask, size_t bytes);
ssize_t __read_chk(int fd, void *buffer, size_t length, size_t bytes);

static struct call begin_read(uint64_t object, int fd, uint64_t length)
{
    char bytes[LINE_BYTES];
    struct text line = text_over(bytes, sizeof bytes);

    text_word(&line, "read");
    text_descriptor(&line, object, fd);
    text_number(&line, length);
    return log_begin(&line);
}

static void put_message(struct text *line, const struct uffd_msg *message)
{
    switch (message->event) {
    case UFFD_EVENT_PAGEFAULT:
        text_word(line, "fault");
        text_hex(line, message->arg.pagefault.address);
        text_number(line, message->arg.pagefault.flags);
        text_number(line, message->arg.pagefault.feat.ptid);
        break;
    case UFFD_EVENT_FORK:
        text_word(line, "fork");
        text_descriptor(line, object_of_new((int)message->arg.fork.ufd), (int)message->arg.fork.ufd);
        break;
    case UFFD_EVENT_REMAP:
        text_word(line, "remap");
        text_hex(line, message->arg.remap.from);
        text_hex(line, message->arg.remap.to);
        text_hex(line, message->arg.remap.len);
        break;
    case UFFD_EVENT_REMOVE:
    case UFFD_EVENT_UNMAP:
        text_word(line, message->event == UFFD_EVENT_REMOVE ? "remove" : "unmap");
        text_hex(line, message->arg.remove.start);
        text_hex(line, message->arg.remove.end);
        break;
    default: /* a reader refuses it */
        text_word(line, "event");
        text_hex(line, message->event);
    }
}

static void record_message(const struct call *call, const struct uffd_msg *message)
{
    char bytes[LINE_BYTES];
    struct text line = text_over(bytes, sizeof bytes);

    if (message->event == UFFD_EVENT_FORK)
        object_introduce(object_of_new((int)message->arg.fork.ufd), (int)message->arg.fork.ufd, false);
    put_message(&line, message);
    log_of_call(call, "message", &line);
}

static void put_count(struct text *line, const void *of)
{
    const size_t *count = of;

    text_number(line, *count);
}

static void end_read(const struct call *call, ssize_t got, int error)
{
    size_t count = got < 0 ? 0 : (size_t)got / sizeof(struct uffd_msg);

    end_call(call, got < 0, error, got < 0 ? NULL : put_count, &count);
}

INTERPOSED ssize_t read(int fd, void *buffer, size_t length)
{
    uint64_t object = log_is_open() && object_is_possible(fd) ? object_for_line(fd) : 0;
    struct call call;
    ssize_t got;
    int error;

    if (!object)
        return next()->read(fd, buffer, length);
    call = begin_read(object, fd, length);
    got = next()->read(fd, buffer, length);
    error = errno;
    for (ssize_t at = 0; at + (ssize_t)sizeof(struct uffd_msg) <= got; at += (ssize_t)sizeof(struct uffd_msg)) {
        struct uffd_msg message = { 0 };

        memcpy(&message, (const char *)buffer + at, sizeof message);
        record_message(&call, &message);
    }
    end_read(&call, got, error);
    errno = error;
    return got;
}

INTERPOSED ssize_t __read_chk(int fd, void *buffer, size_t length, size_t bytes)
{
    (void)bytes; /* the C library's check is whether length is above it: the compiler knows both, and has warned */
    return read(fd, buffer, length);
}

/* Copies `bytes` of what was read into several buffers, from offset `at`. */
static void gather(void *to, const struct iovec *parts, int count, size_t at, size_t bytes)
{
    char *out = to;

    for (int i = 0; i < count && bytes; i++) {
        size_t skipped = at < parts[i].iov_len ? at : parts[i].iov_len, taken = parts[i].iov_len - skipped;

        if (taken > bytes)
            taken = bytes;
        if (taken)
            memcpy(out, (const char *)parts[i].iov_base + skipped, taken);
        out += taken;
        bytes -= taken;
        at -= skipped;
    }
}

static uint64_t length_of(const struct iovec *parts, int count)
{
    uint64_t length = 0;

    for (int i = 0; i < count; i++) {
        struct iovec part = { NULL, 0 };

        if (!memory_copy(&part, parts + i, sizeof part))
            break; /* the call is going to fail */
        length += part.iov_len;
    }
    return length;
}

INTERPOSED ssize_t readv(int fd, const struct iovec *parts, int count)
{
    uint64_t object = log_is_open() && object_is_possible(fd) ? object_for_line(fd) : 0;
    struct call call;
    ssize_t got;
    int error;

    if (!object)
        return next()->readv(fd, parts, count);
    call = begin_read(object, fd, length_of(parts, count));
    got = next()->readv(fd, parts, count);
    error = errno;
    for (ssize_t at = 0; at + (ssize_t)sizeof(struct uffd_msg) <= got; at += (ssize_t)sizeof(struct uffd_msg)) {
        struct uffd_msg message = { 0 };

        gather(&message, parts, count, (size_t)at, sizeof message);
        record_message(&call, &message);
    }
    end_read(&call, got, error);
    errno = error;
    return got;
}

/* The objects among the descriptors of a poll. */
struct polled {
    struct call calls[MOST_POLLED];
    nfds_t places[MOST_POLLED];
    int count;
};

static void begin_polled(struct polled *polled, const struct pollfd *one, nfds_t place)
{
    uint64_t object = object_is_possible(one->fd) ? object_for_line(one->fd) : 0;

    if (!object)
        return;
    if (polled->count == MOST_POLLED) {
        log_count_lost(2);
        return;
    }
    polled->places[polled->count] = place;
    polled->calls[polled->count++] = begin_of_object("poll", object, one->fd);
}

/* (`fds` is not const: gcc takes poll(2) for one that only writes there, and warns of what it hands on to be
   read) */
static void begin_poll(struct polled *polled, struct pollfd *fds, nfds_t count)
{
    struct pollfd chunk[POLL_CHUNK];

    polled->count = 0;
    if (!log_is_open() || !object_any_is_possible())
        return;
    (void)log_caller(); /* for memory_copy */
    for (nfds_t at = 0; at < count; at += POLL_CHUNK) {
        nfds_t size = count - at < POLL_CHUNK ? count - at : POLL_CHUNK;

        if (!memory_copy(chunk, fds + at, size * sizeof *fds))
            return; /* the call is going to fail */
        for (nfds_t i = 0; i < size; i++)
            begin_polled(polled, &chunk[i], at + i);
    }
}

static void put_events(struct text *line, const void *of)
{
    const struct pollfd *one = of;

    text_hex(line, (unsigned short)one->revents);
}

static void end_poll(const struct polled *polled, const struct pollfd *fds, int result, int error)
{
    for (int i = 0; i < polled->count; i++)
        end_call(&polled->calls[i], result < 0, error, result < 0 ? NULL : put_events, fds + polled->places[i]);
    errno = error;
}

INTERPOSED int poll(struct pollfd *fds, nfds_t count, int timeout)
{
    struct polled polled;
    int result, error;

    begin_poll(&polled, fds, count);
    result = next()->poll(fds, count, timeout);
    error = errno;
    end_poll(&polled, fds, result, error);
    return result;
}

INTERPOSED int ppoll(struct pollfd *fds, nfds_t count, const struct timespec *timeout, const sigset_t *mask)
{
    struct polled polled;
    int result, error;

    begin_poll(&polled, fds, count);
    result = next()->ppoll(fds, count, timeout, mask);
    error = errno;
    end_poll(&polled, fds, result, error);
    return result;
}

INTERPOSED int __poll_chk(struct pollfd *fds, nfds_t count, int timeout, size_t bytes)
{
    (void)bytes;
    return poll(fds, count, timeout);
}

INTERPOSED int __ppoll_chk(struct pollfd *fds, nfds_t count, const struct timespec *timeout, const sigset_t *mask,
                           size_t bytes)
{
    (void)bytes;
    return ppoll(fds, count, timeout, mask);
}
