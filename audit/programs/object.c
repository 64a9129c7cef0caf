#include "object.h"

#include <errno.h>
#include <fcntl.h>
#include <poll.h>
#include <string.h>
#include <sys/ioctl.h>
#include <sys/socket.h>
#include <sys/syscall.h>
#include <unistd.h>

#include "common.h"

int object_open(uint64_t features)
{
    struct uffdio_api api = { .api = UFFD_API, .features = features };
    int object = (int)syscall(SYS_userfaultfd, O_CLOEXEC | O_NONBLOCK);

    if (object < 0)
        cannot("userfaultfd");
    if (asks_for_threads())
        api.features |= UFFD_FEATURE_THREAD_ID;
    if (ioctl(object, UFFDIO_API, &api))
        cannot("a feature of userfaultfd");
    return object;
}

void object_close(int object)
{
    if (close(object))
        fail("close of the object");
}

void object_register(int object, const void *start, size_t length, uint64_t mode)
{
    struct uffdio_register call = { .range = { address(start), length }, .mode = mode };

    if (ioctl(object, UFFDIO_REGISTER, &call))
        fail("UFFDIO_REGISTER");
}

void object_unregister(int object, const void *start, size_t length)
{
    struct uffdio_range call = { address(start), length };

    if (ioctl(object, UFFDIO_UNREGISTER, &call))
        fail("UFFDIO_UNREGISTER");
}

void object_wake(int object, uint64_t start, size_t length)
{
    struct uffdio_range call = { start, length };

    if (ioctl(object, UFFDIO_WAKE, &call))
        fail("UFFDIO_WAKE");
}

bool object_unprotect(int object, uint64_t start, size_t length)
{
    struct uffdio_writeprotect call = { { start, length }, 0 };

    if (!ioctl(object, UFFDIO_WRITEPROTECT, &call))
        return true;
    if (errno != EAGAIN)
        fail("UFFDIO_WRITEPROTECT");
    return false;
}

void object_protect(int object, const void *start, size_t length)
{
    struct uffdio_writeprotect call = { { address(start), length }, UFFDIO_WRITEPROTECT_MODE_WP };

    while (ioctl(object, UFFDIO_WRITEPROTECT, &call))
        if (errno != EAGAIN)
            fail("UFFDIO_WRITEPROTECT");
}

enum put put_of(int object, uint64_t page, int result)
{
    if (!result)
        return PUT;
    switch (errno) {
    case EEXIST:
        object_wake(object, page, PAGE);
        return THERE;
    case EAGAIN:
        return AGAIN;
    case ENOENT:
    case ESRCH:
        return GONE;
    default:
        fail("a page at 0x%llx", (unsigned long long)page);
    }
}

enum put put_copy(int object, uint64_t page, const void *from)
{
    struct uffdio_copy call = { .dst = page, .src = address(from), .len = PAGE };

    return put_of(object, page, ioctl(object, UFFDIO_COPY, &call));
}

enum put put_zeros(int object, uint64_t page)
{
    struct uffdio_zeropage call = { .range = { page, PAGE } };

    return put_of(object, page, ioctl(object, UFFDIO_ZEROPAGE, &call));
}

size_t object_read(int object, struct uffd_msg *messages, size_t room)
{
    ssize_t got = read(object, messages, room * sizeof *messages);

    if (got < 0 && errno != EAGAIN && errno != EINTR)
        fail("read of the object");
    return got < 0 ? 0 : (size_t)got / sizeof *messages;
}

uint64_t page_of(const struct uffd_msg *message)
{
    return message->arg.pagefault.address & ~(uint64_t)(PAGE - 1);
}

struct ready object_poll(int object, int other, int wait)
{
    struct pollfd fds[2] = { { object, POLLIN, 0 }, { other, POLLIN, 0 } };

    while (poll(fds, 2, wait) < 0)
        if (errno != EINTR)
            fail("poll");
    if (fds[0].revents & (POLLERR | POLLNVAL))
        fail("poll: 0x%x", (unsigned)fds[0].revents);
    return (struct ready){ fds[0].revents & POLLIN, fds[1].revents != 0 };
}

union control {
    struct cmsghdr head;
    char bytes[CMSG_SPACE(sizeof(int))];
};

void send_object(int socket, int object, const void *with, size_t bytes)
{
    union control control = { .bytes = { 0 } };
    struct iovec part = { (void *)with, bytes };
    struct msghdr message = {
        .msg_iov = &part, .msg_iovlen = 1, .msg_control = control.bytes, .msg_controllen = sizeof control.bytes
    };

    control.head =
        (struct cmsghdr){ .cmsg_len = CMSG_LEN(sizeof object), .cmsg_level = SOL_SOCKET, .cmsg_type = SCM_RIGHTS };
    memcpy(CMSG_DATA(&control.head), &object, sizeof object);
    if (sendmsg(socket, &message, 0) != (ssize_t)bytes)
        fail("sendmsg");
}

int receive_object(int socket, void *with, size_t bytes)
{
    union control control = { .bytes = { 0 } };
    struct iovec part = { with, bytes };
    struct msghdr message = {
        .msg_iov = &part, .msg_iovlen = 1, .msg_control = control.bytes, .msg_controllen = sizeof control.bytes
    };
    struct cmsghdr *head;
    int object;

    if (recvmsg(socket, &message, MSG_CMSG_CLOEXEC) != (ssize_t)bytes)
        fail("recvmsg");
    head = CMSG_FIRSTHDR(&message);
    if (!head || head->cmsg_type != SCM_RIGHTS)
        fail("no descriptor came");
    memcpy(&object, CMSG_DATA(head), sizeof object);
    return object;
}
