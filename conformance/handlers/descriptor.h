// The calls of calls.h on a real descriptor, for `conformance/handler --descriptor`: standard input is a Unix socket,
// on which the userfaultfd comes first, by SCM_RIGHTS with one byte, and then the frames of the source. What is sent
// goes back on it.
#ifndef DESCRIPTOR_H
#define DESCRIPTOR_H

#include <errno.h>
#include <linux/userfaultfd.h>
#include <poll.h>
#include <stdint.h>
#include <stdio.h>
#include <stdlib.h>
#include <string.h>
#include <sys/ioctl.h>
#include <sys/socket.h>
#include <sys/types.h>
#include <unistd.h>

enum ready { MESSAGE, FRAME };

static inline int receive_descriptor(void)
{
    union {
        struct cmsghdr header;
        char room[CMSG_SPACE(sizeof(int))];
    } control = { 0 };
    char byte;
    struct iovec part = { &byte, 1 };
    struct msghdr message = {
        .msg_iov = &part, .msg_iovlen = 1, .msg_control = &control, .msg_controllen = sizeof control
    };
    int fd = -1;
    if (recvmsg(0, &message, 0) == 1 && CMSG_FIRSTHDR(&message))
        memcpy(&fd, CMSG_DATA(CMSG_FIRSTHDR(&message)), sizeof fd);
    return fd;
}

static inline int userfault(void)
{
    static int fd = -1;
    if (fd < 0 && (fd = receive_descriptor()) < 0)
        exit(1);
    return fd;
}

static inline ssize_t handler_read(struct uffd_msg *message)
{
    return read(userfault(), message, sizeof *message);
}
static inline int handler_ioctl(unsigned long request, void *argument)
{
    return ioctl(userfault(), request, argument);
}
static inline int handler_send(const void *frame, size_t length)
{
    return send(0, frame, length, MSG_NOSIGNAL) < 0 ? -1 : 0;
}

// A whole frame. Where the source has closed its end the program ends.
static inline size_t receive_frame(unsigned char *frame, size_t room)
{
    size_t length = 12, at = 0;
    while (at < length) {
        ssize_t got = recv(0, frame + at, length - at, 0);
        if (got <= 0)
            exit(got < 0);
        at += got;
        if (at == 12 && length == 12)
            length += (size_t)frame[8] << 24 | frame[9] << 16 | frame[10] << 8 | frame[11];
        if (length > room)
            exit(1);
    }
    return length;
}

// Waits for a frame from the source or a message, and takes the frame first.
static inline enum ready handler_next(struct uffd_msg *message, void *frame, size_t room, size_t *length)
{
    struct pollfd files[2] = { { userfault(), POLLIN, 0 }, { 0, POLLIN, 0 } };
    for (;;) {
        if (poll(files, 2, -1) < 0)
            exit(1);
        if (files[1].revents) {
            *length = receive_frame(frame, room);
            return FRAME;
        }
        if (handler_read(message) > 0)
            return MESSAGE;
    }
}

#endif
