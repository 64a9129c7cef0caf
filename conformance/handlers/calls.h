// The calls of a handler that conformance/handler judges, as functions with the structures of the kernel: ../README.md,
// Your own handler. In a build for the test they take the place of poll(2), read(2), ioctl(2) and send(2).
#ifndef CALLS_H
#define CALLS_H

#include <errno.h>
#include <linux/userfaultfd.h>
#include <stdarg.h>
#include <stdint.h>
#include <stdio.h>
#include <stdlib.h>
#include <string.h>
#include <sys/ioctl.h>
#include <sys/types.h>

enum ready { MESSAGE, FRAME };

static inline int value_of(char digit)
{
    return digit <= '9' ? digit - '0' : (digit | 32) - 'a' + 10;
}

// The bytes of a hexadecimal number, at most `room` of them: how many.
static inline size_t read_bytes(const char *text, void *bytes, size_t room)
{
    size_t length = 0;
    for (; text[0] > ' ' && text[1] > ' ' && length < room; text += 2)
        ((unsigned char *)bytes)[length++] = value_of(text[0]) << 4 | value_of(text[1]);
    return length;
}

static inline void print_bytes(const void *bytes, size_t length)
{
    for (size_t at = 0; at < length; at++)
        printf("%02x", ((const unsigned char *)bytes)[at]);
}

// The answer to the line that was printed. At the end of the input the program ends.
static inline const char *answer(void)
{
    static char *line;
    static size_t room;
    putchar('\n');
    fflush(stdout);
    if (getline(&line, &room, stdin) < 0) {
        free(line);
        exit(0);
    }
    return line;
}

// 0 for `ok`; for `refused ERRNO` -1, with errno.
static inline int result(void)
{
    const char *said = answer();
    char name[32] = "";
    if (sscanf(said, "refused %31s", name) != 1)
        return 0;
    for (errno = 1; errno < 200; errno++)
        if (strerrorname_np(errno) && !strcmp(strerrorname_np(errno), name))
            break;
    return -1;
}

// As read(2) of a descriptor with O_NONBLOCK.
static inline ssize_t handler_read(struct uffd_msg *message)
{
    const char *said;
    printf("read");
    said = answer();
    if (strncmp(said, "message ", 8)) {
        errno = EAGAIN;
        return -1;
    }
    return read_bytes(said + 8, message, sizeof *message);
}

// Waits for a message, or for a frame from the source.
static inline enum ready handler_next(struct uffd_msg *message, void *frame, size_t room, size_t *length)
{
    const char *said;
    printf("next");
    said = answer();
    if (!strncmp(said, "frame ", 6)) {
        *length = read_bytes(said + 6, frame, room);
        return FRAME;
    }
    read_bytes(said + 8, message, sizeof *message);
    return MESSAGE;
}

// As ioctl(2), of UFFDIO_COPY, UFFDIO_ZEROPAGE and UFFDIO_WAKE.
static inline int handler_ioctl(unsigned long request, void *argument)
{
    if (request == UFFDIO_COPY) {
        struct uffdio_copy *copy = argument;
        printf("copy 0x%llx %llu ", copy->dst, copy->mode);
        print_bytes((const void *)(uintptr_t)copy->src, copy->len);
    } else if (request == UFFDIO_ZEROPAGE) {
        struct uffdio_zeropage *zero = argument;
        printf("zeropage 0x%llx %llu %llu", zero->range.start, zero->range.len, zero->mode);
    } else if (request == UFFDIO_WAKE) {
        struct uffdio_range *range = argument;
        printf("wake 0x%llx %llu", range->start, range->len);
    } else {
        errno = EINVAL;
        return -1;
    }
    return result();
}

// As send(2) of a frame to the source.
static inline int handler_send(const void *frame, size_t length)
{
    printf("send ");
    print_bytes(frame, length);
    return result();
}

#endif
