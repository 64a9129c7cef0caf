/*
 * Makes one UFFDIO_COPY of a program wrong, as a bug of the program itself would: preloaded above the recorder, which
 * sees what is left.
 *
 *     WRONG_COPY=KIND:N LD_PRELOAD=wrong.so:recorder.so PROGRAM ..
 *
 * The copy is the first one of the fault that was read last, once N copies were made. KIND: `skip` says ok and does
 * nothing, `dontwake` asks for no wake, `twice` makes the call twice and has the second one's result.
 */
#include <dlfcn.h>
#include <errno.h>
#include <linux/userfaultfd.h>
#include <stdarg.h>
#include <stdatomic.h>
#include <stdbool.h>
#include <stdint.h>
#include <stdio.h>
#include <stdlib.h>
#include <string.h>
#include <sys/ioctl.h>
#include <unistd.h>

#define SEEN __attribute__((visibility("default")))
#define PAGE 4096u

typedef int ioctl_call(int, unsigned long, ...);
typedef ssize_t read_call(int, void *, size_t);

static ioctl_call *next_ioctl;
static read_call *next_read;
static char kind[16];
static long first; /* how many copies are left alone; -1 where none is made wrong */
static _Atomic long copies;
static _Atomic int object = -1;
static _Atomic uint64_t asked = UINT64_MAX; /* the page of the fault that was read last */
static atomic_bool is_done;

__attribute__((constructor)) static void set_up(void)
{
    const char *wanted = getenv("WRONG_COPY");

    *(void **)&next_ioctl = dlsym(RTLD_NEXT, "ioctl");
    *(void **)&next_read = dlsym(RTLD_NEXT, "read");
    if (!wanted || sscanf(wanted, "%15[a-z]:%ld", kind, &first) != 2)
        first = -1;
}

/* Whether this is the copy. */
static bool is_chosen(int fd, const struct uffdio_copy *copy)
{
    bool expected = false;

    return first >= 0 && fd == atomic_load(&object) && atomic_fetch_add(&copies, 1) >= first &&
        copy->dst == atomic_load(&asked) && atomic_compare_exchange_strong(&is_done, &expected, true);
}

static int wrong_copy(int fd, struct uffdio_copy *copy)
{
    int error = errno;

    fprintf(stderr, "wrong: %s of 0x%llx\n", kind, copy->dst);
    errno = error;
    if (!strcmp(kind, "skip")) {
        copy->copy = (int64_t)copy->len;
        return 0;
    }
    if (!strcmp(kind, "dontwake"))
        copy->mode |= UFFDIO_COPY_MODE_DONTWAKE;
    else if (next_ioctl(fd, UFFDIO_COPY, copy))
        return -1;
    return next_ioctl(fd, UFFDIO_COPY, copy);
}

SEEN int ioctl(int fd, unsigned long request, ...)
{
    va_list rest;
    void *argument;

    va_start(rest, request);
    argument = va_arg(rest, void *);
    va_end(rest);
    if (request == UFFDIO_API)
        atomic_store(&object, fd);
    if (request == UFFDIO_COPY && is_chosen(fd, argument))
        return wrong_copy(fd, argument);
    return next_ioctl(fd, request, argument);
}

SEEN ssize_t read(int fd, void *buffer, size_t length)
{
    ssize_t got = next_read(fd, buffer, length);
    struct uffd_msg message;

    if (fd != atomic_load(&object) || got < (ssize_t)sizeof message)
        return got;
    memcpy(&message, buffer, sizeof message);
    if (message.event == UFFD_EVENT_PAGEFAULT)
        atomic_store(&asked, message.arg.pagefault.address & ~(uint64_t)(PAGE - 1));
    return got;
}
