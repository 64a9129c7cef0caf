/* userfaultfd(2) and the ioctls of an object: ioctl_userfaultfd(2). */
#include <errno.h>
#include <linux/userfaultfd.h>
#include <stdarg.h>
#include <stddef.h>
#include <string.h>
#include <sys/ioctl.h>
#include <sys/mman.h>

#include "memory.h"
#include "next.h"
#include "objects.h"
#include "raw.h"
#include "recorder.h"
#include "shared.h"

#define MOST_NUMBERS 5
#define REQUEST_TYPE(request) (((request) >> _IOC_TYPESHIFT) & _IOC_TYPEMASK)

/* Of newer kernels than the headers that this may be compiled with. */
#ifndef UFFDIO_POISON
#define UFFDIO_POISON _IOWR(UFFDIO, 0x08, uint64_t[4])
#endif
#ifndef UFFDIO_MOVE
#define UFFDIO_MOVE _IOWR(UFFDIO, 0x05, uint64_t[5])
#endif

/* Each structure is 64-bit numbers alone: first what the call is given, and then, from `answer` on, what the kernel
   returns. */
struct kind {
    unsigned long request;
    const char *word;
    unsigned given, answer, answers;
    bool counts; /* the answer is a number of bytes or minus an errno, and is there after an errno too */
};

static const struct kind kinds[] = {
    { UFFDIO_API, "api", 2, 1, 2, false },
    { UFFDIO_REGISTER, "register", 3, 3, 1, false },
    { UFFDIO_UNREGISTER, "unregister", 2, 2, 0, false },
    { UFFDIO_WAKE, "wake", 2, 2, 0, false },
    { UFFDIO_COPY, "copy", 4, 4, 1, true },
    { UFFDIO_ZEROPAGE, "zeropage", 3, 3, 1, true },
    { UFFDIO_WRITEPROTECT, "writeprotect", 3, 3, 0, false },
    { UFFDIO_CONTINUE, "continue", 3, 3, 1, true },
    { UFFDIO_POISON, "poison", 3, 3, 1, true },
    { UFFDIO_MOVE, "move", 4, 4, 1, true },
};

static const struct kind *kind_of(unsigned long request)
{
    for (size_t i = 0; i < sizeof kinds / sizeof *kinds; i++)
        if (kinds[i].request == request)
            return &kinds[i];
    return NULL;
}

/* What the program passed, and later what the kernel has written there. */
struct passed {
    const struct kind *kind;
    uint64_t numbers[MOST_NUMBERS];
    bool readable;
};

/* A structure that the kernel has just written is read as it is: no address is wrong then. */
static struct passed read_passed(const struct kind *kind, const void *argument, bool is_sound)
{
    struct passed passed = { .kind = kind, .readable = true };
    size_t bytes = (kind->answer + kind->answers) * sizeof *passed.numbers;

    if (is_sound)
        memcpy(passed.numbers, argument, bytes);
    else
        passed.readable = memory_copy(passed.numbers, argument, bytes);
    return passed;
}

static void put_answer(struct text *line, const void *of)
{
    const struct passed *passed = of;

    for (unsigned i = 0; i < passed->kind->answers; i++) {
        uint64_t value = passed->numbers[passed->kind->answer + i];

        if (passed->kind->counts)
            text_signed(line, (int64_t)value);
        else
            text_hex(line, value);
    }
}

static struct call begin_ioctl(const struct kind *kind, uint64_t object, int fd, const struct passed *passed)
{
    char bytes[LINE_BYTES];
    struct text line = text_over(bytes, sizeof bytes);

    text_word(&line, kind->word);
    text_descriptor(&line, object, fd);
    for (unsigned i = 0; i < kind->given; i++)
        text_hex(&line, passed->numbers[i]);
    return log_begin(&line);
}

static void end_ioctl(const struct call *call, const struct kind *kind, bool failed, int error, const void *argument)
{
    struct passed after = read_passed(kind, argument, !failed);
    bool has_answer = kind->answers && after.readable && (!failed || kind->counts);

    end_call(call, failed, error, has_answer ? put_answer : NULL, &after);
}

static int recorded_ioctl(const struct kind *kind, uint64_t object, int fd, void *argument)
{
    struct passed passed = read_passed(kind, argument, false);
    bool registers = kind->request == UFFDIO_REGISTER && passed.readable;
    struct call call;
    int result, error;

    /* Before the kernel has the range: another thread's map call may take effect as soon as it does. */
    if (registers)
        ranges_add(shared(), passed.numbers[0], passed.numbers[1]);
    call = begin_ioctl(kind, object, fd, &passed);
    if (kind->request == UFFDIO_COPY && passed.readable)
        record_sums(&call, passed.numbers[0], passed.numbers[1], passed.numbers[2]);
    result = next()->ioctl(fd, kind->request, argument);
    error = errno;
    end_ioctl(&call, kind, result < 0, error, argument);
    if (registers && result >= 0 && object_is_own(object, fd))
        record_pages(object, fd, passed.numbers[0], passed.numbers[1]);
    errno = error;
    return result;
}

/* A request that the language does not have: its begin line says so to a reader, who refuses it. */
static int unknown_ioctl(uint64_t object, int fd, unsigned long request, void *argument)
{
    char bytes[LINE_BYTES];
    struct text line = text_over(bytes, sizeof bytes);
    struct call call;
    int result, error;

    text_word(&line, "ioctl");
    text_descriptor(&line, object, fd);
    text_hex(&line, request);
    call = log_begin(&line);
    result = next()->ioctl(fd, request, argument);
    error = errno;
    end_plain(&call, result < 0, error);
    errno = error;
    return result;
}

static int nonblock_ioctl(uint64_t object, int fd, void *argument)
{
    char bytes[LINE_BYTES];
    struct text line = text_over(bytes, sizeof bytes);
    struct call call;
    int on = 0, result, error;

    (void)memory_copy(&on, argument, sizeof on); /* where it cannot be read the call fails */
    text_word(&line, "nonblock");
    text_descriptor(&line, object, fd);
    text_number(&line, on != 0);
    call = log_begin(&line);
    result = next()->ioctl(fd, FIONBIO, argument);
    error = errno;
    end_plain(&call, result < 0, error);
    errno = error;
    return result;
}

static void put_opened(struct text *line, const void *of)
{
    const int *fd = of;

    text_descriptor(line, object_of_new(*fd), *fd);
}

int recorded_open(int device, unsigned long flags)
{
    char bytes[LINE_BYTES];
    struct text line = text_over(bytes, sizeof bytes);
    struct call call;
    int fd, error;

    text_word(&line, "open");
    text_word(&line, device < 0 ? "syscall" : "device");
    text_hex(&line, flags);
    call = log_begin(&line);
    fd = device < 0 ? (int)next()->syscall(SYS_userfaultfd, flags) : next()->ioctl(device, USERFAULTFD_IOC_NEW, flags);
    error = errno;
    if (fd >= 0)
        object_introduce(object_of_new(fd), fd, true);
    end_call(&call, fd < 0, error, fd < 0 ? NULL : put_opened, &fd);
    errno = error;
    return fd;
}

/* An ioctl of an object, or one that the type of its request makes likely to be. */
static int object_ioctl(int fd, unsigned long request, void *argument)
{
    const struct kind *kind = kind_of(request);
    uint64_t object = object_for_line(fd);

    if (!object)
        return next()->ioctl(fd, request, argument);
    if (request == FIONBIO)
        return nonblock_ioctl(object, fd, argument);
    if (kind)
        return recorded_ioctl(kind, object, fd, argument);
    return unknown_ioctl(object, fd, request, argument);
}

INTERPOSED int ioctl(int fd, unsigned long request, ...)
{
    va_list arguments;
    void *argument;

    va_start(arguments, request);
    argument = va_arg(arguments, void *);
    va_end(arguments);
    /* (close-on-exec changes no object: what a new program has inherited is found) */
    if (!log_is_open() || request == FIOCLEX || request == FIONCLEX)
        return next()->ioctl(fd, request, argument);
    if (request == USERFAULTFD_IOC_NEW && !object_is_possible(fd))
        return recorded_open(fd, (unsigned long)argument);
    if (REQUEST_TYPE(request) == UFFDIO || object_is_possible(fd))
        return object_ioctl(fd, request, argument);
    return next()->ioctl(fd, request, argument);
}
