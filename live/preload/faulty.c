/* For tests, by LD_PRELOAD: while the file FAULTY_FILE is there, calls of the main thread fail. FAULTY_CALL is
   `malloc` or the number of a request of ioctl(2), FAULTY_ERRNO the errno. */
#define _GNU_SOURCE
#include <errno.h>
#include <stdarg.h>
#include <stdlib.h>
#include <string.h>
#include <sys/syscall.h>
#include <unistd.h>

void *__libc_malloc(size_t bytes);
void *__libc_calloc(size_t count, size_t bytes);
void *__libc_realloc(void *at, size_t bytes);
void *__libc_memalign(size_t alignment, size_t bytes);

/* (by system calls alone: the allocator may not be called here) */
static int is_faulty(const char *call)
{
    const char *file = getenv("FAULTY_FILE"), *wanted = getenv("FAULTY_CALL");

    return file && wanted && !strcmp(call, wanted) && syscall(SYS_gettid) == syscall(SYS_getpid) &&
        !syscall(SYS_access, file, F_OK);
}

static int fail(void)
{
    const char *error = getenv("FAULTY_ERRNO");

    errno = error ? atoi(error) : ENOMEM;
    return -1;
}

void *malloc(size_t bytes)
{
    return is_faulty("malloc") && fail() ? NULL : __libc_malloc(bytes);
}

void *calloc(size_t count, size_t bytes)
{
    return is_faulty("malloc") && fail() ? NULL : __libc_calloc(count, bytes);
}

void *realloc(void *at, size_t bytes)
{
    return is_faulty("malloc") && fail() ? NULL : __libc_realloc(at, bytes);
}

void *aligned_alloc(size_t alignment, size_t bytes)
{
    return is_faulty("malloc") && fail() ? NULL : __libc_memalign(alignment, bytes);
}

int posix_memalign(void **at, size_t alignment, size_t bytes)
{
    *at = aligned_alloc(alignment, bytes);
    return *at ? 0 : ENOMEM;
}

int ioctl(int file, unsigned long request, ...)
{
    static const char digits[] = "0123456789abcdef";
    char name[2 * sizeof request + 1] = "";
    va_list arguments;
    void *argument;

    va_start(arguments, request);
    argument = va_arg(arguments, void *);
    va_end(arguments);
    for (int i = 0; i < 8; i++)
        name[i] = digits[request >> (28 - 4 * i) & 15];
    return is_faulty(name) ? fail() : (int)syscall(SYS_ioctl, file, request, argument);
}
