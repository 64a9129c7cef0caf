/* Calls that change the map of the process, where a registered range may be concerned. */
#include <errno.h>
#include <stdarg.h>
#include <stddef.h>
#include <sys/mman.h>

#include "next.h"
#include "objects.h"
#include "recorder.h"
#include "shared.h"

#ifndef MAP_FIXED_NOREPLACE
#define MAP_FIXED_NOREPLACE 0x100000
#endif
#ifndef MREMAP_DONTUNMAP
#define MREMAP_DONTUNMAP 4
#endif

void *mmap64(void *place, size_t length, int protection, int flags, int fd, off_t offset);

static bool concerns(const void *place, size_t length)
{
    return log_is_open() && ranges_any(shared()) && ranges_meet(shared(), (uintptr_t)place, length);
}

static void put_address(struct text *line, const void *of)
{
    void *const *place = of;

    text_hex(line, (uintptr_t)*place);
}

static void end_map(const struct call *call, void *place, int error)
{
    bool failed = place == MAP_FAILED;

    end_call(call, failed, error, failed ? NULL : put_address, &place);
    errno = error;
}

/* Begins a call on a range of which `count` more numbers are to be written. */
static struct call begin_map(const char *word, const void *place, size_t length, const uint64_t *more, int count)
{
    char bytes[LINE_BYTES];
    struct text line = text_over(bytes, sizeof bytes);

    text_word(&line, word);
    text_hex(&line, (uintptr_t)place);
    text_hex(&line, length);
    for (int i = 0; i < count; i++)
        text_hex(&line, more[i]);
    objects_of_borrowed_memory();
    return log_begin(&line);
}

static void *recorded_mmap(void *place, size_t length, int protection, int flags, int fd, off_t offset)
{
    uint64_t more[] = { (unsigned)protection, (unsigned)flags };
    struct call call = begin_map("mmap", place, length, more, 2);
    void *found;

    found = next()->mmap(place, length, protection, flags, fd, offset);
    end_map(&call, found, errno);
    return found;
}

/* Where the kernel chooses the place it may be one that was registered. */
INTERPOSED void *mmap(void *place, size_t length, int protection, int flags, int fd, off_t offset)
{
    bool chosen = !(flags & (MAP_FIXED | MAP_FIXED_NOREPLACE));

    if (chosen ? log_is_open() && ranges_any(shared()) : concerns(place, length))
        return recorded_mmap(place, length, protection, flags, fd, offset);
    return next()->mmap(place, length, protection, flags, fd, offset);
}

INTERPOSED void *mmap64(void *place, size_t length, int protection, int flags, int fd, off_t offset)
{
    return mmap(place, length, protection, flags, fd, offset);
}

INTERPOSED int munmap(void *place, size_t length)
{
    struct call call;
    int result, error;

    if (!concerns(place, length))
        return next()->munmap(place, length);
    call = begin_map("munmap", place, length, NULL, 0);
    result = next()->munmap(place, length);
    error = errno;
    end_plain(&call, result < 0, error);
    errno = error;
    return result;
}

INTERPOSED int madvise(void *place, size_t length, int advice)
{
    uint64_t more[] = { (unsigned)advice };
    struct call call;
    int result, error;

    if (!concerns(place, length))
        return next()->madvise(place, length, advice);
    call = begin_map("madvise", place, length, more, 1);
    result = next()->madvise(place, length, advice);
    error = errno;
    end_plain(&call, result < 0, error);
    errno = error;
    return result;
}

INTERPOSED void *mremap(void *place, size_t length, size_t new_length, int flags, ...)
{
    void *target = NULL, *found;
    struct call call;
    va_list arguments;
    bool moves;

    if (flags & (MREMAP_FIXED | MREMAP_DONTUNMAP)) {
        va_start(arguments, flags);
        target = va_arg(arguments, void *);
        va_end(arguments);
    }
    moves = concerns(place, length);
    if (!moves && !(flags & MREMAP_FIXED && concerns(target, new_length)))
        return next()->mremap(place, length, new_length, flags, target);
    call = begin_map("mremap", place, length, (uint64_t[]){ new_length, (unsigned)flags, (uintptr_t)target }, 3);
    found = next()->mremap(place, length, new_length, flags, target);
    if (moves && found != MAP_FAILED)
        ranges_add(shared(), (uintptr_t)found, new_length);
    end_map(&call, found, errno);
    return found;
}
