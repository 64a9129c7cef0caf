/* The page that all processes of a log share. */
#include "shared.h"

#include <fcntl.h>
#include <stdatomic.h>
#include <sys/mman.h>

#include "raw.h"

_Static_assert(sizeof(struct shared) <= SHARED_BYTES, "audit/record makes a file of SHARED_BYTES");

static struct shared of_this_process;
static struct shared *_Atomic mapped = &of_this_process;

struct shared *shared(void)
{
    return atomic_load_explicit(&mapped, memory_order_acquire);
}

void shared_map(const char *path)
{
    long fd = raw_call(SYS_openat, AT_FDCWD, (long)path, O_RDWR | O_CLOEXEC, 0, 0, 0), place;

    if (raw_failed(fd))
        return;
    place = raw_call(SYS_mmap, 0, SHARED_BYTES, PROT_READ | PROT_WRITE, MAP_SHARED, fd, 0);
    (void)raw_call(SYS_close, fd, 0, 0, 0, 0, 0); /* the mapping stays; an error of close leaves nothing to do */
    if (!raw_failed(place))
        atomic_store_explicit(&mapped, (struct shared *)place, memory_order_release);
}

static bool covers(const struct range *range, uint64_t start, uint64_t length)
{
    uint64_t from = atomic_load(&range->start), size = atomic_load(&range->length);

    return from <= start && size && start - from <= size && length <= size - (start - from);
}

void ranges_add(struct shared *page, uint64_t start, uint64_t length)
{
    uint64_t count = atomic_load(&page->ranges), place;

    for (uint64_t i = 0; i < count && i < MOST_RANGES; i++)
        if (covers(&page->range[i], start, length))
            return;
    if (count >= MOST_RANGES)
        return;
    place = atomic_fetch_add(&page->ranges, 1);
    if (place >= MOST_RANGES)
        return;
    atomic_store(&page->range[place].start, start);
    atomic_store(&page->range[place].length, length);
}

bool ranges_any(struct shared *page)
{
    return atomic_load_explicit(&page->ranges, memory_order_relaxed) != 0;
}

bool ranges_meet(struct shared *page, uint64_t start, uint64_t length)
{
    uint64_t count = atomic_load(&page->ranges);

    if (count >= MOST_RANGES)
        return true;
    for (uint64_t i = 0; i < count; i++) {
        uint64_t from = atomic_load(&page->range[i].start), size = atomic_load(&page->range[i].length);

        /* (neither end is computed: it may be 2^64) */
        if (size && (start < from ? length > from - start : start - from < size))
            return true;
    }
    return false;
}
