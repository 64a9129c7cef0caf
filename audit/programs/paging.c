/*
 * Paging in user space: of `pages` only `room` are in memory. A page is evicted by write protection, a copy to the
 * store, and MADV_DONTNEED, and comes back at its next fault.
 *
 *     pages room              of the area, and how many of them are in memory
 *     threads touches         each counts in its own words of the pages
 */
#include <stdatomic.h>
#include <stdlib.h>
#include <string.h>
#include <sys/mman.h>

#include "common.h"
#include "object.h"

static long pages, room, threads, touches;
static int object;
static char *area, *store;
static atomic_bool is_done;

/* Those in memory, the oldest first. */
static uint64_t *resident;
static bool *is_resident;
static long oldest, resident_count;

static uint64_t place_of(uint64_t number)
{
    return address(area) + number * PAGE;
}

/* A thread that stores meanwhile sleeps, is woken, and then finds the page missing. */
static void evict_oldest(void)
{
    uint64_t number = resident[oldest];
    char *page = area + number * PAGE;

    object_protect(object, page, PAGE);
    memcpy(store + number * PAGE, page, PAGE);
    if (madvise(page, PAGE, MADV_DONTNEED))
        fail("madvise");
    object_wake(object, address(page), PAGE);
    is_resident[number] = false;
    oldest = (oldest + 1) % room;
    resident_count--;
}

static void bring_back(uint64_t number)
{
    if (is_resident[number]) { /* two threads have asked */
        object_wake(object, place_of(number), PAGE);
        return;
    }
    if (resident_count == room)
        evict_oldest();
    if (put_copy(object, place_of(number), store + number * PAGE) != PUT)
        fail("page %llu was there", (unsigned long long)number);
    resident[(oldest + resident_count++) % room] = number;
    is_resident[number] = true;
}

static void *serve(void *unused)
{
    (void)unused;
    while (!atomic_load(&is_done)) {
        struct uffd_msg message;

        if (!object_poll(object, -1, 20).object || !object_read(object, &message, 1))
            continue;
        if (message.arg.pagefault.flags & UFFD_PAGEFAULT_FLAG_WP)
            object_wake(object, page_of(&message), PAGE); /* of an eviction that is over */
        else
            bring_back((page_of(&message) - address(area)) / PAGE);
    }
    return NULL;
}

static void *count_touches(void *number)
{
    struct random random = random_of((uint64_t)(long)number + 1);

    for (long i = 0; i < touches; i++) {
        volatile uint64_t *words = (volatile uint64_t *)(area + random_below(&random, (uint64_t)pages) * PAGE);

        words[(long)number]++;
        if (i % 8 == 0)
            nap(&random, 20);
    }
    return NULL;
}

static void check_counts(void)
{
    uint64_t sum = 0;

    for (long i = 0; i < pages; i++)
        for (long j = 0; j < threads; j++)
            sum += ((const volatile uint64_t *)(area + i * PAGE))[j];
    if (sum != (uint64_t)threads * (uint64_t)touches)
        fail("%llu touches are left", (unsigned long long)sum);
}

int main(int argc, char **argv)
{
    struct crew crew;
    pthread_t server;

    options_begin(argc, argv);
    pages = option("pages", 64);
    room = option("room", 16);
    threads = option("threads", 4);
    touches = option("touches", 500);
    options_end();
    if (room < 1 || room > pages || threads < 1 || threads > MOST_THREADS)
        fail("an option is too small or too large");
    area = map_pages((size_t)pages);
    store = map_pages((size_t)pages);
    resident = calloc((size_t)room, sizeof *resident);
    is_resident = calloc((size_t)pages, sizeof *is_resident);
    if (!resident || !is_resident)
        fail("calloc");
    object = object_open(UFFD_FEATURE_PAGEFAULT_FLAG_WP);
    object_register(object, area, (size_t)pages * PAGE, UFFDIO_REGISTER_MODE_MISSING | UFFDIO_REGISTER_MODE_WP);
    server = thread_start(serve, NULL);
    crew_start(&crew, threads, count_touches);
    crew_join(&crew);
    check_counts();
    atomic_store(&is_done, true);
    thread_join(server);
    object_close(object);
    free(resident);
    free(is_resident);
    return 0;
}
