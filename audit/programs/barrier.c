/*
 * The write barrier of a collector: in each round the heap is write-protected while its threads run on, and the first
 * store to a page marks it.
 *
 *     pages threads touches   of the heap, and of each thread
 *     rounds handlers chunk   protections; threads that serve; pages that one of them unprotects at once
 *     unpopulated             the heap is not touched before, and pages that are missing are protected too
 */
#include <stdatomic.h>
#include <stdlib.h>

#include "common.h"
#include "object.h"

static long pages, threads, touches, rounds, handlers, chunk, unpopulated;
static int object;
static char *heap;
static atomic_bool *is_marked;
static atomic_bool is_done;

static void *serve(void *unused)
{
    (void)unused;
    while (!atomic_load(&is_done)) {
        struct uffd_msg message;
        uint64_t first, count;

        if (!object_poll(object, -1, 20).object || !object_read(object, &message, 1))
            continue;
        first = (page_of(&message) - address(heap)) / PAGE;
        first -= first % (uint64_t)chunk;
        count = first + (uint64_t)chunk > (uint64_t)pages ? (uint64_t)pages - first : (uint64_t)chunk;
        for (uint64_t i = 0; i < count; i++)
            atomic_store(&is_marked[first + i], true);
        (void)object_unprotect(object, address(heap) + first * PAGE, count * PAGE);
    }
    return NULL;
}

static void *mutate(void *number)
{
    struct random random = random_of((uint64_t)(long)number + 1);

    for (long i = 0; i < touches; i++) {
        uint64_t page = random_below(&random, (uint64_t)pages);
        volatile uint64_t *words = (volatile uint64_t *)(heap + page * PAGE);

        if (i % 3)
            words[(long)number]++;
        else
            (void)words[(long)number];
        nap(&random, 10);
    }
    return NULL;
}

/* After the last round no one is protected from: a store is marked. */
static void check_marks(void)
{
    object_protect(object, heap, (size_t)pages * PAGE);
    for (long i = 0; i < pages; i++)
        atomic_store(&is_marked[i], false);
    for (long i = 0; i < pages; i += 3) {
        *(volatile uint64_t *)(heap + i * PAGE) = 1;
        if (!atomic_load(&is_marked[i]))
            fail("a store to page %ld is not marked", i);
    }
}

int main(int argc, char **argv)
{
    struct random random;
    struct crew mutators, servers;

    options_begin(argc, argv);
    pages = option("pages", 512);
    threads = option("threads", 4);
    touches = option("touches", 800);
    rounds = option("rounds", 6);
    handlers = option("handlers", 1);
    chunk = option("chunk", 1);
    unpopulated = option("unpopulated", 0);
    options_end();
    random = random_of(1000);
    heap = map_pages((size_t)pages);
    is_marked = calloc((size_t)pages, sizeof *is_marked);
    if (!is_marked || chunk < 1)
        fail("no memory, or a chunk of none");
    for (long i = 0; i < pages && !unpopulated; i++)
        fill_page(heap + i * PAGE, 0);
    object = object_open(UFFD_FEATURE_PAGEFAULT_FLAG_WP | (unpopulated ? UFFD_FEATURE_WP_UNPOPULATED : 0u));
    object_register(object, heap, (size_t)pages * PAGE, UFFDIO_REGISTER_MODE_WP);
    crew_start(&servers, handlers, serve);
    crew_start(&mutators, threads, mutate);
    for (long i = 0; i < rounds; i++) {
        object_protect(object, heap, (size_t)pages * PAGE);
        nap(&random, 4000);
    }
    crew_join(&mutators);
    check_marks();
    atomic_store(&is_done, true);
    crew_join(&servers);
    object_unregister(object, heap, (size_t)pages * PAGE);
    object_close(object);
    free(is_marked);
    return 0;
}
