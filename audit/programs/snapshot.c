/*
 * Background snapshots: the area is write-protected at once, saved page by page, and a page that someone is about to
 * change is saved first.
 *
 *     pages threads touches   of the area, and of those that change it
 *     rounds whole            snapshots; whether the protection of what no one changed is removed at the end
 */
#include <stdatomic.h>
#include <string.h>

#include "common.h"
#include "object.h"

static long pages, threads, touches, rounds, whole;
static int object;
static char *area, *saved;
static bool *is_saved;
static atomic_int running;

/* Saves a page that no one can change, and lets it be changed. */
static void save(uint64_t number, bool unprotects)
{
    char *page = area + number * PAGE;

    if (!is_saved[number])
        memcpy(saved + number * PAGE, page, PAGE);
    is_saved[number] = true;
    if (unprotects)
        (void)object_unprotect(object, address(page), PAGE);
}

/* Returns whether there was a message. */
static bool serve_fault(int wait)
{
    struct uffd_msg message;

    if (!object_poll(object, -1, wait).object || !object_read(object, &message, 1))
        return false;
    save((page_of(&message) - address(area)) / PAGE, true);
    return true;
}

static void *change(void *number)
{
    struct random random = random_of((uint64_t)(long)number + 1);

    for (long i = 0; i < touches; i++) {
        *(volatile uint64_t *)(area + random_below(&random, (uint64_t)pages) * PAGE) = 1;
        nap(&random, 40);
    }
    atomic_fetch_sub(&running, 1);
    return NULL;
}

static void take_snapshot(uint64_t round)
{
    struct crew crew;

    for (long i = 0; i < pages; i++)
        fill_page(area + i * PAGE, round * (uint64_t)pages + (uint64_t)i);
    memset(is_saved, 0, (size_t)pages);
    object_protect(object, area, (size_t)pages * PAGE);
    atomic_store(&running, (int)threads);
    crew_start(&crew, threads, change);
    for (long i = 0; i < pages; i++) {
        while (serve_fault(0))
            ;
        save((uint64_t)i, !whole && !is_saved[i]);
    }
    if (whole && !object_unprotect(object, address(area), (size_t)pages * PAGE))
        fail("UFFDIO_WRITEPROTECT of the area");
    while (atomic_load(&running))
        (void)serve_fault(5);
    crew_join(&crew);
    for (long i = 0; i < pages; i++)
        if (first_word(saved + i * PAGE) != word_of(round * (uint64_t)pages + (uint64_t)i))
            fail("page %ld was changed before it was saved", i);
}

int main(int argc, char **argv)
{
    options_begin(argc, argv);
    pages = option("pages", 256);
    threads = option("threads", 3);
    touches = option("touches", 200);
    rounds = option("rounds", 3);
    whole = option("whole", 0);
    options_end();
    area = map_pages((size_t)pages);
    saved = map_pages((size_t)pages);
    is_saved = (bool *)map_pages((size_t)pages / PAGE + 1);
    for (long i = 0; i < pages; i++)
        fill_page(area + i * PAGE, 0);
    object = object_open(UFFD_FEATURE_PAGEFAULT_FLAG_WP);
    object_register(object, area, (size_t)pages * PAGE, UFFDIO_REGISTER_MODE_WP);
    for (long i = 0; i < rounds; i++)
        take_snapshot((uint64_t)i);
    object_unregister(object, area, (size_t)pages * PAGE);
    object_close(object);
    return 0;
}
