/*
 * A cache of files that are mapped lazily: each thread maps a slot, registers it, reads some of it, and unmaps it
 * again. The handler gets UNMAP for a slot that is unmapped while it is registered; another one is unregistered first.
 *
 *     pages threads touches   of a slot, and what is read of it
 *     rounds batch            slots of each thread, one after the other; messages a read
 */
#include <stdatomic.h>
#include <string.h>
#include <sys/mman.h>

#include "common.h"
#include "object.h"

static long pages, threads, touches, rounds, batch;
static int object;
static char *source;
static atomic_bool is_done;
/* Of each thread its slot, 0 where it has none. */
static _Atomic uint64_t slots[MOST_THREADS];
static uint64_t waiting[MOST_MESSAGES * 4];
static size_t waiting_count;

static enum put serve(uint64_t page)
{
    for (long i = 0; i < threads; i++) {
        uint64_t start = atomic_load(&slots[i]);

        if (start && page >= start && page - start < (uint64_t)pages * PAGE)
            return put_copy(object, page, source + (page - start));
    }
    return GONE;
}

static void take(void)
{
    struct uffd_msg messages[MOST_MESSAGES];
    size_t count = object_read(object, messages, (size_t)batch);

    for (size_t i = 0; i < count; i++)
        if (messages[i].event == UFFD_EVENT_PAGEFAULT)
            waiting[waiting_count++] = page_of(&messages[i]);
        else if (messages[i].event != UFFD_EVENT_UNMAP)
            fail("event 0x%x", messages[i].event);
}

static void *handle(void *unused)
{
    (void)unused;
    while (!atomic_load(&is_done)) {
        size_t kept = 0;

        if (object_poll(object, -1, waiting_count ? 0 : 20).object &&
            waiting_count + (size_t)batch <= sizeof waiting / sizeof *waiting)
            take();
        for (size_t i = 0; i < waiting_count; i++)
            if (serve(waiting[i]) == AGAIN)
                waiting[kept++] = waiting[i];
        waiting_count = kept;
    }
    return NULL;
}

static void use_slot(long own, struct random *random)
{
    size_t length = (size_t)pages * PAGE;
    char *slot = map_pages((size_t)pages);

    atomic_store(&slots[own], address(slot));
    object_register(object, slot, length, UFFDIO_REGISTER_MODE_MISSING);
    for (long i = 0; i < touches; i++) {
        uint64_t number = random_below(random, (uint64_t)pages);

        if (last_word(slot + number * PAGE) != word_of(number))
            fail("page %llu has wrong bytes", (unsigned long long)number);
    }
    if (random_below(random, 2))
        object_unregister(object, slot, length);
    if (munmap(slot, length))
        fail("munmap");
    atomic_store(&slots[own], 0);
}

static void *use_slots(void *number)
{
    struct random random = random_of((uint64_t)(long)number + 1);

    for (long i = 0; i < rounds; i++)
        use_slot((long)number, &random);
    return NULL;
}

int main(int argc, char **argv)
{
    struct crew crew;
    pthread_t handler;

    options_begin(argc, argv);
    pages = option("pages", 32);
    threads = option("threads", 4);
    touches = option("touches", 20);
    rounds = option("rounds", 20);
    batch = option("batch", 1);
    options_end();
    if (batch < 1 || batch > MOST_MESSAGES)
        fail("an option is too small or too large");
    source = map_pages((size_t)pages);
    for (long i = 0; i < pages; i++)
        fill_page(source + i * PAGE, (uint64_t)i);
    object = object_open(UFFD_FEATURE_EVENT_UNMAP);
    handler = thread_start(handle, NULL);
    crew_start(&crew, threads, use_slots);
    crew_join(&crew);
    atomic_store(&is_done, true);
    thread_join(handler);
    object_close(object);
    return 0;
}
