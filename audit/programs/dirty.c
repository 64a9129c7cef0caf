/*
 * Memory that is loaded lazily and tracked from the first: a page comes write-protected (UFFDIO_COPY with MODE_WP), and
 * the first store marks it. At each checkpoint what is marked is written out and protected again.
 *
 *     pages threads touches   of the memory
 *     rounds                  checkpoints
 */
#include <stdatomic.h>
#include <stdlib.h>
#include <sys/ioctl.h>

#include "common.h"
#include "object.h"

static long pages, threads, touches, rounds;
static int object;
static char *memory, *source;
static atomic_bool *is_marked;
static atomic_bool is_done;

static void put_protected(uint64_t page, uint64_t number)
{
    struct uffdio_copy call = {
        .dst = page, .src = address(source) + number * PAGE, .len = PAGE, .mode = UFFDIO_COPY_MODE_WP
    };

    (void)put_of(object, page, ioctl(object, UFFDIO_COPY, &call));
}

static void *serve(void *unused)
{
    (void)unused;
    while (!atomic_load(&is_done)) {
        struct uffd_msg message;
        uint64_t page, number;

        if (!object_poll(object, -1, 20).object || !object_read(object, &message, 1))
            continue;
        page = page_of(&message);
        number = (page - address(memory)) / PAGE;
        if (message.arg.pagefault.flags & UFFD_PAGEFAULT_FLAG_WP) {
            atomic_store(&is_marked[number], true);
            (void)object_unprotect(object, page, PAGE);
        } else {
            put_protected(page, number);
        }
    }
    return NULL;
}

static void *work(void *number)
{
    struct random random = random_of((uint64_t)(long)number + 1);

    for (long i = 0; i < touches; i++) {
        volatile uint64_t *words = (volatile uint64_t *)(memory + random_below(&random, (uint64_t)pages) * PAGE);

        if (i % 4)
            (void)words[(long)number];
        else
            words[(long)number]++;
        nap(&random, 15);
    }
    return NULL;
}

static void make_checkpoint(void)
{
    for (long i = 0; i < pages; i++)
        if (atomic_exchange(&is_marked[i], false))
            object_protect(object, memory + i * PAGE, PAGE);
}

int main(int argc, char **argv)
{
    struct random random;
    struct crew crew;
    pthread_t server;

    options_begin(argc, argv);
    pages = option("pages", 256);
    threads = option("threads", 4);
    touches = option("touches", 600);
    rounds = option("rounds", 5);
    options_end();
    random = random_of(1000);
    memory = map_pages((size_t)pages);
    source = map_pages((size_t)pages);
    is_marked = calloc((size_t)pages, sizeof *is_marked);
    if (!is_marked)
        fail("calloc");
    object = object_open(UFFD_FEATURE_PAGEFAULT_FLAG_WP);
    object_register(object, memory, (size_t)pages * PAGE, UFFDIO_REGISTER_MODE_MISSING | UFFDIO_REGISTER_MODE_WP);
    server = thread_start(serve, NULL);
    crew_start(&crew, threads, work);
    for (long i = 0; i < rounds; i++) {
        nap(&random, 8000);
        make_checkpoint();
    }
    crew_join(&crew);
    atomic_store(&is_done, true);
    thread_join(server);
    object_close(object);
    free(is_marked);
    return 0;
}
