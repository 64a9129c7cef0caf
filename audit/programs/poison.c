/*
 * Some pages cannot be restored: UFFDIO_POISON gives SIGBUS to who touches them. The others are copied.
 *
 *     pages threads touches   of the area: each seventh page is poisoned
 */
#include <setjmp.h>
#include <signal.h>
#include <stdatomic.h>
#include <sys/ioctl.h>

#include "common.h"
#include "object.h"

static long pages, threads, touches;
static int object;
static char *area, *source;
static atomic_bool is_done;
static _Thread_local sigjmp_buf after_bus_error;

static bool is_bad(uint64_t number)
{
    return number % 7 == 3;
}

static void put_poison(uint64_t page)
{
    struct uffdio_poison call = { .range = { page, PAGE } };

    (void)put_of(object, page, ioctl(object, UFFDIO_POISON, &call));
}

static void *serve(void *unused)
{
    (void)unused;
    while (!atomic_load(&is_done)) {
        struct uffd_msg message;
        uint64_t number;

        if (!object_poll(object, -1, 20).object || !object_read(object, &message, 1))
            continue;
        number = (page_of(&message) - address(area)) / PAGE;
        if (is_bad(number))
            put_poison(page_of(&message));
        else
            (void)put_copy(object, page_of(&message), source + number * PAGE);
    }
    return NULL;
}

static void on_bus_error(int signal)
{
    (void)signal;
    siglongjmp(after_bus_error, 1);
}

/* Whether a page could be read. */
static bool read_page(uint64_t number)
{
    if (sigsetjmp(after_bus_error, 1))
        return false;
    if (first_word(area + number * PAGE) != word_of(number))
        fail("page %llu has wrong bytes", (unsigned long long)number);
    return true;
}

static void *touch(void *thread)
{
    struct random random = random_of((uint64_t)(long)thread + 1);

    for (long i = 0; i < touches; i++) {
        uint64_t number = random_below(&random, (uint64_t)pages);

        if (read_page(number) == is_bad(number))
            fail("page %llu", (unsigned long long)number);
        nap(&random, 20);
    }
    return NULL;
}

int main(int argc, char **argv)
{
    struct sigaction action = { .sa_handler = on_bus_error };
    struct crew crew;
    pthread_t server;

    options_begin(argc, argv);
    pages = option("pages", 256);
    threads = option("threads", 3);
    touches = option("touches", 300);
    options_end();
    if (sigaction(SIGBUS, &action, NULL))
        fail("sigaction");
    area = map_pages((size_t)pages);
    source = map_pages((size_t)pages);
    for (long i = 0; i < pages; i++)
        fill_page(source + i * PAGE, (uint64_t)i);
    object = object_open(UFFD_FEATURE_POISON);
    object_register(object, area, (size_t)pages * PAGE, UFFDIO_REGISTER_MODE_MISSING);
    server = thread_start(serve, NULL);
    crew_start(&crew, threads, touch);
    crew_join(&crew);
    atomic_store(&is_done, true);
    thread_join(server);
    object_close(object);
    return 0;
}
