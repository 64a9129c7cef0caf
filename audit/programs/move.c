/*
 * Pages come by UFFDIO_MOVE: the handler fills one of its own, and moves it to where it is wanted.
 *
 *     pages threads touches   of the area
 */
#include <errno.h>
#include <stdatomic.h>
#include <sys/ioctl.h>

#include "common.h"
#include "object.h"

static long pages, threads, touches;
static int object;
static char *area, *staging;
static atomic_bool is_done;

/* What EBUSY or ENOENT refuses to move is copied. */
static void put(uint64_t page, uint64_t number)
{
    struct uffdio_move call = { .dst = page, .src = address(staging), .len = PAGE };
    int result;

    fill_page(staging, number);
    do
        result = ioctl(object, UFFDIO_MOVE, &call);
    while (result && errno == EAGAIN);
    if (result && (errno == EBUSY || errno == ENOENT))
        (void)put_copy(object, page, staging);
    else
        (void)put_of(object, page, result);
}

static void *serve(void *unused)
{
    (void)unused;
    while (!atomic_load(&is_done)) {
        struct uffd_msg message;

        if (object_poll(object, -1, 20).object && object_read(object, &message, 1))
            put(page_of(&message), (page_of(&message) - address(area)) / PAGE);
    }
    return NULL;
}

static void *touch(void *thread)
{
    struct random random = random_of((uint64_t)(long)thread + 1);

    for (long i = 0; i < touches; i++) {
        uint64_t number = random_below(&random, (uint64_t)pages);

        if (last_word(area + number * PAGE) != word_of(number))
            fail("page %llu has wrong bytes", (unsigned long long)number);
        nap(&random, 20);
    }
    return NULL;
}

int main(int argc, char **argv)
{
    struct crew crew;
    pthread_t server;

    options_begin(argc, argv);
    pages = option("pages", 256);
    threads = option("threads", 3);
    touches = option("touches", 300);
    options_end();
    area = map_pages((size_t)pages);
    staging = map_pages(1);
    object = object_open(UFFD_FEATURE_MOVE);
    object_register(object, area, (size_t)pages * PAGE, UFFDIO_REGISTER_MODE_MISSING);
    server = thread_start(serve, NULL);
    crew_start(&crew, threads, touch);
    crew_join(&crew);
    atomic_store(&is_done, true);
    thread_join(server);
    object_close(object);
    return 0;
}
