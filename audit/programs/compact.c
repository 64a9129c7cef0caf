/*
 * A collector that moves its heap, as Android's does: in a pause the pages go elsewhere by mremap with
 * MREMAP_DONTUNMAP, and the threads that run on find them again, compacted, where they were.
 *
 *     pages threads touches   of the heap
 *     rounds                  collections
 *     sigbus                  whether the threads put the page themselves, in their handler of SIGBUS
 *     early                   whether the heap is registered before the pause, and the moves are events
 */
#include <errno.h>
#include <signal.h>
#include <stdatomic.h>
#include <stdint.h>
#include <sys/mman.h>

#include "common.h"
#include "object.h"

static long pages, threads, touches, rounds, sigbus, early;
static int object;
static char *heap, *shadow;
static atomic_bool is_done;

/* The page as the collector wants it: here it is as it was. */
static void put(uint64_t page)
{
    uint64_t number = (page - address(heap)) / PAGE;

    while (put_copy(object, page, shadow + number * PAGE) == AGAIN)
        ;
}

static void serve_message(const struct uffd_msg *message)
{
    if (message->event == UFFD_EVENT_PAGEFAULT)
        put(page_of(message));
    else if (message->event != UFFD_EVENT_REMAP)
        fail("event 0x%x", message->event);
}

static void *serve(void *unused)
{
    (void)unused;
    while (!atomic_load(&is_done)) {
        struct uffd_msg message;

        if (object_poll(object, -1, 20).object && object_read(object, &message, 1))
            serve_message(&message);
    }
    return NULL;
}

static void on_bus_error(int signal, siginfo_t *info, void *context)
{
    int error = errno;

    (void)signal;
    (void)context;
    put(address(info->si_addr) & ~(uint64_t)(PAGE - 1));
    errno = error;
}

static void *mutate(void *thread)
{
    struct random random = random_of((uint64_t)(long)thread + 1);

    for (long i = 0; i < touches; i++) {
        volatile uint64_t *words = (volatile uint64_t *)(heap + random_below(&random, (uint64_t)pages) * PAGE);

        words[(long)thread]++;
        nap(&random, 10);
    }
    return NULL;
}

/* Nobody runs. */
static void pause_world(void)
{
    size_t length = (size_t)pages * PAGE;
    int flags = MREMAP_MAYMOVE | MREMAP_FIXED | MREMAP_DONTUNMAP;

    if (mremap(heap, length, length, flags, shadow) != shadow)
        fail("mremap");
    if (!early)
        object_register(object, heap, length, UFFDIO_REGISTER_MODE_MISSING);
}

/* What no one has asked for is put by the collector. */
static void finish_round(void)
{
    size_t length = (size_t)pages * PAGE;

    for (long i = 0; i < pages; i++)
        put(address(heap) + (uint64_t)i * PAGE);
    if (early)
        object_unregister(object, shadow, length);
    else
        object_unregister(object, heap, length);
}

static void check_counts(void)
{
    uint64_t sum = 0;

    for (long i = 0; i < pages; i++)
        for (long j = 0; j < threads; j++)
            sum += ((const volatile uint64_t *)(heap + i * PAGE))[j];
    if (sum != (uint64_t)threads * (uint64_t)touches * (uint64_t)rounds)
        fail("%llu touches are left", (unsigned long long)sum);
}

static void run_rounds(void)
{
    for (long i = 0; i < rounds; i++) {
        struct crew crew;

        pause_world();
        crew_start(&crew, threads, mutate);
        crew_join(&crew);
        finish_round();
        shadow = map_pages((size_t)pages);
    }
}

int main(int argc, char **argv)
{
    struct sigaction action = { .sa_sigaction = on_bus_error, .sa_flags = SA_SIGINFO };
    pthread_t server;

    options_begin(argc, argv);
    pages = option("pages", 128);
    threads = option("threads", 3);
    touches = option("touches", 150);
    rounds = option("rounds", 3);
    sigbus = option("sigbus", 0);
    early = option("early", 0);
    options_end();
    if (sigaction(SIGBUS, &action, NULL))
        fail("sigaction");
    heap = map_pages((size_t)pages);
    shadow = map_pages((size_t)pages);
    for (long i = 0; i < pages; i++)
        *(volatile uint64_t *)(heap + i * PAGE) = 0;
    object = object_open((sigbus ? UFFD_FEATURE_SIGBUS : 0u) | (early ? UFFD_FEATURE_EVENT_REMAP : 0u));
    if (early)
        object_register(object, heap, (size_t)pages * PAGE, UFFDIO_REGISTER_MODE_MISSING);
    server = thread_start(serve, NULL);
    run_rounds();
    check_counts();
    atomic_store(&is_done, true);
    thread_join(server);
    object_close(object);
    return 0;
}
