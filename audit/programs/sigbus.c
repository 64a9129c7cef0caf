/*
 * No messages: with UFFD_FEATURE_SIGBUS a thread that meets a missing page gets SIGBUS, and puts the page in its
 * handler.
 *
 *     pages threads touches   of the area
 */
#include <errno.h>
#include <signal.h>

#include "common.h"
#include "object.h"

static long pages, threads, touches;
static int object;
static char *area, *source;

static void on_bus_error(int signal, siginfo_t *info, void *context)
{
    uint64_t page = address(info->si_addr) & ~(uint64_t)(PAGE - 1);
    int error = errno;

    (void)signal;
    (void)context;
    if (put_copy(object, page, source + (page - address(area))) == GONE)
        fail("SIGBUS at 0x%llx", (unsigned long long)page);
    errno = error;
}

static void *touch(void *thread)
{
    struct random random = random_of((uint64_t)(long)thread + 1);

    for (long i = 0; i < touches; i++) {
        uint64_t number = random_below(&random, (uint64_t)pages);

        if (last_word(area + number * PAGE) != word_of(number))
            fail("page %llu has wrong bytes", (unsigned long long)number);
    }
    return NULL;
}

int main(int argc, char **argv)
{
    struct sigaction action = { .sa_sigaction = on_bus_error, .sa_flags = SA_SIGINFO };
    struct crew crew;

    options_begin(argc, argv);
    pages = option("pages", 512);
    threads = option("threads", 4);
    touches = option("touches", 400);
    options_end();
    if (sigaction(SIGBUS, &action, NULL))
        fail("sigaction");
    area = map_pages((size_t)pages);
    source = map_pages((size_t)pages);
    for (long i = 0; i < pages; i++)
        fill_page(source + i * PAGE, (uint64_t)i);
    object = object_open(UFFD_FEATURE_SIGBUS);
    object_register(object, area, (size_t)pages * PAGE, UFFDIO_REGISTER_MODE_MISSING);
    crew_start(&crew, threads, touch);
    crew_join(&crew);
    object_close(object);
    return 0;
}
