/*
 * Makes each system call on the object by itself, as the runtimes of other languages do: a preloaded library sees none
 * of them.
 *
 *     pages threads touches   of the area
 */
#include <errno.h>
#include <fcntl.h>
#include <poll.h>
#include <stdatomic.h>

#include "../recorder/raw.h"
#include "common.h"
#include "newer.h"

static long pages, threads, touches, object;
static char *area, *source;
static atomic_bool is_done;

static long checked(long result, const char *what)
{
    if (raw_failed(result)) {
        errno = (int)-result;
        fail("%s", what);
    }
    return result;
}

static long call_object(unsigned long request, void *argument)
{
    return raw_call(SYS_ioctl, object, (long)request, (long)argument, 0, 0, 0);
}

static void put(uint64_t page)
{
    struct uffdio_copy copy = { .dst = page, .src = address(source) + (page - address(area)), .len = PAGE };
    struct uffdio_range range = { page, PAGE };
    long result = call_object(UFFDIO_COPY, &copy);

    if (result == -EEXIST)
        result = call_object(UFFDIO_WAKE, &range);
    (void)checked(result, "UFFDIO_COPY or WAKE");
}

static void *serve(void *unused)
{
    (void)unused;
    while (!atomic_load(&is_done)) {
        struct pollfd one = { (int)object, POLLIN, 0 };
        struct timespec wait = { 0, 20000000 };
        struct uffd_msg message;
        long got;

        if (checked(raw_call(SYS_ppoll, (long)&one, 1, (long)&wait, 0, 0, 0), "ppoll") == 0)
            continue;
        got = raw_call(SYS_read, object, (long)&message, sizeof message, 0, 0, 0);
        if (got != -EAGAIN && checked(got, "read") == sizeof message)
            put(message.arg.pagefault.address & ~(uint64_t)(PAGE - 1));
    }
    return NULL;
}

static void *touch(void *thread)
{
    struct random random = random_of((uint64_t)(long)thread + 1);

    for (long i = 0; i < touches; i++) {
        uint64_t number = random_below(&random, (uint64_t)pages);

        if (last_word(area + number * PAGE) != word_of(number))
            fail("page %llu has wrong bytes", (unsigned long long)number);
        nap(&random, 20);
    }
    return NULL;
}

int main(int argc, char **argv)
{
    struct uffdio_api api = { .api = UFFD_API };
    struct uffdio_register call = { .mode = UFFDIO_REGISTER_MODE_MISSING };
    struct crew crew;
    pthread_t server;

    options_begin(argc, argv);
    pages = option("pages", 256);
    threads = option("threads", 3);
    touches = option("touches", 300);
    options_end();
    area = map_pages((size_t)pages);
    source = map_pages((size_t)pages);
    for (long i = 0; i < pages; i++)
        fill_page(source + i * PAGE, (uint64_t)i);
    object = raw_call(SYS_userfaultfd, O_CLOEXEC | O_NONBLOCK, 0, 0, 0, 0, 0);
    if (raw_failed(object))
        cannot("userfaultfd");
    (void)checked(call_object(UFFDIO_API, &api), "UFFDIO_API");
    call.range = (struct uffdio_range){ address(area), (uint64_t)pages * PAGE };
    (void)checked(call_object(UFFDIO_REGISTER, &call), "UFFDIO_REGISTER");
    server = thread_start(serve, NULL);
    crew_start(&crew, threads, touch);
    crew_join(&crew);
    atomic_store(&is_done, true);
    thread_join(server);
    (void)checked(raw_call(SYS_close, object, 0, 0, 0, 0, 0), "close");
    return 0;
}
