/*
 * Several objects with an area each, served by two threads or more, which put a window of pages for each fault.
 *
 *     objects pages           objects, and pages of each
 *     threads touches         that touch them
 *     handlers window         threads that serve, and pages that they put at once
 *     wrong=twice             the window does not wake, and EEXIST is ignored
 *     wrong=unregister        the first area is unregistered while a thread sleeps there
 */
#include <errno.h>
#include <poll.h>
#include <stdatomic.h>
#include <sys/ioctl.h>

#include "common.h"
#include "object.h"

#define MOST_OBJECTS 8

static long object_count, pages, threads, touches, handlers, window;
static int objects[MOST_OBJECTS];
static char *areas[MOST_OBJECTS], *source;
static atomic_bool is_done;

/* Puts pages, but those that are there: a call stops at the first of these. Returns whether it has put the one that
   is asked for. */
static bool put_window(int object, uint64_t start, const char *from, uint64_t count, uint64_t asked)
{
    uint64_t at = 0;
    bool has_put = false;

    while (at < count) {
        struct uffdio_copy call = { .dst = start + at * PAGE,
                                    .src = address(from) + at * PAGE,
                                    .len = (count - at) * PAGE };
        uint64_t done;
        int result;

        if (is_wrong("twice"))
            call.mode = UFFDIO_COPY_MODE_DONTWAKE;
        result = ioctl(object, UFFDIO_COPY, &call);
        if (result && errno != EEXIST && errno != EAGAIN)
            fail("UFFDIO_COPY");
        done = call.copy > 0 ? (uint64_t)call.copy / PAGE : 0;
        has_put = has_put || (asked >= at && asked < at + done);
        at += done;
        if (result && errno == EEXIST && !done)
            at++;
    }
    return has_put;
}

static void serve(long index, uint64_t page)
{
    uint64_t number = (page - address(areas[index])) / PAGE, first = number - number % (uint64_t)window;
    uint64_t count = first + (uint64_t)window > (uint64_t)pages ? (uint64_t)pages - first : (uint64_t)window;
    const char *from = source + first * PAGE;
    bool has_put;

    if (index == 0 && wrong_now("unregister", page)) {
        object_unregister(objects[0], areas[0], (size_t)pages * PAGE);
        return;
    }
    has_put = put_window(objects[index], address(areas[index]) + first * PAGE, from, count, number - first);
    if (is_wrong("twice") ? has_put : !has_put) /* another thread's call has put it */
        object_wake(objects[index], page, PAGE);
}

static void *handle(void *unused)
{
    struct pollfd fds[MOST_OBJECTS];

    (void)unused;
    for (long i = 0; i < object_count; i++)
        fds[i] = (struct pollfd){ objects[i], POLLIN, 0 };
    while (!atomic_load(&is_done)) {
        int ready = poll(fds, (nfds_t)object_count, 20);

        if (ready < 0 && errno != EINTR)
            fail("poll");
        for (long i = 0; ready > 0 && i < object_count; i++) {
            struct uffd_msg message;

            if (fds[i].revents & POLLIN && object_read(objects[i], &message, 1))
                serve(i, page_of(&message));
        }
    }
    return NULL;
}

static void *touch(void *number)
{
    struct random random = random_of((uint64_t)(long)number + 1);

    for (long i = 0; i < touches; i++) {
        uint64_t area = random_below(&random, (uint64_t)object_count), page = random_below(&random, (uint64_t)pages);

        if (last_word(areas[area] + page * PAGE) != word_of(page) && !is_wrong("unregister"))
            fail("page %llu of area %llu has wrong bytes", (unsigned long long)page, (unsigned long long)area);
        nap(&random, 20);
    }
    return NULL;
}

int main(int argc, char **argv)
{
    struct crew touchers, servers;

    options_begin(argc, argv);
    object_count = option("objects", 3);
    pages = option("pages", 512);
    threads = option("threads", 6);
    touches = option("touches", 400);
    handlers = option("handlers", 2);
    window = option("window", 8);
    options_end();
    if (object_count < 1 || object_count > MOST_OBJECTS || window < 1)
        fail("an option is too small or too large");
    source = map_pages((size_t)pages);
    for (long i = 0; i < pages; i++)
        fill_page(source + (size_t)i * PAGE, (uint64_t)i);
    for (long i = 0; i < object_count; i++) {
        objects[i] = object_open(0);
        areas[i] = map_pages((size_t)pages);
        object_register(objects[i], areas[i], (size_t)pages * PAGE, UFFDIO_REGISTER_MODE_MISSING);
    }
    crew_start(&servers, handlers, handle);
    crew_start(&touchers, threads, touch);
    crew_join(&touchers);
    atomic_store(&is_done, true);
    crew_join(&servers);
    for (long i = 0; i < object_count; i++)
        object_close(objects[i]);
    return 0;
}
