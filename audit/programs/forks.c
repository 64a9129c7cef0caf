/*
 * A process that forks while its pages come: the handler gets an object for each child with the message FORK, and
 * serves both.
 *
 *     pages threads touches   of the parent; each child touches as many pages, in one thread
 *     children                one after the other
 */
#include <errno.h>
#include <poll.h>
#include <stdatomic.h>
#include <unistd.h>

#include "common.h"
#include "object.h"

static long pages, threads, touches, children;
static int object;
static _Atomic int child_object = -1;
static char *area, *source;
static atomic_bool is_done;

static void serve_message(int of, const struct uffd_msg *message)
{
    uint64_t number = (page_of(message) - address(area)) / PAGE;

    if (message->event == UFFD_EVENT_FORK)
        atomic_store(&child_object, (int)message->arg.fork.ufd);
    else if (message->event == UFFD_EVENT_PAGEFAULT)
        while (put_copy(of, page_of(message), source + number * PAGE) == AGAIN)
            if (of == object) { /* the event of a fork is to be read first */
                struct uffd_msg next;

                if (object_read(object, &next, 1))
                    serve_message(object, &next);
            }
}

static void *serve(void *unused)
{
    (void)unused;
    while (!atomic_load(&is_done)) {
        struct pollfd fds[2] = { { object, POLLIN, 0 }, { atomic_load(&child_object), POLLIN, 0 } };
        int ready = poll(fds, 2, 10);

        if (ready < 0 && errno != EINTR)
            fail("poll");
        for (int i = 0; ready > 0 && i < 2; i++) {
            struct uffd_msg message;

            if (fds[i].revents & POLLIN && object_read(fds[i].fd, &message, 1))
                serve_message(fds[i].fd, &message);
        }
    }
    return NULL;
}

static void touch_pages(uint64_t stream)
{
    struct random random = random_of(stream);

    for (long i = 0; i < touches; i++) {
        uint64_t number = random_below(&random, (uint64_t)pages);

        if (last_word(area + number * PAGE) != word_of(number))
            fail("page %llu has wrong bytes", (unsigned long long)number);
        nap(&random, 20);
    }
}

static void *touch(void *thread)
{
    touch_pages((uint64_t)(long)thread + 1);
    return NULL;
}

static void run_child(uint64_t number)
{
    pid_t child = fork_checked();
    int closed;

    if (child == 0) {
        touch_pages(100 + number);
        _exit(0);
    }
    await_child(child);
    closed = atomic_exchange(&child_object, -1);
    if (closed < 0)
        fail("no message FORK came");
    /* The handler may be in its poll, which then ends by its time. */
    object_close(closed);
}

int main(int argc, char **argv)
{
    struct crew crew;
    pthread_t server;

    options_begin(argc, argv);
    pages = option("pages", 256);
    threads = option("threads", 2);
    touches = option("touches", 150);
    children = option("children", 3);
    options_end();
    area = map_pages((size_t)pages);
    source = map_pages((size_t)pages);
    for (long i = 0; i < pages; i++)
        fill_page(source + i * PAGE, (uint64_t)i);
    object = object_open(UFFD_FEATURE_EVENT_FORK);
    object_register(object, area, (size_t)pages * PAGE, UFFDIO_REGISTER_MODE_MISSING);
    server = thread_start(serve, NULL);
    crew_start(&crew, threads, touch);
    for (long i = 0; i < children; i++)
        run_child((uint64_t)i);
    crew_join(&crew);
    atomic_store(&is_done, true);
    thread_join(server);
    object_close(object);
    return 0;
}
