/*
 * A microVM restored from a snapshot: the monitor's process makes the object, sends it to a handler's process, and
 * closes its own. A balloon may give pages of the guest back meanwhile: REMOVE. The guest has zeros there then, and no
 * longer what the snapshot has.
 *
 *     pages threads touches   of the guest
 *     balloon batch keep      ranges that it gives back; messages a read; whether the monitor keeps its descriptor
 *     apart                   whether each thread has pages of its own
 *     wrong=skip elsewhere bytes dontwake closed stale giveup
 */
#include <errno.h>
#include <stdlib.h>
#include <string.h>
#include <sys/ioctl.h>
#include <sys/mman.h>
#include <sys/socket.h>
#include <unistd.h>

#include "common.h"
#include "object.h"

#define BALLOON_PAGES 16

static long pages, threads, touches, balloon, batch, keep, apart;
static char *guest, *snapshot;

/* The handler's: the memory of the guest has another address in the monitor. */
static uint64_t guest_start;
static bool *given_back;
static uint64_t waiting[MOST_MESSAGES * 4]; /* pages that a thread waits for */
static size_t waiting_count;

static uint64_t page_number(uint64_t page)
{
    return (page - guest_start) / PAGE;
}

static enum put put_asleep(int object, uint64_t page, const void *from)
{
    struct uffdio_copy call = { .dst = page, .src = address(from), .len = PAGE, .mode = UFFDIO_COPY_MODE_DONTWAKE };

    return put_of(object, page, ioctl(object, UFFDIO_COPY, &call));
}

static enum put serve(int object, uint64_t page)
{
    uint64_t number = page_number(page);
    const char *from = snapshot + number * PAGE;

    if (wrong_now("skip", page))
        return PUT;
    if (wrong_now("elsewhere", page))
        return put_copy(object, guest_start + (number + 1) % (uint64_t)pages * PAGE, from);
    if (wrong_now("bytes", page))
        return put_copy(object, page, snapshot + (number + 1) % (uint64_t)pages * PAGE);
    if (wrong_now("dontwake", page))
        return put_asleep(object, page, from);
    return given_back[number] ? put_zeros(object, page) : put_copy(object, page, from);
}

/* An event first, since a page that it gives back is not to have the snapshot's bytes. */
static void take(int object)
{
    struct uffd_msg messages[MOST_MESSAGES];
    size_t count = object_read(object, messages, (size_t)batch);

    for (size_t i = 0; i < count; i++) {
        const struct uffd_msg *message = &messages[i];

        if (message->event == UFFD_EVENT_PAGEFAULT)
            waiting[waiting_count++] = page_of(message);
        else if (message->event != UFFD_EVENT_REMOVE)
            fail("event 0x%x", message->event);
        else
            for (uint64_t page = message->arg.remove.start; page < message->arg.remove.end; page += PAGE)
                given_back[page_number(page)] = !is_wrong("stale");
    }
}

/* What cannot be put before an event is read waits for the next round. */
static void serve_waiting(int object)
{
    size_t kept = 0;

    for (size_t i = 0; i < waiting_count; i++)
        if (serve(object, waiting[i]) == AGAIN && !wrong_now("giveup", waiting[i]))
            waiting[kept++] = waiting[i];
    waiting_count = kept;
}

static bool has_room(void)
{
    return waiting_count + (size_t)batch <= sizeof waiting / sizeof *waiting;
}

/* Until the monitor closes its end of the socket. */
static void handle(int socket)
{
    int object = receive_object(socket, &guest_start, sizeof guest_start);
    struct ready ready = { false, false };

    given_back = calloc((size_t)pages, sizeof *given_back);
    if (!given_back)
        fail("calloc");
    while (!ready.other) {
        ready = object_poll(object, socket, waiting_count ? 0 : -1);
        if (ready.object && has_room())
            take(object);
        if (waiting_count && wrong_now("closed", waiting[0]))
            break;
        serve_waiting(object);
    }
    object_close(object);
    free(given_back);
}

static void *run_processor(void *number)
{
    long own = (long)number;
    struct random random = random_of((uint64_t)own + 1);

    for (long i = 0; i < touches; i++) {
        uint64_t page = random_below(&random, (uint64_t)pages), found;

        if (apart)
            page = (page - page % (uint64_t)threads + (uint64_t)own) % (uint64_t)pages;
        if (i % 3 == 0)
            ((volatile uint64_t *)(guest + page * PAGE))[8 + own] = page;
        found = first_word(guest + page * PAGE);
        if (found != word_of(page) && (found || !balloon) && !is_wrong("elsewhere") && !is_wrong("bytes") &&
            !is_wrong("closed"))
            fail("page %llu has the bytes of another", (unsigned long long)page);
        if (i % 16 == 0)
            nap(&random, 50);
    }
    return NULL;
}

static void *inflate_balloon(void *unused)
{
    struct random random = random_of(1000);

    (void)unused;
    for (long i = 0; i < balloon; i++) {
        uint64_t count = 1 + random_below(&random, BALLOON_PAGES),
                 first = random_below(&random, (uint64_t)pages - count);

        if (madvise(guest + first * PAGE, count * PAGE, MADV_DONTNEED))
            fail("madvise");
        nap(&random, 200);
    }
    return NULL;
}

static void monitor(int socket)
{
    int object = object_open(balloon ? UFFD_FEATURE_EVENT_REMOVE : 0);
    struct crew crew;
    pthread_t giver;

    guest = map_pages((size_t)pages);
    guest_start = address(guest);
    object_register(object, guest, (size_t)pages * PAGE, UFFDIO_REGISTER_MODE_MISSING);
    send_object(socket, object, &guest_start, sizeof guest_start);
    if (!keep)
        object_close(object);
    crew_start(&crew, threads, run_processor);
    giver = thread_start(inflate_balloon, NULL);
    crew_join(&crew);
    thread_join(giver);
    if (keep)
        object_close(object);
    if (shutdown(socket, SHUT_RDWR))
        fail("shutdown");
}

int main(int argc, char **argv)
{
    int ends[2];
    pid_t handler;

    options_begin(argc, argv);
    pages = option("pages", 512);
    threads = option("threads", 4);
    touches = option("touches", 1000);
    balloon = option("balloon", 0);
    batch = option("batch", 1);
    keep = option("keep", 0);
    apart = option("apart", 0);
    if (pages <= BALLOON_PAGES || batch < 1 || batch > MOST_MESSAGES || threads < 1)
        fail("an option is too small or too large");
    snapshot = map_pages((size_t)pages);
    for (long i = 0; i < pages; i++)
        fill_page(snapshot + (size_t)i * PAGE, (uint64_t)i);
    if (socketpair(AF_UNIX, SOCK_STREAM | SOCK_CLOEXEC, 0, ends))
        fail("socketpair");
    handler = fork_checked();
    if (handler == 0) {
        if (close(ends[0]))
            fail("close");
        options_end();
        handle(ends[1]);
        return 0;
    }
    if (close(ends[1]))
        fail("close");
    options_end();
    monitor(ends[0]);
    await_child(handler);
    return 0;
}
