/*
 * A process restored lazily: the task makes the object, sends it to a daemon with the places of its areas, and closes
 * its own. It moves one area and unmaps a part of the other while the daemon serves it: REMAP and UNMAP. The daemon
 * puts what is asked for, and with `push` the rest too.
 *
 *     pages threads touches   of the task: pages of each of two areas
 *     moves batch push        how often the first area moves; messages a read; whether the daemon puts the rest
 *     keep                    whether the task keeps its own descriptor
 *     wrong=remap unmap       the daemon does not follow this event
 */
#include <stdatomic.h>
#include <string.h>
#include <sys/mman.h>
#include <sys/socket.h>
#include <unistd.h>

#include "common.h"
#include "object.h"

#define AREAS 2

static long pages, threads, touches, moves, batch, push, keep;
static char *image; /* AREAS times `pages` */
static char *areas[AREAS];
static atomic_bool is_done;
static _Atomic uint64_t rounds; /* of the first area's threads: each touches other pages */

/* A part of the task's memory, as the daemon knows it: its pages are those of the image from `first` on. */
struct part {
    uint64_t start, count, first;
};
static struct part parts[2 * AREAS];
static size_t part_count;
static uint64_t waiting[MOST_MESSAGES * 4];
static size_t waiting_count;
static uint64_t pushed;

static void move_parts(uint64_t from, uint64_t to, uint64_t length)
{
    for (size_t i = 0; i < part_count && !is_wrong("remap"); i++)
        if (parts[i].start >= from && parts[i].start < from + length)
            parts[i].start += to - from;
}

/* The task unmaps the end of an area alone. */
static void cut_parts(uint64_t start, uint64_t end)
{
    for (size_t i = 0; i < part_count && !is_wrong("unmap"); i++)
        if (start > parts[i].start && start < parts[i].start + parts[i].count * PAGE &&
            end >= parts[i].start + parts[i].count * PAGE)
            parts[i].count = (start - parts[i].start) / PAGE;
}

static void take(int object)
{
    struct uffd_msg messages[MOST_MESSAGES];
    size_t count = object_read(object, messages, (size_t)batch);

    for (size_t i = 0; i < count; i++) {
        const struct uffd_msg *message = &messages[i];

        if (message->event == UFFD_EVENT_PAGEFAULT)
            waiting[waiting_count++] = page_of(message);
        else if (message->event == UFFD_EVENT_REMAP)
            move_parts(message->arg.remap.from, message->arg.remap.to, message->arg.remap.len);
        else if (message->event == UFFD_EVENT_UNMAP)
            cut_parts(message->arg.remove.start, message->arg.remove.end);
        else
            fail("event 0x%x", message->event);
    }
}

static enum put serve(int object, uint64_t page)
{
    for (size_t i = 0; i < part_count; i++)
        if (page >= parts[i].start && page - parts[i].start < parts[i].count * PAGE)
            return put_copy(object, page, image + (parts[i].first + (page - parts[i].start) / PAGE) * PAGE);
    return GONE;
}

static void serve_waiting(int object)
{
    size_t kept = 0;

    for (size_t i = 0; i < waiting_count; i++)
        if (serve(object, waiting[i]) == AGAIN)
            waiting[kept++] = waiting[i];
    waiting_count = kept;
}

/* One more page of those that no one has asked for: in the order of the image. False where there is none. */
static bool push_one(int object)
{
    for (size_t i = 0; push && i < part_count; i++) {
        uint64_t number = pushed - parts[i].first;

        if (pushed < parts[i].first || number >= (uint64_t)pages)
            continue;
        if (number >= parts[i].count ||
            put_copy(object, parts[i].start + number * PAGE, image + pushed * PAGE) != AGAIN)
            pushed++;
        return true;
    }
    return false;
}

static void serve_task(int socket)
{
    uint64_t starts[AREAS];
    int object = receive_object(socket, starts, sizeof starts);
    struct ready ready = { false, false };
    bool is_pushing = push;

    for (part_count = 0; part_count < AREAS; part_count++)
        parts[part_count] = (struct part){ starts[part_count], (uint64_t)pages, part_count * (uint64_t)pages };
    while (!ready.other) {
        ready = object_poll(object, socket, waiting_count ? 0 : is_pushing ? 1 : -1);
        if (ready.object && waiting_count + (size_t)batch <= sizeof waiting / sizeof *waiting)
            take(object);
        serve_waiting(object);
        if (is_pushing && !ready.object)
            is_pushing = push_one(object);
    }
    object_close(object);
}

static void touch(uint64_t area, uint64_t page)
{
    uint64_t expected = word_of(area * (uint64_t)pages + page);

    if (first_word(areas[area] + page * PAGE) != expected || last_word(areas[area] + page * PAGE) != expected)
        fail("page %llu of area %llu has wrong bytes", (unsigned long long)page, (unsigned long long)area);
}

/* Of the second area, whose last quarter is unmapped meanwhile. */
static void *touch_second(void *number)
{
    struct random random = random_of((uint64_t)(long)number + 1);

    for (long i = 0; i < touches || !atomic_load(&is_done); i++) {
        touch(1, random_below(&random, (uint64_t)pages * 3 / 4));
        nap(&random, 30);
    }
    return NULL;
}

static void *touch_first(void *number)
{
    struct random random = random_of((uint64_t)(long)number + 100 * ++rounds);

    for (long i = 0; i < touches / 4; i++)
        touch(0, random_below(&random, (uint64_t)pages));
    return NULL;
}

static void run_first(void)
{
    struct crew crew;

    crew_start(&crew, threads, touch_first);
    crew_join(&crew);
}

static void move_first(void)
{
    size_t length = (size_t)pages * PAGE;
    char *place = map_pages((size_t)pages);

    if (mremap(areas[0], length, length, MREMAP_MAYMOVE | MREMAP_FIXED, place) != place)
        fail("mremap");
    areas[0] = place;
}

static void run_task(int socket)
{
    int object = object_open(UFFD_FEATURE_EVENT_REMAP | UFFD_FEATURE_EVENT_UNMAP | UFFD_FEATURE_EVENT_REMOVE);
    uint64_t starts[AREAS];
    struct crew crew;

    for (int i = 0; i < AREAS; i++) {
        areas[i] = map_pages((size_t)pages);
        starts[i] = address(areas[i]);
        object_register(object, areas[i], (size_t)pages * PAGE, UFFDIO_REGISTER_MODE_MISSING);
    }
    send_object(socket, object, starts, sizeof starts);
    if (!keep)
        object_close(object);
    crew_start(&crew, threads, touch_second);
    run_first();
    if (munmap(areas[1] + (size_t)pages * 3 / 4 * PAGE, (size_t)pages / 4 * PAGE))
        fail("munmap");
    for (long i = 0; i < moves; i++) {
        move_first();
        run_first();
    }
    atomic_store(&is_done, true);
    crew_join(&crew);
    if (keep)
        object_close(object);
}

int main(int argc, char **argv)
{
    int ends[2];
    pid_t task;

    options_begin(argc, argv);
    pages = option("pages", 256);
    threads = option("threads", 3);
    touches = option("touches", 200);
    moves = option("moves", 2);
    batch = option("batch", 1);
    push = option("push", 0);
    keep = option("keep", 0);
    if (pages % 4 || pages < 4 || batch < 1 || batch > MOST_MESSAGES)
        fail("an option is too small or too large, or pages is not a multiple of four");
    if (socketpair(AF_UNIX, SOCK_STREAM | SOCK_CLOEXEC, 0, ends))
        fail("socketpair");
    task = fork_checked();
    if (close(ends[task ? 1 : 0]))
        fail("close");
    options_end();
    if (task == 0) {
        run_task(ends[1]);
        return 0;
    }
    image = map_pages(AREAS * (size_t)pages);
    for (size_t i = 0; i < AREAS * (size_t)pages; i++)
        fill_page(image + i * PAGE, i);
    serve_task(ends[0]);
    await_child(task);
    return 0;
}
