/* The same guest, connections and calls of the kernel without a node: what a migration costs beside it is the
   node's and the driver's. One process has both sides, of each slice in two threads. */
#include <errno.h>
#include <inttypes.h>
#include <poll.h>
#include <pthread.h>
#include <stdio.h>
#include <stdlib.h>
#include <string.h>

#include "door.h"
#include "figures.h"
#include "guest.h"
#include "kernel.h"
#include "log.h"
#include "roles.h"
#include "slices.h"
#include "wire.h"

#define HEAD_BYTES 16u
#define FRAME_BYTES (HEAD_BYTES + PAGE_BYTES)
#define REQUEST_BYTES 4u
#define MOST_UNSENT (128u << 10) /* as that of a source, */
#define PAGES_AT_A_TIME 16u      /* and of a destination */
#define MOST_MESSAGES 16u
#define URGENT_NS 5000000u

struct bare {
    const struct options *options;
    struct slices *slices;
    struct guest *guest;
    uint32_t slice, pages;
    char text[32]; /* of the address */
    struct address address;
    struct door door;
    char *from, *to;              /* of this slice */
    uint32_t next, sent;          /* as a source, it continues after the page that was asked for last */
    bool *is_sent, *is_installed; /* each page; */
    uint64_t *waited_since;       /* and since when someone waits for it, or 0 */
    int userfault;
    uint32_t installed, waiting; /* pages, and those that someone waits for */
    uint64_t last_request;
    struct stream main, urgent; /* of the putting side */
    struct samples waits;
    uint64_t busy_sending, busy_installing; /* nanoseconds of processor time */
    uint64_t took;                          /* and of time */
};

static void expect(bool is_whole)
{
    if (!is_whole)
        refuse("the connection is broken");
}

/* SENDING */

static void send_page(struct bare *bare, struct stream *stream, uint32_t page)
{
    uint8_t *out = stream_room(stream, FRAME_BYTES);

    bare->next = (page + 1) % bare->pages;
    if (bare->is_sent[page])
        return;
    bare->is_sent[page] = true;
    bare->sent++;
    memset(out, 0, HEAD_BYTES);
    memcpy(out, &page, sizeof page);
    memcpy(out + HEAD_BYTES, bare->from + (size_t)page * PAGE_BYTES, PAGE_BYTES);
    stream->out.end += FRAME_BYTES;
}

static void serve(struct bare *bare, struct stream *main, struct stream *urgent)
{
    expect(stream_receive(main, 0));
    for (; stream_length(main) >= REQUEST_BYTES; stream_take(main, REQUEST_BYTES)) {
        uint32_t page;

        memcpy(&page, stream_front(main), sizeof page);
        send_page(bare, urgent, page);
        bare->last_request = kernel_now();
    }
}

/* Each connection begins with a head that is not a page's. (Without a byte no one accepts it.) */
static void connect_there(const struct bare *bare, struct stream *stream)
{
    int file = wire_connect(&bare->address, bare->options->buffer);

    if (file < 0)
        refuse_errno(errno, "%s", bare->address.text);
    stream_open(stream, file, NULL, &(struct cut)NO_CUT);
    memset(stream_room(stream, HEAD_BYTES), 0, HEAD_BYTES);
    stream->out.end += HEAD_BYTES;
    while (stream_unsent(stream)) {
        struct pollfd made = { .fd = stream->file, .events = POLLOUT };

        (void)poll(&made, 1, 100); /* it is tried again */
        expect(stream_send(stream));
    }
}

static void *send_all(void *argument)
{
    struct bare *bare = argument;
    struct stream main = NO_STREAM, urgent = NO_STREAM;
    uint32_t pages = bare->pages;

    connect_there(bare, &main);
    connect_there(bare, &urgent);
    if (bare->options->goes_first)
        (void)kernel_go_first(); /* as much as is allowed */
    while (bare->sent < pages || stream_unsent(&main) || stream_unsent(&urgent)) {
        struct pollfd files[] = { stream_waits(&main), stream_waits(&urgent) };

        serve(bare, &main, bare->options->has_urgent ? &urgent : &main);
        expect(stream_send(&urgent));
        for (uint32_t few = 0; few < PAGES_AT_A_TIME && bare->sent < pages && stream_unsent(&main) < MOST_UNSENT; few++)
            send_page(bare, &main, bare->next);
        expect(stream_send(&main));
        kernel_first(stream_unsent(&main) >= MOST_UNSENT || kernel_now() - bare->last_request < URGENT_NS);
        if ((stream_unsent(&main) >= MOST_UNSENT || bare->sent == pages) && poll(files, 2, 100) < 0 && errno != EINTR)
            refuse_errno(errno, "poll");
    }
    bare->busy_sending = kernel_thread_time();
    while (stream_receive(&main, 0)) { /* until the other side closes it */
        stream_take(&main, stream_length(&main));
        (void)poll(&(struct pollfd){ .fd = main.file, .events = POLLIN }, 1, -1); /* it is looked at again */
    }
    stream_free(&main);
    stream_free(&urgent);
    return NULL;
}

/* PUTTING */

static char *page_at(const struct bare *bare, uint32_t page)
{
    return bare->to + (size_t)page * PAGE_BYTES;
}

static void install_page(struct bare *bare, uint32_t page, const uint8_t *bytes)
{
    int error = kernel_copy(bare->userfault, page_at(bare, page), bytes);

    if (error)
        refuse_errno(error, "UFFDIO_COPY");
    bare->is_installed[page] = true;
    bare->installed++;
    if (!bare->waited_since[page])
        return;
    bare->waiting--;
    samples_add(&bare->waits, kernel_now() - bare->waited_since[page]);
}

static void install_some(struct bare *bare, struct stream *stream)
{
    if (stream_length(stream) < FRAME_BYTES) /* (what is received waits here, and not where it is bounded) */
        expect(stream_receive(stream, 0));
    for (uint32_t few = 0; few < PAGES_AT_A_TIME && stream_length(stream) >= FRAME_BYTES; few++) {
        uint32_t page;

        memcpy(&page, stream_front(stream), sizeof page);
        install_page(bare, page, stream_front(stream) + HEAD_BYTES);
        stream_take(stream, FRAME_BYTES);
    }
}

static void take_fault(struct bare *bare, const struct uffd_msg *message)
{
    uint64_t at = message->arg.pagefault.address - (uintptr_t)bare->to;
    uint32_t page = (uint32_t)(at / PAGE_BYTES),
             thread = guest_thread_of(bare->guest, message->arg.pagefault.feat.ptid);

    if (bare->is_installed[page]) {
        if (kernel_wake(bare->userfault, page_at(bare, page)))
            refuse("UFFDIO_WAKE");
    } else if (!bare->waited_since[page]) {
        bare->waited_since[page] = guest_access_begun(bare->guest, thread);
        bare->waiting++;
        memcpy(stream_room(&bare->main, REQUEST_BYTES), &page, REQUEST_BYTES);
        bare->main.out.end += REQUEST_BYTES;
    }
}

static void take_faults(struct bare *bare)
{
    struct uffd_msg messages[MOST_MESSAGES];
    size_t count;

    while ((count = kernel_read(bare->userfault, messages, MOST_MESSAGES)))
        for (size_t i = 0; i < count; i++)
            take_fault(bare, &messages[i]);
    expect(stream_send(&bare->main));
}

static void install_all(struct bare *bare)
{
    uint64_t begun = kernel_thread_time();

    while (bare->installed < bare->pages) {
        struct pollfd files[] = { stream_waits(&bare->main),
                                  stream_waits(&bare->urgent),
                                  { .fd = bare->userfault, .events = POLLIN } };
        bool has_more = stream_length(&bare->main) >= FRAME_BYTES || stream_length(&bare->urgent) >= FRAME_BYTES;

        kernel_first(!has_more || bare->waiting);
        if (poll(files, 3, has_more ? 0 : 100) < 0 && errno != EINTR)
            refuse_errno(errno, "poll");
        take_faults(bare);
        install_some(bare, &bare->urgent);
        install_some(bare, &bare->main);
    }
    bare->busy_installing = kernel_thread_time() - begun;
    slice_completes(bare->slices, bare->slice);
    if (slices_are_complete(bare->slices))
        guest_ask_stop(bare->guest);
    while (!guest_has_stopped(bare->guest)) { /* faults that were read late */
        take_faults(bare);
        (void)poll(NULL, 0, 1); /* a shorter wait is as good */
    }
    guest_join(bare->guest);
}

static void accept_one(const struct door *door, struct stream *stream)
{
    int file = -1;

    while (file < 0) {
        struct pollfd files = { .fd = door->file, .events = POLLIN };

        if (poll(&files, 1, 100) < 0 && errno != EINTR)
            refuse_errno(errno, "poll");
        file = accept4(door->file, NULL, NULL, SOCK_NONBLOCK | SOCK_CLOEXEC);
    }
    stream_open(stream, file, NULL, &(struct cut)NO_CUT);
    while (stream_length(stream) < HEAD_BYTES)
        expect(stream_receive(stream, HEAD_BYTES));
    stream_take(stream, HEAD_BYTES);
}

/* THE START */

/* Listens at a port of the kernel's choice. */
static void open_door(struct bare *bare)
{
    address_read(&bare->address, "127.0.0.1:0");
    door_open(&bare->door, &bare->address, bare->options->buffer, NULL);
    (void)snprintf(bare->text, sizeof bare->text, "127.0.0.1:%u", door_port(&bare->door)); /* it fits */
    address_read(&bare->address, bare->text);
}

static void prepare(struct bare *bare, struct slices *slices, uint32_t slice, char *from)
{
    size_t first = (size_t)slice_first(slices, slice) * PAGE_BYTES;

    bare->slices = slices;
    bare->guest = &slices->guest;
    bare->slice = slice;
    bare->pages = slice_pages(slices, slice);
    bare->main = bare->urgent = (struct stream)NO_STREAM;
    bare->from = from + first;
    bare->to = slices->guest.memory + first;
    bare->is_sent = calloc(bare->pages, sizeof *bare->is_sent);
    bare->is_installed = calloc(bare->pages, sizeof *bare->is_installed);
    bare->waited_since = calloc(bare->pages, sizeof *bare->waited_since);
    if (!bare->is_sent || !bare->is_installed || !bare->waited_since)
        refuse("no memory for the list of pages");
    bare->userfault = kernel_open_userfault();
    kernel_register(bare->userfault, bare->to, (size_t)bare->pages * PAGE_BYTES, false);
    open_door(bare);
}

/* What the memory has before the first operation is at `from`; the guest finds none of it. */
static void begin(struct bare *bares, struct slices *slices, const struct options *options)
{
    const size_t bytes = (size_t)options->plan.pages * PAGE_BYTES;
    char *from = kernel_map(bytes);

    guest_open(&slices->guest, &options->plan, &options->pace, from);
    guest_fill(&slices->guest);
    slices->guest.memory = kernel_map(bytes);
    slices_begin(slices, options);
    for (uint32_t i = 0; i < slices->count; i++) {
        bares[i].options = options;
        prepare(&bares[i], slices, i, from);
    }
    guest_make(&slices->guest);
}

static void run_slice(void *side)
{
    struct bare *bare = side;
    pthread_t sender;
    uint64_t begun;
    int error = pthread_create(&sender, NULL, send_all, bare);

    if (error)
        refuse_errno(error, "a thread cannot be started");
    accept_one(&bare->door, &bare->main);
    accept_one(&bare->door, &bare->urgent);
    if (bare->options->goes_first)
        (void)kernel_go_first(); /* as much as is allowed */
    slices_meet(bare->slices);
    begun = kernel_now();
    if (!bare->slice)
        guest_start(bare->guest);
    install_all(bare);
    bare->took = kernel_now() - begun;
    stream_close(&bare->main);
    stream_close(&bare->urgent);
    error = pthread_join(sender, NULL);
    if (error)
        refuse_errno(error, "a thread does not end");
    door_close(&bare->door);
    kernel_unregister(bare->userfault, bare->to, (size_t)bare->pages * PAGE_BYTES);
}

static void add_figures(struct bare *all, const struct bare *one)
{
    all->took = one->took > all->took ? one->took : all->took;
    all->busy_sending += one->busy_sending;
    all->busy_installing += one->busy_installing;
    for (size_t i = 0; i < one->waits.count; i++)
        samples_add(&all->waits, one->waits.value[i]);
}

int bare_run(const struct options *options)
{
    static struct slices slices;
    struct bare *bares = calloc(options->slices, sizeof *bares);

    if (!bares)
        refuse("no memory for %u slices", options->slices);
    begin(bares, &slices, options);
    slices_run(&slices, run_slice, bares, sizeof *bares);
    for (uint32_t i = 1; i < slices.count; i++)
        add_figures(bares, &bares[i]);
    log_figures("bare pages=%u took=%" PRIu64 " sending=%" PRIu64 " putting=%" PRIu64, options->plan.pages, bares->took,
                bares->busy_sending, bares->busy_installing);
    log_figures(" waits=%zu p50=%.1f p99=%.1f most=%.1f\n", bares->waits.count, samples_part(&bares->waits, 500),
                samples_part(&bares->waits, 990), samples_part(&bares->waits, 1000));
    return guest_verdict(&slices.guest);
}
