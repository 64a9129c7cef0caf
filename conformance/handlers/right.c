// A right handler of the destination, as right.py, with the structures of the kernel: by calls, or with -DDESCRIPTOR on
// a descriptor.
#ifdef DESCRIPTOR
#include "descriptor.h"
#else
#include "calls.h"
#endif

#define PAGE 4096ull
#define MOST_OWED (1 << 16)
#define MOST_WAITING 4096
#define MOST_MESSAGES 64

// Frames of docs/FORMATS.md.
enum tag { COPY = 2, ZERO = 3, PACKAGE = 5, END = 6, RESUME = 7, REQUEST = 0x81, RECV = 0x82, DONE = 0x83 };
enum state { RUNNING = 1, ENDED = 2 };

// An owed page: where it lies now, and its number at the source.
struct owed {
    uint64_t page, origin;
    int is_requested;
};

// What was refused with EAGAIN, to be tried again: a fault at a page, or a copy of an origin with its bytes (0: zeros).
struct waiting {
    uint64_t number;
    int is_copy;
    unsigned char *bytes;
};

static struct owed owed[MOST_OWED];
static struct waiting waiting[MOST_WAITING];
static struct uffdio_range moved[MOST_WAITING]; // old places of which an UNMAP is still to come
static size_t owed_count, waiting_count, moved_count;
static uint32_t epoch;
static int has_ended;

static _Noreturn void die(const char *why)
{
    fprintf(stderr, "handler: %s: %s\n", why, strerror(errno));
    exit(1);
}

static uint32_t number_at(const unsigned char *at)
{
    return (uint32_t)at[0] << 24 | at[1] << 16 | at[2] << 8 | at[3];
}

static void put_number(unsigned char *at, uint32_t number)
{
    for (int i = 0; i < 4; i++)
        at[i] = number >> (24 - 8 * i);
}

static void send_frame(enum tag tag, unsigned char *frame, size_t length)
{
    memset(frame, 0, 12);
    frame[0] = 2;
    frame[1] = tag;
    put_number(frame + 4, epoch);
    put_number(frame + 8, length);
    // (while the channel is lost this is refused; the report after Resume says it again)
    handler_send(frame, 12 + length);
}

static void request(struct owed *page)
{
    unsigned char frame[16];
    page->is_requested = 1;
    put_number(frame + 12, page->origin);
    send_frame(REQUEST, frame, 4);
}

static void wake(uint64_t start, uint64_t length)
{
    struct uffdio_range range = { start, length };
    if (handler_ioctl(UFFDIO_WAKE, &range))
        die("UFFDIO_WAKE");
}

static void try_again(uint64_t number, int is_copy, const unsigned char *bytes)
{
    struct waiting *last = &waiting[waiting_count++];
    if (waiting_count > MOST_WAITING)
        die("too much waits");
    *last = (struct waiting){ number, is_copy, 0 };
    if (bytes && !(last->bytes = malloc(PAGE)))
        die("no memory");
    if (bytes)
        memcpy(last->bytes, bytes, PAGE);
}

// Makes a page present, and wakes who sleeps on it: 0, or EAGAIN. A stale page is only woken: EEXIST, ENOENT.
static int put(uint64_t page, const unsigned char *bytes)
{
    struct uffdio_copy copy = { page * PAGE, (uintptr_t)bytes, PAGE, 0, 0 };
    struct uffdio_zeropage zero = { { page * PAGE, PAGE }, 0, 0 };
    int fault;
    if (!(bytes ? handler_ioctl(UFFDIO_COPY, &copy) : handler_ioctl(UFFDIO_ZEROPAGE, &zero)))
        return 0;
    fault = errno;
    if (fault == EEXIST || fault == ENOENT)
        wake(page * PAGE, PAGE);
    else if (fault != EAGAIN)
        die("a page");
    return fault;
}

static void take_fault(uint64_t page)
{
    for (size_t i = 0; i < owed_count; i++)
        if (owed[i].page == page) {
            if (!owed[i].is_requested)
                request(&owed[i]);
            return;
        }
    if (put(page, 0) == EAGAIN)
        try_again(page, 0, 0);
}

// A copy whose page is owed nowhere is dropped.
static void take_copy(uint64_t origin, const unsigned char *bytes)
{
    for (size_t i = 0; i < owed_count; i++)
        if (owed[i].origin == origin) {
            int fault = put(owed[i].page, bytes);
            if (fault == EAGAIN)
                try_again(origin, 1, bytes);
            else if (!fault)
                owed[i] = owed[--owed_count];
            return;
        }
}

static void drop(uint64_t start, uint64_t end)
{
    size_t left = 0;
    for (size_t i = 0; i < owed_count; i++)
        if (owed[i].page * PAGE < start || owed[i].page * PAGE >= end)
            owed[left++] = owed[i];
    owed_count = left;
}

static void take_remap(uint64_t from, uint64_t to, uint64_t length)
{
    drop(to, to + length);
    for (size_t i = 0; i < owed_count; i++)
        if (owed[i].page * PAGE >= from && owed[i].page * PAGE < from + length)
            owed[i].page += to / PAGE - from / PAGE;
    moved[moved_count++ % MOST_WAITING] = (struct uffdio_range){ from, length };
    wake(from, length);
}

// Whether this is the kernel's own UNMAP of a place that was left by a REMAP: something else may be there by now.
static int is_old_place(uint64_t start, uint64_t end)
{
    for (size_t i = 0; i < moved_count && i < MOST_WAITING; i++)
        if (moved[i].len && moved[i].start == start && moved[i].start + moved[i].len == end) {
            moved[i].len = 0;
            return 1;
        }
    return 0;
}

static void take_event(const struct uffd_msg *message)
{
    uint64_t start = message->arg.remove.start, end = message->arg.remove.end;
    if (message->event == UFFD_EVENT_REMAP) {
        take_remap(message->arg.remap.from, message->arg.remap.to, message->arg.remap.len);
    } else if (message->event == UFFD_EVENT_REMOVE || !is_old_place(start, end)) {
        drop(start, end);
        wake(start, end - start);
    }
}

static void take_waiting(void)
{
    size_t count = waiting_count;
    waiting_count = 0;
    for (size_t i = 0; i < count; i++) {
        struct waiting it = waiting[i];
        if (it.is_copy)
            take_copy(it.number, it.bytes);
        else
            take_fault(it.number);
        free(it.bytes);
    }
}

// Events first: they change which pages are owed, and once they are read a kernel lets ioctls through that are by the
// old table.
static void take_messages(struct uffd_msg *messages, size_t count)
{
    while (count < MOST_MESSAGES && handler_read(&messages[count]) > 0)
        count++;
    for (size_t i = 0; i < count; i++)
        if (messages[i].event != UFFD_EVENT_PAGEFAULT)
            take_event(&messages[i]);
    take_waiting();
    for (size_t i = 0; i < count; i++)
        if (messages[i].event == UFFD_EVENT_PAGEFAULT)
            take_fault(messages[i].arg.pagefault.address / PAGE);
}

static void take_package(const unsigned char *body)
{
    const unsigned char *runs = body + 4 + 9 * number_at(body);
    for (uint32_t run = 0; run < number_at(runs); run++)
        for (uint32_t i = 0; i < number_at(runs + 8 + 8 * run); i++) {
            uint32_t page = number_at(runs + 4 + 8 * run) + i;
            if (owed_count == MOST_OWED)
                die("too many owed pages");
            owed[owed_count++] = (struct owed){ page, page, 0 };
        }
}

static int by_origin(const void *one, const void *other)
{
    const struct owed *a = one, *b = other;
    return (a->origin > b->origin) - (a->origin < b->origin);
}

// What is still owed, and the requests that are open.
static void report(void)
{
    static unsigned char frame[12 + 5 + 8 * MOST_OWED];
    unsigned char *run = frame + 12 + 5;
    uint32_t runs = 0;
    qsort(owed, owed_count, sizeof *owed, by_origin);
    for (size_t i = 0; i < owed_count; i++) {
        if (runs && number_at(run - 8) + number_at(run - 4) == owed[i].origin) {
            put_number(run - 4, number_at(run - 4) + 1);
            continue;
        }
        put_number(run, owed[i].origin);
        put_number(run + 4, 1);
        run += 8;
        runs++;
    }
    frame[12] = has_ended ? ENDED : RUNNING;
    put_number(frame + 13, runs);
    send_frame(RECV, frame, 5 + 8 * runs);
    for (size_t i = 0; i < owed_count; i++)
        if (owed[i].is_requested)
            request(&owed[i]);
}

static void take_frame(const unsigned char *frame)
{
    const unsigned char *body = frame + 12;
    unsigned char done[12];
    switch (frame[1]) {
    case COPY:
        take_copy(number_at(body), body + 4);
        break;
    case ZERO:
        take_copy(number_at(body), 0);
        break;
    case PACKAGE:
        epoch = number_at(frame + 4);
        take_package(body);
        break;
    case END:
        has_ended = 1;
        send_frame(DONE, done, 0);
        break;
    case RESUME:
        epoch = number_at(frame + 4);
        report();
        break;
    }
}

int main(void)
{
    static struct uffd_msg messages[MOST_MESSAGES];
    static unsigned char frame[1 << 20];
    size_t length;
    for (;;)
        if (waiting_count)
            // (EAGAIN: an event is unread, or the call that had one has not gone on yet; so nothing may come that could
            // be waited for)
            take_messages(messages, 0);
        else if (handler_next(messages, frame, sizeof frame, &length) == MESSAGE)
            take_messages(messages, 1);
        else
            take_frame(frame);
}
