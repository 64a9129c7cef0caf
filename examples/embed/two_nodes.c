/* A source and a destination in two processes, by the calls of postmig_node.h: sixteen pages move over a socket
   while both sides use them. Memory is an array on each side, and a fault is what the node says of an access; live/
   has both from the kernel. */
#include <poll.h>
#include <stdbool.h>
#include <stdio.h>
#include <stdlib.h>
#include <string.h>
#include <sys/socket.h>
#include <sys/wait.h>
#include <unistd.h>

#include "postmig_node.h"

enum { PAGE = 4096, PAGES = 16, LOW = 0x10, MOST = 64, EPOCH = 1 };

static unsigned char memory[PAGES][PAGE]; /* page LOW of the node is the first */
static unsigned char head[1 << 16], pages[MOST * PAGE];
static size_t head_bytes, page_bytes; /* of the frame that was received */
static postmig_handle node;
static postmig_effect effect;
static int channel;
static bool has_run, has_ended, is_asleep;

static void check(bool holds, const char *what)
{
    if (!holds) {
        fprintf(stderr, "two_nodes: %s\n", what);
        exit(1);
    }
}

#define DO(call) check((call) == POSTMIG_OK, #call)

static unsigned char *page_at(uint64_t address)
{
    return memory[address / PAGE - LOW];
}

static uint64_t address_of(uint32_t page)
{
    return (uint64_t)(LOW + page) * PAGE;
}

static postmig_command access_of(uint32_t kind, uint32_t page)
{
    return (postmig_command){ .kind = kind, .width = 8, .addr = address_of(page) };
}

/* THE CHANNEL */

static void put(const void *bytes, size_t length)
{
    check(send(channel, bytes, length, MSG_NOSIGNAL) == (ssize_t)length, "the other side is gone");
}

static void get(void *bytes, size_t length)
{
    check(!length || recv(channel, bytes, length, MSG_WAITALL) == (ssize_t)length, "the other side is gone");
}

/* Those of the node itself: Advise, Discard, Package, End; Request, Done. */
static void put_frames(void)
{
    static unsigned char frames[1 << 16];
    size_t length = 0;

    if (postmig_node_frame(&node, frames, sizeof frames, &length) == POSTMIG_OK)
        put(frames, length);
}

/* One frame: its head, for the node, and the bytes of its pages. */
static void get_frame(void)
{
    get(head, 12);
    DO(postmig_frame_lengths(head, 12, &head_bytes, &page_bytes));
    check(head_bytes <= sizeof head && page_bytes <= sizeof pages, "a frame that is too long");
    get(head + 12, head_bytes - 12);
    get(pages, page_bytes);
}

/* THE SOURCE */

static void put_pages(uint64_t address, uint32_t count)
{
    uint32_t page = (uint32_t)(address / PAGE);
    size_t length;

    if (count == 1)
        DO(postmig_page_head(EPOCH, page, head, sizeof head, &length));
    else
        DO(postmig_run_head(EPOCH, page, count, head, sizeof head, &length));
    put(head, length);
    put(page_at(address), (size_t)count * PAGE);
}

/* What the guest has before the migration: the node hears of each page that has contents, and of none of the
   bytes. */
static void enter_memory(void)
{
    postmig_command map = { .kind = POSTMIG_MMAP,
                            .length = sizeof memory,
                            .prot = POSTMIG_PROT_READ_WRITE,
                            .place = POSTMIG_FIXED,
                            .target = address_of(0) };

    DO(postmig_source_issue(&node, 0, &map, &effect));
    for (uint32_t i = 0; i < PAGES; i++) {
        postmig_command store = access_of(POSTMIG_STORE, i);

        memset(memory[i], 'a' + (int)i, PAGE);
        DO(postmig_source_issue(&node, 0, &store, &effect));
    }
}

static void make_round(void)
{
    uint32_t first, count;

    DO(postmig_source_round(&node, &effect));
    while (postmig_source_next_run(&node, 4, &first, &count) == POSTMIG_OK) {
        /* (real memory is write-protected before that) */
        DO(postmig_source_run_sent(&node, (uint8_t)count, &effect));
        put_pages(effect.addr, effect.count);
    }
}

/* The guest stores to a page. If that was sent it is protected, and the store waits until the fault is resolved. */
static void guest_stores(uint32_t page)
{
    postmig_command store = access_of(POSTMIG_STORE, page);

    DO(postmig_source_issue(&node, 0, &store, &effect));
    if (effect.kind == POSTMIG_DID_SLEEP) {
        DO(postmig_source_read(&node, &effect));
        DO(postmig_source_act(&node, &effect)); /* (real memory: UFFDIO_WRITEPROTECT, or UFFDIO_ZEROPAGE, as next_act
                                                   says) */
        DO(postmig_source_retry(&node, 0, &effect));
    }
    memset(memory[page], 'A' + (int)page, PAGE);
}

static void take_back(void)
{
    get_frame();
    DO(postmig_source_back(&node, head, head_bytes, &effect));
    has_ended = effect.kind == POSTMIG_DID_TAKE_DONE;
}

/* A page that was asked for, or else the next one. False once none remains. */
static bool push(void)
{
    struct pollfd readable = { .fd = channel, .events = POLLIN };
    uint32_t page = 0;

    while (poll(&readable, 1, 0) > 0)
        take_back();
    if (postmig_source_serve(&node, &effect) == POSTMIG_OK)
        page = (uint32_t)(effect.addr / PAGE);
    else if (postmig_source_next_remaining(&node, LOW, &page) != POSTMIG_OK)
        return false;
    /* else it was pushed before it was asked for */
    if (postmig_source_push(&node, EPOCH, page, &effect) == POSTMIG_OK)
        put_pages(effect.addr, 1);
    return true;
}

static void run_source(void)
{
    DO(postmig_source_new(1, 0, 0, &node));
    enter_memory();
    DO(postmig_source_start(&node, &effect));
    put_frames();
    make_round();
    for (uint32_t i = 0; i < PAGES; i += 2)
        guest_stores(i);
    DO(postmig_source_switch(&node, &effect)); /* the guest makes no step here any more */
    printf("source: %u pages owed, %u discarded\n", effect.count, effect.number);
    put_frames();
    while (push())
        continue;
    DO(postmig_source_end(&node, &effect));
    put_frames();
    while (!has_ended)
        take_back();
    printf("source: released\n");
}

/* THE DESTINATION */

/* The copy that has just come is put where the node says. */
static void install(void)
{
    DO(postmig_destination_install(&node, &effect)); /* (real memory: UFFDIO_COPY, at the place that next_install says,
                                                        and then install) */
    if (effect.kind == POSTMIG_DID_INSTALL)
        memcpy(page_at(effect.addr), pages, PAGE);
    if (is_asleep && postmig_destination_retry(&node, 0, &effect) == POSTMIG_OK)
        is_asleep = effect.kind != POSTMIG_DID_ANSWER;
}

/* A Discard needs nothing here: a page without contents is cleared when it is touched. */
static void take(void)
{
    get_frame();
    DO(postmig_destination_take(&node, head, head_bytes, &effect));
    has_ended = effect.kind == POSTMIG_DID_TAKE_END;
    if (page_bytes && !has_run)
        memcpy(page_at(effect.addr), pages, page_bytes);
    else if (page_bytes)
        install();
    has_run |= effect.kind == POSTMIG_DID_TAKE_PACKAGE;
    put_frames();
}

/* The guest loads from a page. If that is owed it sleeps, and the page is asked for. */
static unsigned char guest_loads(uint32_t page)
{
    postmig_command load = access_of(POSTMIG_LOAD, page);

    DO(postmig_destination_issue(&node, 0, &load, &effect));
    is_asleep = effect.kind == POSTMIG_DID_SLEEP;
    if (is_asleep) {
        DO(postmig_destination_read(&node, &effect));
        DO(postmig_destination_act(&node, &effect));
        put_frames(); /* the Request */
    }
    if (is_asleep && effect.kind == POSTMIG_DID_ZERO) {
        memset(memory[page], 0, PAGE);
        DO(postmig_destination_retry(&node, 0, &effect));
        is_asleep = false;
    }
    while (is_asleep)
        take();
    return memory[page][PAGE - 1];
}

static void run_destination(void)
{
    DO(postmig_destination_new(1, &node));
    while (!has_run)
        take();
    for (uint32_t i = PAGES; i-- > 0;) /* the source pushes upwards, so most of them are asked for */
        check(guest_loads(i) == (i % 2 ? 'a' : 'A') + (int)i, "a page is not as it was stored");
    while (!has_ended)
        take();
    printf("destination: %d pages as the source stored them\n", PAGES);
}

int main(void)
{
    int ends[2], status = 0;
    pid_t child;

    check(!socketpair(AF_UNIX, SOCK_STREAM, 0, ends), "no socket");
    child = fork();
    check(child >= 0, "no process");
    channel = ends[child == 0];
    check(!close(ends[child != 0]), "a socket that is not closed");
    if (child)
        run_source();
    else
        run_destination();
    postmig_free(&node);
    check(!child || (wait(&status) == child && !status), "the destination has failed");
    return 0;
}
