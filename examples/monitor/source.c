/* The source of a migration: the memory of a guest of two threads, which store to it until the switch, moves to a
   destination. That is COMMAND, to whose standard input the frames go; or who has started this program, with frames
   at its standard input and output. What the memory had at the switch is written.

       source PAGES FILE [COMMAND] */
#include <errno.h>
#include <liblive.h>
#include <poll.h>
#include <pthread.h>
#include <signal.h>
#include <stdatomic.h>
#include <stdio.h>
#include <stdlib.h>
#include <string.h>

#define THREADS 2u
#define EPOCH 1u
#define ROUNDS 3

static struct node node = { .is_source = true };
static struct watch watch; /* faults and events of the guest's memory, for the node */
static struct guest guest; /* (of this only its memory, and how many pages and processors it has) */
static struct stream channel;
static _Atomic bool is_stopping;
static _Atomic uint32_t stopped;
static postmig_effect effect;

/* A thread of the guest: stores from page to page. It stops between two of them. */
static void *store(void *number)
{
    uint64_t *memory = (uint64_t *)guest.memory, words = PAGE_BYTES / sizeof *memory;

    for (uint64_t k = 1; !is_stopping; k++)
        memory[k * 7 % guest.plan.pages * words + *(uint32_t *)number] = k;
    stopped++;
    return NULL;
}

static char *at_page(uint32_t page)
{
    return guest.memory + (size_t)(page - LOW_PAGE) * PAGE_BYTES;
}

/* Sends what is there to be sent, with the frames that the node has. */
static void send_all(void)
{
    (void)node_send_frames(&node, &channel); /* the count is not needed */
    while (stream_unsent(&channel)) {
        if (!stream_send(&channel))
            lose("the destination has ended");
        if (stopped < THREADS)
            watch_handle(&watch);
        (void)poll(&(struct pollfd){ .fd = channel.file, .events = POLLOUT }, 1, 1); /* a shorter wait is as good */
    }
}

/* Pages are protected, then copied; what stores to one of them from then on faults. */
static void make_round(void)
{
    uint32_t first, count;

    node_expect(postmig_source_round(&node.handle, &effect), "postmig_source_round");
    for (;;) {
        watch_handle(&watch);
        if (postmig_source_next_run(&node.handle, 64, &first, &count) != POSTMIG_OK)
            return;
        if (kernel_protect(watch.userfault, at_page(first), (size_t)count * PAGE_BYTES) == EAGAIN)
            continue;
        node_expect(postmig_source_run_sent(&node.handle, (uint8_t)count, &effect), "postmig_source_run_sent");
        node_put_run(&channel, EPOCH, first, count, at_page(first));
        send_all();
    }
}

static void stop_guest(void)
{
    is_stopping = true;
    while (stopped < THREADS)
        watch_handle(&watch);
    watch_finish(&watch);
}

/* A page that was asked for, or else the next one. False once none remains. */
static bool push(void)
{
    uint32_t page;

    if (postmig_source_serve(&node.handle, &effect) == POSTMIG_OK)
        page = (uint32_t)(effect.addr / PAGE_BYTES);
    else if (postmig_source_next_remaining(&node.handle, LOW_PAGE, &page) != POSTMIG_OK)
        return false;
    /* else it was pushed before it was asked for */
    if (postmig_source_push(&node.handle, EPOCH, page, &effect) == POSTMIG_OK)
        node_put_page(&channel, EPOCH, page, at_page(page));
    send_all();
    return true;
}

/* Takes the frames on the way back. Returns whether the destination has all. */
static bool take_back(void)
{
    struct frame frame;
    size_t missing;
    bool is_done = false;

    if (!stream_receive(&channel, HEADER_BYTES))
        lose("the destination has ended");
    while (node_front(&channel, &frame, &missing)) {
        node_expect(postmig_source_back(&node.handle, frame.head, frame.head_bytes, &effect),
                    "a frame of the destination");
        is_done |= effect.kind == POSTMIG_DID_TAKE_DONE;
        stream_take(&channel, frame.head_bytes);
    }
    return is_done;
}

/* (A page that was never touched is missing until no one watches the memory: who reads it here before that waits
   for itself.) */
static void write_memory(const char *name)
{
    FILE *file = fopen(name, "w");

    kernel_unregister(watch.userfault, guest.memory, (size_t)guest.plan.pages * PAGE_BYTES);
    if (!file || fwrite(guest.memory, PAGE_BYTES, guest.plan.pages, file) != guest.plan.pages || fclose(file))
        refuse("%s cannot be written", name);
}

int main(int count, char **words)
{
    static uint32_t numbers[THREADS] = { 0, 1 };
    struct hello own;
    pthread_t thread;

    if (count != 3 && count != 4)
        refuse("use: source PAGES FILE [COMMAND]");
    (void)signal(SIGPIPE, SIG_IGN); /* it always succeeds */
    guest.plan = (struct guest_plan){ .pages = (uint32_t)strtoul(words[1], NULL, 10), .threads = THREADS };
    stream_open(&channel, count == 4 ? feed_start(words[3]) : feed_channel(), NULL, &(struct cut)NO_CUT);
    greet_begin(&own, guest.plan.pages, THREADS);
    greet_destination(&channel, &own);
    guest.memory = kernel_map((size_t)guest.plan.pages * PAGE_BYTES);
    watch_open(&watch, &node, &guest, NULL);
    watch.has_own_threads = true;
    node_expect(postmig_source_new(THREADS, 0, 0, &node.handle), "postmig_source_new");
    for (uint32_t i = 0; i < guest.plan.pages / 2; i++) /* what it has before: the other half was never touched */
        memset(guest.memory + (size_t)i * PAGE_BYTES, 1 + (int)(i % 255), PAGE_BYTES);
    watch_enter_memory(&watch);
    for (uint32_t i = 0; i < THREADS; i++)
        if (pthread_create(&thread, NULL, store, &numbers[i]) || pthread_detach(thread))
            refuse("a thread of the guest cannot be started");
    node_expect(postmig_source_start(&node.handle, &effect), "postmig_source_start");
    send_all();
    for (int i = 0; i < ROUNDS; i++)
        make_round();
    stop_guest();
    node_expect(postmig_source_switch(&node.handle, &effect), "postmig_source_switch");
    send_all();
    do
        (void)take_back(); /* Requests: all is there after the End */
    while (push());
    node_expect(postmig_source_end(&node.handle, &effect), "postmig_source_end");
    send_all();
    while (!take_back())
        (void)poll(&(struct pollfd){ .fd = channel.file, .events = POLLIN }, 1, 100);
    write_memory(words[2]);
    return count == 4 ? feed_end() : STATUS_OK;
}
