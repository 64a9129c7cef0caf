/* Pre-copy, and the switch. */
#include "source.h"

#include <errno.h>
#include <string.h>

#include "kernel.h"
#include "trace.h"

/* runs that are sent before the faults are handled, once pages could be protected again */
#define MOST_CALM 32u
#define RESERVE_BYTES (64u << 10) /* of a stream, for the frames of the switch, and 8 for each page */

/* The kernel has protected each page of the run, and has it. Those that any thread gives back may be missing since:
   they were just copied. */
static void check_run(const struct source *source, uint32_t first, uint32_t count)
{
    uint64_t entries[MOST_OF_RUN];

    if (watch_shares(&source->watch, first, count))
        return;
    kernel_pagemap(source_page(source, first), count, entries);
    for (uint32_t i = 0; i < count; i++)
        if (!entry_is_present(entries[i]) || !entry_is_protected(entries[i]))
            refuse("page 0x%x is not present and protected, after UFFDIO_WRITEPROTECT", first + i);
}

/* How many pages there are before one of zeros. A page may change until it is protected: this only chooses the
   frames. */
static uint32_t pages_before_zero(const char *bytes, uint32_t count)
{
    for (uint32_t i = 0; i < count; i++)
        if (source_is_zero(bytes + (size_t)i * PAGE_BYTES))
            return i;
    return count;
}

/* Pages that the node calls present, and that were cleared late, are made zeros. */
static void restore_run(struct source *source, uint32_t first, uint32_t count)
{
    for (uint32_t page = first; page < first + count; page++) {
        int error = kernel_zero(source->watch.userfault, source_page(source, page));

        source->watch.cleared += !error;
        if (error && error != EEXIST && error != EAGAIN)
            watch_unexpected(error, "UFFDIO_ZEROPAGE", (uint64_t)page * PAGE_BYTES);
    }
    watch_forget(&source->watch, first, count);
    watch_again(&source->watch);
}

static void send_protected(struct source *source, uint32_t first, uint32_t count, const char *bytes)
{
    postmig_effect effect;

    if (count == 1) {
        node_do(postmig_source_send(&source->node.handle, &effect));
        source_put_page(source, &source->main, first, source_is_zero(bytes) ? NULL : bytes);
    } else {
        node_do(postmig_source_run_sent(&source->node.handle, (uint8_t)count, &effect));
        node_put_run(&source->main, source->state.epoch, first, count, bytes);
    }
    source->round_sent += count;
    if (effect.addr / PAGE_BYTES != first || (count > 1 && effect.count != count))
        refuse("the node has sent another page than 0x%x, which it has announced", first);
}

/* Protects pages from `first` on, and copies their bytes. NULL where that must be tried again. */
static const char *take_run(struct source *source, uint32_t first, uint32_t count)
{
    char *at = source_page(source, first);
    const char *bytes;
    int error = kernel_protect(source->watch.userfault, at, (size_t)count * PAGE_BYTES);

    if (error == EAGAIN) {
        source->held_turns++;
        watch_again(&source->watch);
        return NULL;
    }
    if (error)
        watch_unexpected(error, "UFFDIO_WRITEPROTECT", (uint64_t)first * PAGE_BYTES);
    source->calm = source->held_turns ? MOST_CALM : source->calm;
    source->held_turns = 0;
    source->watch.again_in_a_row = 0;
    check_run(source, first, count);
    bytes = source_bytes(source, first, count);
    if (!bytes) {
        /* until it is tried again */
        (void)kernel_unprotect(source->watch.userfault, at, (size_t)count * PAGE_BYTES);
        restore_run(source, first, count);
    }
    return bytes;
}

/* False once the round is done. */
static bool send_run(struct source *source)
{
    uint32_t first, count, status, full;
    const char *bytes;

    node_try(status, postmig_source_next_run(&source->node.handle, MOST_OF_RUN, &first, &count));
    if (status == POSTMIG_REFUSED_NOTHING_THERE)
        return false;
    node_expect(status, "postmig_source_next_run");
    bytes = source_bytes(source, first, count);
    if (!bytes) {
        restore_run(source, first, count);
        return true;
    }
    full = pages_before_zero(bytes, count);
    count = full ? full : 1;
    bytes = take_run(source, first, count);
    if (bytes)
        send_protected(source, first, count, bytes);
    return true;
}

static void begin_round(struct source *source)
{
    postmig_effect effect;

    watch_handle(&source->watch);
    node_do(postmig_source_round(&source->node.handle, &effect));
    source_look(source);
    source->round_pages = effect.count;
    source->sent_before = source->state.pages_sent;
    source->round_begun = kernel_now();
    source->round_sent = 0;
    source->rounds++;
}

/* THE SWITCH */

/* Each thread leaves the guest for good, for all slices. Until then its faults and events are handled. */
static void stop_guest(struct source *source)
{
    guest_ask_stop(source->guest);
    while (!guest_has_stopped(source->guest)) {
        watch_handle(&source->watch);
        kernel_yield(0);
    }
    guest_join(source->guest);
    watch_finish(&source->watch);
    if (watch_has_sleeper(&source->watch))
        refuse("a thread has left the guest, and the node has it asleep");
}

static void switch_over(struct source *source)
{
    postmig_effect effect;

    /* while a lack of it loses nothing */
    (void)stream_room(&source->main, RESERVE_BYTES + 8 * (size_t)source->watch.pages);
    source->figures.stop = kernel_now();
    stop_guest(source);
    source->figures.stopped = kernel_now();
    source->figures.busy = kernel_thread_time();
    source->is_to_switch = slice_switches(source->slices);
    if (!source->is_to_switch)
        return;
    trace_moment("stopped", guest_stopped_at(source->guest));
    trace_moment("switched", kernel_now());
    node_do(postmig_source_switch(&source->node.handle, &effect));
    live_keep(source_after_switch);
    source_look(source);
    if (source->guest->common_pages) /* one that was cleared late reads as zeros now */
        kernel_unregister(source->watch.userfault, source->watch.memory, watch_bytes(&source->watch));
    source->figures.owed = effect.count;
    source->figures.discards = effect.number;
    source->package_is_sent = false;
    channel_switched(source);
}

/* Whether more pages were sent in this round than --rate allows by now. */
static bool is_ahead(struct source *source)
{
    uint64_t rate = slices_share(source->slices, source->slices->rate);

    if (!rate || !source->rounds)
        return false;
    return source->round_sent > (kernel_now() - source->round_begun) / 1000 * rate / 1000000;
}

/* What comes before the switch: false once nothing does. */
static bool send_rounds(struct source *source)
{
    if (send_run(source))
        return true;
    if (source->rounds >= source->options->rounds || (source->rounds && source->round_pages <= source->options->target))
        return false;
    begin_round(source);
    return true;
}

/* Sends a run, begins a round, or switches, once all slices can. A slice whose channel has broken since then sends
   no more rounds: its pages are owed. */
bool precopy_work(struct source *source)
{
    bool is_due = source->slices->is_due;

    if (stream_unsent(&source->main) >= MOST_UNSENT || (!is_due && is_ahead(source)))
        return false;
    if (!is_due && send_rounds(source))
        return true;
    /* (what is still under way would come before the Package: a stop now would be a longer one) */
    if (!channel_binds(source) || (!is_due && stream_under_way(&source->main)) ||
        !slice_ready(source->slices, source->slice, source->destination))
        return false;
    switch_over(source);
    return true;
}
