/* `live source`: its start, its loop, and its ends. */
#include "source.h"

#include <errno.h>
#include <inttypes.h>
#include <poll.h>
#include <stdlib.h>
#include <string.h>
#include <unistd.h>

#include "figures.h"
#include "kernel.h"
#include "log.h"
#include "operator.h"
#include "roles.h"
#include "sums.h"
#include "trace.h"

#define MOST_WAIT_MS 100u
#define URGENT_NS 5000000u /* after a request another one is likely */
#define PATIENT_MS 5u      /* between two looks at whether the other slices are released */
#define MOST_HELD 256u     /* turns in which faults wait, so that pages can be protected */
/* that counts as waited: a longer turn had much to do for the guest, or the process did not run */
#define MOST_OF_TURN_NS 200000000u

static _Thread_local struct source *keeper;

void source_look(struct source *source)
{
    node_do(postmig_source_counts(&source->node.handle, &source->state));
}

/* What a slice needs before the guest runs. */
static void prepare(struct source *source, struct slices *slices, uint32_t slice, const struct hello *own)
{
    uint32_t pages = slice_pages(slices, slice);

    source->slices = slices;
    source->guest = &slices->guest;
    source->slice = slice;
    source->main = source->urgent = (struct stream)NO_STREAM;
    source->node.is_source = true;
    source->cursor = LOW_PAGE;
    source->contents = calloc(pages, sizeof *source->contents);
    source->run = malloc((size_t)MOST_OF_RUN * PAGE_BYTES);
    if (!source->contents || !source->run)
        refuse("no memory for the list of zeros");
    watch_open(&source->watch, &source->node, source->guest, NULL);
    watch_slice(&source->watch, slice_first(slices, slice), pages);
    source->own = *own;
    source->own.slice = slice;
    source->own.pages = pages;
}

/* The migration of a slice. */
static void begin(struct source *source)
{
    const struct options *options = source->options;
    uint32_t processors = source->own.processors;
    postmig_effect effect;

    keeper = source;
    live_keep(source_before_switch);
    watch_go_first("source", options->goes_first);
    (void)poll(NULL, 0, (int)options->before); /* a shorter sleep is as good */
    node_do(postmig_source_new((uint8_t)processors, 0, 0, &source->node.handle));
    if (options->makes_sums)
        sums_begin(source->own.pages);
    trace_begin(&source->node, processors, source->slice, source->slices->count);
    source->figures.start = kernel_now();
    watch_enter_memory(&source->watch);
    node_do(postmig_source_start(&source->node.handle, &effect));
    source->last_turn = kernel_now();
    source_look(source);
}

/* THE LOOP */

static bool work(struct source *source)
{
    if (!stream_is_open(&source->main) || !source->is_answered)
        return false;
    if (source->state.phase == POSTMIG_SOURCE_PRECOPY)
        return precopy_work(source);
    return source->state.phase == POSTMIG_SOURCE_STOPPED && postcopy_work(source);
}

/* Whether someone waits: here, or there, as far as that is known. */
static bool is_urgent(const struct source *source)
{
    return source->state.switched ? source->last_turn - source->last_request < URGENT_NS
                                  : watch_has_sleeper(&source->watch);
}

/* Milliseconds until there is something to do by the clock alone. */
static int time_to_wait(const struct source *source)
{
    uint64_t now = kernel_now(), left = source->next_try > now ? (source->next_try - now) / 1000000 + 1 : 0;

    if (!stream_is_open(&source->main))
        return left < MOST_WAIT_MS ? (int)left : (int)MOST_WAIT_MS;
    return source->slices->push_rate || source->state.phase == POSTMIG_SOURCE_PRECOPY ? 1 : (int)MOST_WAIT_MS;
}

static void wait_for_more(const struct source *source)
{
    struct pollfd files[3 + OPERATOR_FILES] = { { .fd = source->state.switched ? -1 : source->watch.userfault,
                                                  .events = POLLIN },
                                                stream_waits(&source->main),
                                                stream_waits(&source->urgent) };

    bool has_more = source->main.is_ready || source->urgent.is_ready || source->watch.is_behind;

    operator_files(files + 3);
    kernel_first(!has_more || is_urgent(source));
    if (poll(files, 3 + OPERATOR_FILES, has_more ? 0 : time_to_wait(source)) < 0 && errno != EINTR)
        lack(errno, "poll");
}

uint64_t source_left(const struct source *source)
{
    uint64_t sent = source->state.pages_sent - source->sent_before;

    if (source->state.switched)
        return source->state.remaining;
    return sent < source->round_pages ? source->round_pages - sent : 0;
}

const char *const source_phases[] = { "idle", "precopy", "stopped", "paused", "released" };

void source_says(struct source *source)
{
    struct progress now;

    source_look(source);
    now = (struct progress){
        .phase = source->state.phase,
        .epoch = source->state.epoch,
        .round = source->rounds,
        .waits = watch_sleepers(&source->watch),
        .is_connected = source->is_answered,
        .left = source_left(source),
        .moved = source->state.pages_sent,
        .faults = source->watch.faults,
        .breaks = source->figures.breaks,
    };
    slice_says(source->slices, source->slice, &now);
}

static void show_progress(struct source *source)
{
    struct progress all;
    bool is_alone = source->slices->count == 1;

    if ((is_alone && !source->options->shows_progress) || !progress_is_due())
        return;
    source_says(source);
    if (source->slice || !source->options->shows_progress)
        return;
    all = slices_say(source->slices, POSTMIG_SOURCE_PAUSED);
    log_figures("progress source phase=%s left=%" PRIu64 " sent=%" PRIu64 " faults=%" PRIu64
                " waits=%u epoch=%u round=%u breaks=%" PRIu64 "\n",
                source_phases[all.phase], all.left, all.moved, all.faults, all.waits, all.epoch, all.round, all.breaks);
}

/* Returns how long the last turn took. */
static uint64_t count_turn(struct source *source)
{
    uint64_t now = kernel_now(), took = now - source->last_turn;

    source->waited += took < MOST_OF_TURN_NS ? took : MOST_OF_TURN_NS;
    source->last_turn = now;
    return took;
}

static bool has_lost_patience(const struct source *source)
{
    uint64_t set = source->slices->patience,
             patience = set != USUAL_PATIENCE ? set
        : source->slices->is_due              ? FOREVER
                                              : PATIENT_S;

    return patience != FOREVER && source->waited > patience * SECOND_NS;
}

static void log_phase(struct source *source)
{
    if (source->logged_phase == source->state.phase)
        return;
    source->logged_phase = source->state.phase;
    log_event("source: %s, epoch %u, %" PRIu64 " pages left", source_phases[source->logged_phase], source->state.epoch,
              source_left(source));
}

/* Pages can be protected only while no thread gives memory back. Where each try meets one, faults wait for a while:
   then the threads do. */
static void handle_guest(struct source *source)
{
    if (source->calm)
        source->calm--;
    if (source->calm || source->held_turns % MOST_HELD)
        watch_read(&source->watch);
    else
        watch_handle(&source->watch);
}

/* One turn. */
static void turn(struct source *source)
{
    uint64_t took = count_turn(source);
    bool has_more;

    source_obey(source);
    if (!source->state.switched)
        handle_guest(source);
    if (!stream_is_open(&source->main))
        channel_connect(source);
    if (stream_is_open(&source->main))
        channel_use(source, took);
    kernel_first(is_urgent(source));
    has_more = !source->slices->is_over && work(source);
    if (stream_is_open(&source->urgent) && stream_unsent(&source->urgent) && !stream_send(&source->urgent))
        channel_lose(source, "the urgent connection is broken", source->urgent.error);
    trace_bound();
    show_progress(source);
    log_phase(source);
    if (!has_more && source->state.phase != POSTMIG_SOURCE_RELEASED)
        wait_for_more(source);
}

/* HOW IT ENDS */

static uint64_t later(uint64_t one, uint64_t other)
{
    return one > other ? one : other;
}

/* Sums of all slices, in the first; moments are those of the first stop, and of the last slice that came so far. */
static void add_figures(struct source *all, const struct source *one)
{
    all->figures.stop = all->figures.stop < one->figures.stop ? all->figures.stop : one->figures.stop;
    all->figures.stopped = later(all->figures.stopped, one->figures.stopped);
    all->figures.sent = later(all->figures.sent, one->figures.sent);
    all->figures.released = later(all->figures.released, one->figures.released);
    all->figures.owed += one->figures.owed;
    all->figures.discards += one->figures.discards;
    all->figures.pushed += one->figures.pushed;
    all->figures.served += one->figures.served;
    all->figures.zeros += one->figures.zeros;
    all->figures.breaks += one->figures.breaks;
    all->figures.lost_dones += one->figures.lost_dones;
    all->figures.busy += one->figures.busy;
    all->state.rounds = one->state.rounds > all->state.rounds ? one->state.rounds : all->state.rounds;
    all->state.epoch = one->state.epoch > all->state.epoch ? one->state.epoch : all->state.epoch;
    all->state.pages_sent += one->state.pages_sent;
    watch_add(&all->watch, &one->watch);
}

static void say_figures(const struct source *source)
{
    const struct watch *watch = &source->watch;

    log_figures("source start=%" PRIu64 " stop=%" PRIu64 " stopped=%" PRIu64 " sent=%" PRIu64 " released=%" PRIu64,
                source->figures.start, source->figures.stop, source->figures.stopped, source->figures.sent,
                source->figures.released);
    log_figures(" zeros=%" PRIu64 " discards=%" PRIu64, source->figures.zeros, source->figures.discards);
    log_figures(" rounds=%u owed=%" PRIu64 " pushed=%" PRIu64 " served=%" PRIu64 " pages=%" PRIu64,
                source->state.rounds, source->figures.owed, source->figures.pushed, source->figures.served,
                source->state.pages_sent);
    log_figures(" faults=%" PRIu64 " events=%" PRIu64 " roused=%" PRIu64 " again=%" PRIu64 " needless=%" PRIu64
                " cleared=%" PRIu64,
                watch->faults, watch->events, watch->roused, watch->again, watch->needless, watch->cleared);
    log_figures(" breaks=%" PRIu64 " lost_dones=%" PRIu64 " epoch=%u busy=%" PRIu64 "\n", source->figures.breaks,
                source->figures.lost_dones, source->state.epoch, source->figures.busy);
}

/* No one watches the memory of this slice any more. */
static void leave(struct source *source)
{
    stream_close(&source->main);
    stream_close(&source->urgent);
    trace_end();
    kernel_unregister(source->watch.userfault, source->watch.memory, watch_bytes(&source->watch));
    (void)close(source->watch.userfault); /* who waits for an event to be read continues */
}

/* Before the switch the guest runs on here, and no one watches its memory any more. It ends by the operator's word,
   or after a given time; then all its memory is checked. */
static int keep_guest(struct source *source)
{
    uint64_t until =
        source->options->after == FOREVER ? UINT64_MAX : kernel_now() + source->options->after * 1000000ull;
    uint32_t wrong, page = 0;

    log_event("source: the guest runs on here%s", until == UINT64_MAX ? " until the operator ends it" : "");
    while (kernel_now() < until && !source->slices->is_to_end)
        source_wait_for_orders(source, until == UINT64_MAX ? 1000 : 10);
    guest_ask_stop(source->guest);
    guest_join(source->guest);
    wrong = guest_check(source->guest, &page);
    log_figures("kept operations=%" PRIu64 " wrong_loads=%" PRIu64 " wrong_pages=%u\n", guest_operations(source->guest),
                guest_wrong_loads(source->guest), wrong);
    log_say("the guest has run on here, and its memory is %s", wrong ? "wrong" : "right");
    operator_close();
    return wrong || guest_wrong_loads(source->guest) ? STATUS_WRONG : STATUS_LOST;
}

/* Pages are here that are nowhere else. What cannot be tried again leaves them as they are. */
static int keep_after_switch(const char *why)
{
    keeper->is_held = true;
    keeper->slices->held = why;
    keeper->is_answered = false;
    stream_close(&keeper->main);
    stream_close(&keeper->urgent);
    log_event("source: " HELD);
    while (!keeper->slices->is_over)
        source_wait_for_orders(keeper, 1000);
    if (keeper->slice)
        trace_end();
    slice_leave(keeper->slice);
    return STATUS_REFUSED;
}

/* What is refused before the first slice has switched ends the migration, and not the guest. */
static int keep_before_switch(const char *why)
{
    if (!slices_fail(keeper->slices, keeper->is_to_switch))
        return keep_after_switch(why);
    leave(keeper);
    slice_leave(keeper->slice);
    slices_join(keeper->slices);
    return keep_guest(keeper);
}

static bool wait_after_switch(uint32_t milliseconds)
{
    source_wait_for_orders(keeper, milliseconds);
    return keeper->slices->is_over;
}

const struct keeping source_before_switch = { keep_before_switch, NULL },
                     source_after_switch = { keep_after_switch, wait_after_switch };

/* The switch was made, and no one has said that the destination has all. */
static _Noreturn void end_without_done(struct source *sources)
{
    uint64_t left = 0;

    for (uint32_t i = 0; i < sources->slices->count; i++)
        left += sources[i].state.remaining;
    lose("the guest was switched to the destination, and no Done has come: whether it runs there is not known here, "
         "and it does not run here. "
         "%" PRIu64 " pages were not sent since the last break",
         left);
}

static void lose_patience(struct source *source)
{
    if (!slices_give_up(source->slices))
        source->slices->is_over = true;
    if (tls_last_fault())
        log_event("source: TLS: %s", tls_last_fault());
    log_event("source: no destination for %" PRIu64 " s: %s", source->waited / SECOND_NS,
              *source->why ? source->why : "it takes nothing");
}

/* A slice: its migration, up to its end. */
static void run_slice(void *side)
{
    struct source *source = side;

    begin(source);
    while (source->state.phase != POSTMIG_SOURCE_RELEASED && !source->slices->is_over) {
        turn(source);
        if (has_lost_patience(source))
            lose_patience(source);
    }
    if (source->slices->is_over && !source->slices->switched) {
        leave(source);
        return;
    }
    source->figures.released = kernel_now();
    source->figures.busy = kernel_thread_time() - source->figures.busy;
    source_look(source);
    source_says(source);
    slice_completes(source->slices, source->slice);
    while (!source->slice && !slices_are_complete(source->slices) && !source->slices->is_over) {
        source_wait_for_orders(source, PATIENT_MS);
        show_progress(source);
    }
    trace_end();
    sums_end();
    postmig_free(&source->node.handle);
}

/* The guest runs here, in memory that no slice watches yet. */
static void begin_guest(struct slices *slices, struct source *sources, const struct options *options)
{
    struct hello own;

    guest_open(&slices->guest, &options->plan, &options->pace, kernel_map((size_t)options->plan.pages * PAGE_BYTES));
    slices_begin(slices, options);
    hello_begin(&own, options, true);
    for (uint32_t i = 0; i < slices->count; i++) {
        sources[i].options = options;
        prepare(&sources[i], slices, i, &own);
    }
    guest_fill(&slices->guest);
    guest_make(&slices->guest);
    guest_start(&slices->guest);
}

int source_run(const struct options *options)
{
    static struct slices slices;
    struct source *sources = calloc(options->slices, sizeof *sources);

    if (!sources)
        refuse("no memory for %u slices", options->slices);
    operator_open(&options->control);
    trace_open(options->trace);
    begin_guest(&slices, sources, options);
    slices_run(&slices, run_slice, sources, sizeof *sources);
    if (slices.is_over && !slices.switched)
        return keep_guest(sources);
    if (slices.is_over && slices.held)
        return STATUS_REFUSED;
    if (slices.is_over)
        end_without_done(sources);
    for (uint32_t i = 1; i < slices.count; i++)
        add_figures(sources, &sources[i]);
    say_figures(sources);
    operator_close();
    return STATUS_OK;
}
