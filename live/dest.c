/* `live dest` and `live handler`: the start, the loop, and the ends. */
#include "dest.h"

#include <errno.h>
#include <inttypes.h>
#include <poll.h>
#include <stdlib.h>

#include "feed.h"
#include "kernel.h"
#include "log.h"
#include "operator.h"
#include "roles.h"
#include "sums.h"
#include "trace.h"

#define KEPT_AT_A_TIME 16u
#define OWN_FILES (4u + OPERATOR_FILES) /* what is waited for, but of the door */
#define MOST_FILES (MOST_NEWCOMERS + 1u + OWN_FILES)
/* of the heap, for a node (20 MiB, as measured), buffers, and the contents of frames; */
#define RESERVE_BYTES (28u << 20)
#define RESERVE_OF_PAGE 96u          /* for each page (60); */
#define RESERVE_OF_TRACE (96u << 20) /* and for the lines that wait in a trace */
#define MOST_UNASKED 8u              /* turns without poll(2) */
#define PATIENT_MS 120000u           /* for the guest's threads to stop, on a machine that has much else to do */

static _Thread_local struct dest *keeper;

void dest_look(struct dest *dest)
{
    node_do(postmig_destination_counts(&dest->node.handle, &dest->state));
}

void dest_has_pending(struct dest *dest, enum pending pending)
{
    if (pending > dest->pending)
        dest->pending = pending;
}

static void begin_sums(struct dest *dest)
{
    if (!dest->options->makes_sums)
        return;
    sums_begin(dest->watch.pages);
    if (!dest->is_handed)
        sums_place(dest->watch.memory, watch_bytes(&dest->watch), LOW_PAGE);
    for (uint32_t i = 0; i < dest->handed.ranges; i++)
        sums_place(handed_page(&dest->handed, dest->handed.range[i].offset / PAGE_BYTES), dest->handed.range[i].bytes,
                   LOW_PAGE + (uint32_t)(dest->handed.range[i].offset / PAGE_BYTES));
}

/* What a slice needs before the source is listened for. */
static void prepare(struct dest *dest, struct slices *slices, uint32_t slice, const struct hello *own)
{
    dest->slices = slices;
    dest->guest = &slices->guest;
    dest->slice = slice;
    dest->main = dest->urgent = (struct stream)NO_STREAM;
    watch_open(&dest->watch, &dest->node, dest->guest, dest->is_handed ? &dest->handed : NULL);
    watch_slice(&dest->watch, slice_first(slices, slice), slice_pages(slices, slice));
    watch_keep_times(&dest->watch);
    batch_open(&dest->batch);
    dest->own = *own;
    dest->own.slice = slice;
    dest->own.pages = dest->watch.pages;
}

static void begin(struct dest *dest)
{
    uint32_t processors = dest->own.processors;

    keeper = dest;
    node_do(postmig_destination_new((uint8_t)processors, &dest->node.handle));
    begin_sums(dest);
    trace_begin(&dest->node, processors, dest->slice, dest->slices->count);
    watch_go_first("destination", dest->options->goes_first);
    dest->last_turn = kernel_now();
    dest_look(dest);
}

/* Listens for the source, or starts the program that takes its part. All connections are made to the first slice's
   door. */
static void open_doors(struct dest *dests, const struct options *options)
{
    struct door *first = &dests->door;

    if (options->feed) {
        door_feed(first, feed_start(options->feed), &dests->own);
        return;
    }
    door_open(first, &options->address, options->buffer, &dests->own);
    for (uint32_t i = 1; i < options->slices; i++)
        door_behind(&dests[i].door, first, &dests[i].own);
}

/* THE LOOP */

/* While pages keep coming poll(2) is called now and then: a userfaultfd and an urgent connection without anything
   say so in less time. (Nothing is urgent while no thread waits.) */
static bool is_still_flowing(struct dest *dest)
{
    if (dest->pending != PENDING_PAGES || dest->unasked++ == MOST_UNASKED)
        return false;
    kernel_first(watch_has_sleeper(&dest->watch));
    dest->watch.is_behind = dest->main.is_ready = true;
    dest->urgent.is_ready = stream_is_open(&dest->urgent) && watch_has_sleeper(&dest->watch);
    return true;
}

static void wait_for_more(struct dest *dest)
{
    struct pollfd files[MOST_FILES] = { { .fd = dest->state.has_run ? dest->watch.userfault : -1, .events = POLLIN },
                                        stream_waits(&dest->main),
                                        stream_waits(&dest->urgent),
                                        { .fd = dest->is_handed ? dest->handed.monitor : -1, .events = POLLIN } };
    uint32_t count = OWN_FILES + door_files(&dest->door, files + OWN_FILES);
    bool has_more =
        dest->pending || dest->main.is_ready || dest->urgent.is_ready || (dest->state.has_run && dest->watch.is_behind);

    operator_files(files + 4);
    kernel_first(!has_more || watch_has_sleeper(&dest->watch));
    if (poll(files, count, has_more ? 0 : 100) < 0 && errno != EINTR)
        lack(errno, "poll");
    dest->unasked = 0;
    dest->watch.is_behind |= files[0].revents != 0;
    dest->main.is_ready |= files[1].revents != 0;
    dest->urgent.is_ready |= files[2].revents != 0;
    if (files[3].revents && handed_has_stopped(&dest->handed))
        refuse("the guest has stopped, and was not asked to");
    dest->is_at_door = door_has_newcomer(&dest->door);
    for (uint32_t i = OWN_FILES; i < count; i++)
        dest->is_at_door |= files[i].revents != 0;
}

const char *const dest_phases[] = { "idle", "advised", "discarding", "running", "paused", "ended" };

void dest_says(struct dest *dest)
{
    struct progress now;

    dest_look(dest);
    now = (struct progress){
        .phase = dest->state.phase,
        .epoch = dest->state.epoch,
        .waits = watch_sleepers(&dest->watch),
        .is_connected = stream_is_open(&dest->main),
        .has_run = dest->state.has_run,
        .left = dest->state.owed,
        .moved = dest->state.installed,
        .faults = dest->watch.faults,
        .breaks = dest->figures.breaks,
        .turned_away = dest->door.turned_away,
    };
    slice_says(dest->slices, dest->slice, &now);
}

static void show_progress(struct dest *dest)
{
    struct progress all;
    bool is_alone = dest->slices->count == 1;

    if ((is_alone && !dest->options->shows_progress) || !progress_is_due())
        return;
    dest_says(dest);
    if (dest->slice || !dest->options->shows_progress)
        return;
    all = slices_say(dest->slices, POSTMIG_DESTINATION_PAUSED);
    log_figures("progress destination phase=%s left=%" PRIu64 " installed=%" PRIu64 " faults=%" PRIu64
                " waits=%u epoch=%u breaks=%" PRIu64 "\n",
                dest_phases[all.phase], all.left, all.moved, all.faults, all.waits, all.epoch, all.breaks);
}

static void log_phase(struct dest *dest)
{
    if (dest->logged_phase == dest->state.phase)
        return;
    dest->logged_phase = dest->state.phase;
    log_event("destination: %s, epoch %u, %u pages owed", dest_phases[dest->logged_phase], dest->state.epoch,
              dest->state.owed);
}

/* One turn. Returns whether all is over. */
static bool turn(struct dest *dest)
{
    dest->pending = PENDING_NOTHING;
    dest_obey(dest);
    if (dest->state.has_run && dest->watch.is_behind)
        watch_handle(&dest->watch);
    if (dest->is_at_door)
        dest_look_at_door(dest);
    dest_use_channel(dest);
    if (dest->state.has_run && dest->is_handed)
        dest_has_pending(dest, watch_install_kept(&dest->watch, KEPT_AT_A_TIME) ? PENDING_FRAMES : PENDING_NOTHING);
    trace_bound();
    show_progress(dest);
    log_phase(dest);
    if (!dest->slices->is_over && !is_still_flowing(dest))
        wait_for_more(dest);
    return dest->slices->is_over;
}

/* WAITS FOR THE OPERATOR */

static bool wait_for_orders(uint32_t milliseconds)
{
    struct pollfd files[OPERATOR_FILES];

    operator_files(files);
    (void)poll(files, OPERATOR_FILES, (int)milliseconds); /* a shorter wait is as good */
    dest_obey(keeper);
    return keeper->slices->is_over;
}

/* The guest, or what has arrived of it, is here alone. What cannot be tried again leaves it as it is: threads that
   need no page run on. */
static int keep_all(const char *why)
{
    keeper->is_held = true;
    keeper->slices->held = why;
    stream_close(&keeper->main);
    stream_close(&keeper->urgent);
    log_event("destination: " HELD);
    while (!wait_for_orders(1000))
        continue;
    if (keeper->slice)
        trace_end();
    slice_leave(keeper->slice);
    return STATUS_REFUSED;
}

const struct keeping dest_bound = { keep_all, wait_for_orders }, dest_free = { NULL, wait_for_orders };

/* HOW IT ENDS */

static void handle_guest(struct dest *dest)
{
    watch_handle(&dest->watch);
    if (dest->is_handed)
        (void)watch_install_kept(&dest->watch, KEPT_AT_A_TIME); /* the rest is installed below */
    /* a shorter wait is as good */
    (void)poll(&(struct pollfd){ .fd = dest->watch.userfault, .events = POLLIN }, 1, 1);
}

/* Its threads stop, for all slices: their faults are handled until they have. */
static void stop_guest(struct dest *dest)
{
    uint64_t late = kernel_now() + PATIENT_MS * 1000000ull;

    guest_ask_stop(dest->guest);
    while (!guest_has_stopped(dest->guest)) {
        handle_guest(dest);
        if (kernel_now() > late)
            refuse("a thread of the guest sleeps for ever");
    }
    guest_join(dest->guest);
    watch_finish(&dest->watch);
    kernel_unregister(dest->watch.userfault, dest->watch.memory, watch_bytes(&dest->watch));
}

/* The guest runs on for a moment. Then no one watches its memory any more, in which all pages are. */
static void leave_guest(struct dest *dest)
{
    uint64_t until = kernel_now() + dest->options->after * 1000000ull;

    if (!dest->is_handed) /* (it ends with this process) */
        live_keep((struct keeping){ NULL, NULL });
    while (kernel_now() < until)
        handle_guest(dest);
    if (!dest->is_handed) {
        stop_guest(dest);
        return;
    }
    dest->slices->is_over = false; /* another word of the operator ends a wait for the monitor, or for memory */
    while (watch_install_kept(&dest->watch, KEPT_AT_A_TIME))
        watch_handle(&dest->watch);
    handed_leave(&dest->handed, wait_for_orders);
    live_keep((struct keeping){ NULL, NULL });
}

static uint64_t later(uint64_t one, uint64_t other)
{
    return one > other ? one : other;
}

/* Sums of all slices, in the first; moments are those of the last slice. */
static void add_figures(struct dest *all, const struct dest *one)
{
    all->figures.discard = later(all->figures.discard, one->figures.discard);
    all->figures.package = later(all->figures.package, one->figures.package);
    all->figures.run = later(all->figures.run, one->figures.run);
    all->figures.end = later(all->figures.end, one->figures.end);
    all->figures.breaks += one->figures.breaks;
    all->figures.late_breaks += one->figures.late_breaks;
    all->figures.kept += one->figures.kept;
    all->figures.discarded += one->figures.discarded;
    all->figures.busy += one->figures.busy;
    all->state.installed += one->state.installed;
    all->state.dropped += one->state.dropped;
    all->state.owed += one->state.owed;
    all->state.epoch = one->state.epoch > all->state.epoch ? one->state.epoch : all->state.epoch;
    all->state.has_run |= one->state.has_run;
    all->door.turned_away += one->door.turned_away;
    for (size_t i = 0; i < one->waits.count; i++)
        samples_add(&all->waits, one->waits.value[i]);
    watch_add(&all->watch, &one->watch);
}

static void say_figures(struct dest *dest)
{
    const struct watch *watch = &dest->watch;

    log_figures("destination discard=%" PRIu64 " package=%" PRIu64 " run=%" PRIu64 " first=%" PRIu64 " end=%" PRIu64,
                dest->figures.discard, dest->figures.package, dest->figures.run, atomic_load(&dest->guest->first_done),
                dest->figures.end);
    log_figures(" kept=%" PRIu64 " discarded=%" PRIu64 " installed=%" PRIu64 " dropped=%" PRIu64 " requests=%" PRIu64,
                dest->figures.kept, dest->figures.discarded, dest->state.installed, dest->state.dropped,
                watch->requests);
    log_figures(" faults=%" PRIu64 " events=%" PRIu64 " roused=%" PRIu64 " again=%" PRIu64 " needless=%" PRIu64
                " cleared=%" PRIu64,
                watch->faults, watch->events, watch->roused, watch->again, watch->needless, watch->cleared);
    log_figures(" waits=%zu p50=%.1f p99=%.1f most=%.1f", dest->waits.count, samples_part(&dest->waits, 500),
                samples_part(&dest->waits, 990), samples_part(&dest->waits, 1000));
    log_figures(" breaks=%" PRIu64 " late_breaks=%" PRIu64 " turned_away=%" PRIu64 " epoch=%u busy=%" PRIu64 "\n",
                dest->figures.breaks, dest->figures.late_breaks, dest->door.turned_away, dest->state.epoch,
                dest->figures.busy);
}

/* A slice: its migration, up to the end of this process. */
static void run_slice(void *side)
{
    struct dest *dest = side;

    begin(dest);
    live_keep(dest_free);
    slices_meet(dest->slices);
    if (!dest->slice && dest->door.address)
        log_figures("listening port=%u\n", door_port(&dest->door));
    while (!turn(dest))
        continue;
    dest_look(dest);
    if (!dest->is_handed && atomic_load(&dest->guest->is_started))
        trace_moment("runs", dest->guest->started);
    if (slices_are_complete(dest->slices)) {
        door_close(&dest->door);
        leave_guest(dest);
        dest_look(dest);
    }
    trace_end();
    sums_end();
    postmig_free(&dest->node.handle);
}

/* The memory, and what each slice needs. */
static void begin_guest(struct slices *slices, struct dest *dests, const struct options *options)
{
    bool is_handed = options->monitor.text;
    struct hello own;

    kernel_reserve(slices->count * RESERVE_BYTES + (size_t)options->plan.pages * RESERVE_OF_PAGE +
                   (options->trace ? slices->count * RESERVE_OF_TRACE : 0));
    guest_open(&slices->guest, &options->plan, &options->pace,
               is_handed ? NULL : kernel_map((size_t)options->plan.pages * PAGE_BYTES));
    hello_begin(&own, options, !is_handed);
    for (uint32_t i = 0; i < slices->count; i++) {
        dests[i].options = options;
        prepare(&dests[i], slices, i, &own);
    }
    if (!is_handed)
        guest_make(&slices->guest);
}

int dest_run(const struct options *options)
{
    static struct slices slices;
    struct dest *dests = calloc(options->slices, sizeof *dests);

    if (!dests)
        refuse("no memory for %u slices", options->slices);
    dests->is_handed = options->monitor.text;
    if (dests->is_handed) /* (a signal ends the process while it waits for the monitor) */
        handed_accept(&dests->handed, &options->monitor, options->plan.pages);
    operator_open(&options->control);
    trace_open(options->trace);
    slices_begin(&slices, options);
    begin_guest(&slices, dests, options);
    open_doors(dests, options);
    slices_run(&slices, run_slice, dests, sizeof *dests);
    if (slices.held)
        return STATUS_REFUSED;
    for (uint32_t i = 1; i < slices.count; i++)
        add_figures(dests, &dests[i]);
    if (options->feed)
        log_figures("fed status=%d\n", feed_end());
    if (!slices_are_complete(&slices))
        lose(dests->state.has_run ? "the source is gone for good, and %u pages with it: the guest is lost"
                                  : "it ends before the switch",
             dests->state.owed);
    operator_close();
    say_figures(dests);
    return dests->is_handed ? STATUS_OK : guest_verdict(&slices.guest); /* a monitor checks its memory by itself */
}
