/* What the slices of a guest do together. */
#include "slices.h"

#include <string.h>

#include "live.h"
#include "log.h"
#include "sums.h"

void slices_begin(struct slices *slices, const struct options *options)
{
    int error = pthread_mutex_init(&slices->lock, NULL);

    slices->count = options->slices;
    error = error ? error : pthread_barrier_init(&slices->begun, NULL, slices->count);
    if (error)
        refuse_errno(error, "a lock");
    atomic_store(&slices->patience, options->patience);
    atomic_store(&slices->rate, options->rate);
    atomic_store(&slices->push_rate, options->push_rate);
}

uint32_t slice_first(const struct slices *slices, uint32_t slice)
{
    return (uint32_t)((uint64_t)slices->guest.plan.pages * slice / slices->count);
}

uint32_t slice_pages(const struct slices *slices, uint32_t slice)
{
    return slice_first(slices, slice + 1) - slice_first(slices, slice);
}

/* THREADS */

struct start {
    void (*run)(void *);
    void *side;
    uint32_t slice;
};

static void *run_slice(void *argument)
{
    const struct start *start = argument;

    live_begin();
    log_slice(start->slice);
    start->run(start->side);
    return NULL;
}

void slices_run(struct slices *slices, void (*run)(void *), void *sides, size_t size)
{
    struct start start[MOST_SLICES];

    for (uint32_t i = 1; i < slices->count; i++) {
        int error;

        start[i] = (struct start){ run, (char *)sides + i * size, i };
        error = pthread_create(&slices->thread[i], NULL, run_slice, &start[i]);
        if (error)
            refuse_errno(error, "the thread of a slice cannot be started");
    }
    if (slices->count > 1)
        log_slice(0);
    run(sides);
    slices_join(slices);
}

void slices_meet(struct slices *slices)
{
    (void)pthread_barrier_wait(&slices->begun); /* it always succeeds */
}

void slices_join(struct slices *slices)
{
    for (uint32_t i = 1; i < slices->count; i++) {
        int error = pthread_join(slices->thread[i], NULL);

        if (error)
            refuse_errno(error, "the thread of a slice does not end");
    }
}

void slice_leave(uint32_t slice)
{
    if (slice) {
        sums_end();
        pthread_exit(NULL);
    }
}

/* PROGRESS */

void slice_says(struct slices *slices, uint32_t slice, const struct progress *progress)
{
    (void)pthread_mutex_lock(&slices->lock); /* here and below: it is not held by this thread */
    slices->progress[slice] = *progress;
    (void)pthread_mutex_unlock(&slices->lock);
}

static uint32_t greater(uint32_t one, uint32_t other)
{
    return one > other ? one : other;
}

static void add(struct progress *all, const struct progress *one, uint32_t paused)
{
    bool is_paused = all->phase == paused || one->phase == paused;

    all->phase = is_paused ? paused : one->phase < all->phase ? one->phase : all->phase;
    all->epoch = greater(all->epoch, one->epoch);
    all->round = greater(all->round, one->round);
    all->is_connected &= one->is_connected;
    all->has_run &= one->has_run;
    all->waits += one->waits;
    all->left += one->left;
    all->moved += one->moved;
    all->faults += one->faults;
    all->breaks += one->breaks;
    all->turned_away += one->turned_away;
}

struct progress slices_say(struct slices *slices, uint32_t paused)
{
    struct progress all;

    (void)pthread_mutex_lock(&slices->lock);
    all = slices->progress[0];
    for (uint32_t i = 1; i < slices->count; i++)
        add(&all, &slices->progress[i], paused);
    (void)pthread_mutex_unlock(&slices->lock);
    return all;
}

/* THE SOURCE */

bool slice_ready(struct slices *slices, uint32_t slice, uint64_t destination)
{
    bool are_all = destination;

    (void)pthread_mutex_lock(&slices->lock);
    slices->ready_for[slice] = destination;
    for (uint32_t i = 0; i < slices->count; i++)
        are_all &= slices->ready_for[i] == destination;
    if (are_all && !atomic_load(&slices->is_over))
        atomic_store(&slices->is_due, true);
    (void)pthread_mutex_unlock(&slices->lock);
    return destination && atomic_load(&slices->is_due);
}

bool slice_switches(struct slices *slices)
{
    bool is_over;

    (void)pthread_mutex_lock(&slices->lock);
    is_over = atomic_load(&slices->is_over);
    if (!is_over)
        atomic_fetch_add(&slices->switched, 1);
    (void)pthread_mutex_unlock(&slices->lock);
    return !is_over;
}

bool slices_give_up(struct slices *slices)
{
    bool is_due;

    (void)pthread_mutex_lock(&slices->lock);
    is_due = atomic_load(&slices->is_due);
    if (!is_due)
        atomic_store(&slices->is_over, true);
    (void)pthread_mutex_unlock(&slices->lock);
    return !is_due;
}

bool slices_fail(struct slices *slices, bool is_to_switch)
{
    bool is_first;

    (void)pthread_mutex_lock(&slices->lock);
    is_first = atomic_load(&slices->switched) == is_to_switch;
    if (is_first) {
        atomic_store(&slices->switched, 0);
        atomic_store(&slices->is_due, false);
        atomic_store(&slices->is_over, true);
    }
    (void)pthread_mutex_unlock(&slices->lock);
    return is_first;
}

uint32_t slices_share(const struct slices *slices, uint32_t rate)
{
    return (rate + slices->count - 1) / slices->count;
}

/* THE DESTINATION */

static bool are_all(const struct slices *slices, const bool *is_so)
{
    uint32_t count = 0;

    for (uint32_t i = 0; i < slices->count; i++)
        count += is_so[i];
    return count == slices->count;
}

void slice_has_package(struct slices *slices)
{
    (void)pthread_mutex_lock(&slices->lock);
    if (++slices->packages == slices->count)
        guest_start(&slices->guest);
    (void)pthread_mutex_unlock(&slices->lock);
}

bool slices_serve(struct slices *slices, uint64_t source)
{
    bool is_other, is_served;

    (void)pthread_mutex_lock(&slices->lock);
    is_other = slices->source != source;
    is_served = !is_other || !are_all(slices, slices->is_bound);
    if (is_other && is_served) {
        memset(slices->is_bound, 0, sizeof slices->is_bound);
        slices->source = source;
    }
    (void)pthread_mutex_unlock(&slices->lock);
    return is_served;
}

bool slice_binds(struct slices *slices, uint32_t slice, uint64_t source)
{
    bool is_served;

    (void)pthread_mutex_lock(&slices->lock);
    is_served = slices->source == source;
    slices->is_bound[slice] |= is_served;
    (void)pthread_mutex_unlock(&slices->lock);
    return is_served;
}

bool slices_are_bound(struct slices *slices)
{
    bool are_bound;

    (void)pthread_mutex_lock(&slices->lock);
    are_bound = are_all(slices, slices->is_bound);
    (void)pthread_mutex_unlock(&slices->lock);
    return are_bound;
}

void slice_completes(struct slices *slices, uint32_t slice)
{
    (void)pthread_mutex_lock(&slices->lock);
    slices->is_complete[slice] = true;
    (void)pthread_mutex_unlock(&slices->lock);
}

bool slices_are_complete(struct slices *slices)
{
    bool are_complete;

    (void)pthread_mutex_lock(&slices->lock);
    are_complete = are_all(slices, slices->is_complete);
    (void)pthread_mutex_unlock(&slices->lock);
    return are_complete;
}
