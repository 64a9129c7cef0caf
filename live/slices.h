/* A guest in slices: its memory is cut at page boundaries, and each slice has a node, a userfaultfd, a channel and
   a thread of its own at both sides. Each migrates by itself; what they do together is here. The guest is stopped
   before the first slice switches, and runs at the destination once the last one has taken its Package. */
#ifndef SLICES_H
#define SLICES_H

#include <pthread.h>
#include <stdatomic.h>
#include <stdbool.h>
#include <stdint.h>

#include "guest.h"
#include "options.h"

/* How far a slice is, or all of them: the least phase, the greatest epoch and round, and sums. */
struct progress {
    uint32_t phase, epoch, round, waits;
    bool is_connected, has_run;
    uint64_t left, moved, faults, breaks, turned_away;
};

struct slices {
    uint32_t count;
    struct guest guest;
    pthread_t thread[MOST_SLICES];              /* of each but the first, which has the program's own */
    _Atomic uint32_t patience, rate, push_rate; /* what the operator has set last, for all together */
    _Atomic bool is_over;       /* the migration is, before the switch; or no one waits for the other side any more */
    _Atomic bool is_to_end;     /* the guest that is kept at the source is to end */
    _Atomic(const char *) held; /* why a slice does nothing more, or NULL */
    _Atomic bool is_due;        /* at the source: all slices could switch at once, so each is to; */
    _Atomic uint32_t switched;  /* how many have, or do so now */

    _Atomic uint64_t last_frame; /* at the destination: when one came last, in ns */

    pthread_barrier_t begun;
    pthread_mutex_t lock; /* of all below */
    struct progress progress[MOST_SLICES];
    uint64_t ready_for[MOST_SLICES]; /* at the source: the destination that each slice could switch to now, or 0 */
    uint64_t source;                 /* at the destination: the source that is served, */
    bool is_bound[MOST_SLICES];      /* to which of the slices it was promised that no one takes its place, */
    bool is_complete[MOST_SLICES];   /* and which have all their pages */
    uint32_t packages;               /* taken */
};

void slices_begin(struct slices *slices, const struct options *options);

/* The pages of a slice in the guest: `first`, and how many. */
uint32_t slice_first(const struct slices *slices, uint32_t slice);
uint32_t slice_pages(const struct slices *slices, uint32_t slice);

/* Has `run` carry out each slice, the first in this thread; sides: an array with the state of each, of `size`
   bytes. Returns once all have. */
void slices_run(struct slices *slices, void (*run)(void *), void *sides, size_t size);

/* Returns once each slice has called it. */
void slices_meet(struct slices *slices);

/* Returns once the threads of all slices but the first have ended. */
void slices_join(struct slices *slices);

/* Ends the thread of a slice, unless it is the first one. */
void slice_leave(uint32_t slice);

/* How far this slice is; and all are. `paused` is the number of that phase, which counts for all. */
void slice_says(struct slices *slices, uint32_t slice, const struct progress *progress);
struct progress slices_say(struct slices *slices, uint32_t paused);

/* THE SOURCE */

/* This slice could switch now, to this destination; 0: it cannot any more. Returns whether it is to: once all
   could, each is. */
bool slice_ready(struct slices *slices, uint32_t slice, uint64_t destination);

/* It switches now. False where the migration is over. */
bool slice_switches(struct slices *slices);

/* The migration ends, and the guest runs on. False once all slices are to switch. */
bool slices_give_up(struct slices *slices);

/* The same where a slice cannot continue. False once another one has switched; is_to_switch: this one was about
   to. */
bool slices_fail(struct slices *slices, bool is_to_switch);

/* The part of a rate that a slice has; 0: there is no limit. */
uint32_t slices_share(const struct slices *slices, uint32_t rate);

/* THE DESTINATION */

/* A slice has taken its Package, and its memory is registered: the guest runs once all have. */
void slice_has_package(struct slices *slices);

/* The first slice serves this source from now on. False where all slices are bound to another one. */
bool slices_serve(struct slices *slices, uint64_t source);

/* The slice promises its source that no one takes its place. False where the first slice serves another one. */
bool slice_binds(struct slices *slices, uint32_t slice, uint64_t source);
/* Whether all have: then that source may have switched. */
bool slices_are_bound(struct slices *slices);

/* The slice has all its pages; and whether all have. */
void slice_completes(struct slices *slices, uint32_t slice);
bool slices_are_complete(struct slices *slices);

#endif
