/* The guest that is migrated: threads that store to words of its memory, load from them, and give pages back.

   Operation k of thread t depends on k, t and the plan alone. So a thread's whole state is the number of its next
   operation, and what each word of memory must be follows from these numbers. A thread leaves its number in page 0
   of the guest when it stops, and takes it from there when it is resumed, on this host or on another. */
#ifndef GUEST_H
#define GUEST_H

#include <pthread.h>
#include <stdatomic.h>
#include <stdbool.h>
#include <stdint.h>

#include "live.h"

/* What both hosts must agree on. */
struct guest_plan {
    uint32_t pages;
    uint32_t threads;
    uint32_t seed;
    uint32_t cold;   /* of 64 operations, stores outside of the hot pages, an eighth of all */
    uint32_t given;  /* of 64 operations, pages that are given back; twice as many store to such pages */
    uint32_t shared; /* the same of pages that all threads use, and each gives back under the others */
};

/* How many processors the node of a slice has: a place for each thread that may wait in it, or all that a node can
   have. */
uint32_t plan_processors(const struct guest_plan *plan);

/* How fast it runs. */
struct guest_pace {
    uint32_t batch; /* after this number of operations a thread sleeps */
    uint32_t pause; /* for this number of microseconds */
};

/* A part of a thread's operations, and the words that they store to or the pages that they give back, one after the
   other. */
struct track {
    uint32_t first, count; /* operations `first` .. `first + count - 1` of each 64 */
    uint32_t first_page;
    uint64_t items;                 /* words, or pages */
    uint64_t step, inverse, offset; /* operation x of the track has the item (step x + offset) modulo items */
};

enum { HOT, COLD, BALLOON, GIVEN, COMMON, TAKEN, TRACKS };

struct guest;

struct guest_thread {
    struct guest *guest;
    uint32_t number;
    struct track track[TRACKS];
    pthread_t handle;
    _Atomic int id;         /* as a fault's message names it; 0 before it runs */
    uint64_t next;          /* the operation that is made next */
    uint64_t left;          /* when it has left the guest's memory for good, in ns */
    _Atomic uint64_t begun; /* when its last access to memory has begun, in ns */
    uint64_t operations, wrong;
    uint64_t wrong_address, wrong_value, right_value; /* of the first wrong load */
};

struct guest {
    struct guest_plan plan;
    struct guest_pace pace;
    char *memory;
    uint32_t slots;                       /* words of a page that threads store to */
    uint32_t balloon_page, balloon_pages; /* the last pages, which are given back; each belongs to one thread */
    uint32_t common_page, common_pages;   /* before them, those that each thread gives back under the others */
    int start_event, stop_event;          /* readable once the threads are to run, and once they are asked to stop */
    _Atomic bool is_started, is_stopping, is_joined;
    _Atomic uint32_t stopped;
    _Atomic uint64_t started;    /* when the threads were, in ns */
    _Atomic uint64_t first_done; /* when the first operation was finished since the threads were started, or 0 */
    struct guest_thread thread[MOST_THREADS];
};

/* Takes `memory`, which has the plan's pages. */
void guest_open(struct guest *guest, const struct guest_plan *plan, const struct guest_pace *pace, char *memory);

/* Stores what the memory has before the first operation. */
void guest_fill(struct guest *guest);

/* Makes the threads, which wait; and has them run, each at the operation that page 0 has for it, once all slices
   may be accessed. */
void guest_make(struct guest *guest);
void guest_start(struct guest *guest);

/* Asks the threads to stop, each between two operations. Their faults and events are still to be handled until all
   have. Each slice's thread may make these calls: the first one counts. */
void guest_ask_stop(struct guest *guest);
bool guest_has_stopped(struct guest *guest);
void guest_join(struct guest *guest);

/* When the last of them has left the memory, in ns. */
uint64_t guest_stopped_at(const struct guest *guest);

/* What the threads have seen. They have stopped. */
uint64_t guest_operations(const struct guest *guest);
uint64_t guest_wrong_loads(const struct guest *guest);

/* Whether one of these pages, from 0 on, may be given back by one thread while another uses it. */
bool guest_shares(const struct guest *guest, uint32_t first, uint32_t count);

/* Which thread a fault's message names. */
uint32_t guest_thread_of(struct guest *guest, uint32_t id);

/* When the access that a thread makes has begun, in ns. */
uint64_t guest_access_begun(const struct guest *guest, uint32_t thread);

/* A number of its plan, which two guests have alike. */
uint64_t guest_number(const struct guest_plan *plan);

/* Compares each word of the memory with what it must be. All threads have stopped, and no one watches the memory.
   Returns the number of wrong pages, and the first of them. */
uint32_t guest_check(struct guest *guest, uint32_t *first_wrong);

/* The same with the threads' loads, as a line of figures. Returns a status of live.h. */
int guest_verdict(struct guest *guest);

#endif
