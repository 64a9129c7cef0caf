/* A slice of the guest's memory under a userfaultfd, and the node that decides what its faults and events lead
   to. */
#ifndef WATCH_H
#define WATCH_H

#include <linux/userfaultfd.h>

#include "guest.h"
#include "handed.h"
#include "node.h"

/* A processor of the node: a thread has it while it waits for a page. */
struct place {
    uint64_t asleep; /* the address of that page, as the node has it; 0: the place is free */
    uint64_t woken; /* the page on which an event has woken the thread, whose own fault of it may still come; 0: none */
    uint32_t thread; /* who had it last, where that is known */
};

struct watch {
    struct node *node;
    struct guest *guest;
    struct handed *handed; /* whose memory it is, or NULL: this process's */
    bool has_own_threads;  /* the threads are not the guest's of guest.h, and may be any: set by the caller */
    char *memory;          /* of this process: the slice's; it is these pages of the guest's */
    uint32_t first, pages;
    int userfault;
    uint32_t places; /* processors of the node */
    struct place place[MOST_PROCESSORS];
    struct uffd_msg late[MOST_THREADS]; /* faults that wait for a place, the first one first */
    uint32_t lates;
    uint64_t faults, events; /* that were read */
    uint64_t roused;         /* processors that an event has woken */
    bool is_behind;          /* there may be messages that are not read, or of which what the node says is not done */
    uint64_t again;          /* calls of the kernel that returned EAGAIN, */
    uint32_t again_in_a_row; /* and those since another result */
    uint64_t needless;       /* faults of pages that were there by the time they were read */
    uint64_t cleared;        /* pages that the node calls present, and the kernel did not have */
    uint64_t requests;
    uint64_t *asked_at;  /* since when someone waits for each page of the source that was asked for, or 0; NULL: that is
                            not kept; */
    uint64_t unanswered; /* and how many of these are not 0 */
};

void watch_open(struct watch *watch, struct node *node, struct guest *guest, struct handed *handed);

/* Only these pages are watched: a slice of the guest. */
void watch_slice(struct watch *watch, uint32_t first, uint32_t pages);

/* Bytes of what is watched. */
size_t watch_bytes(const struct watch *watch);

/* Whether one of these pages of the node may be given back by one thread while another uses it. */
bool watch_shares(const struct watch *watch, uint32_t first, uint32_t count);

/* From now on the time of each wait is kept; and since when someone waits for the page that is at this address at
   the source, or 0. That is forgotten then. */
void watch_keep_times(struct watch *watch);
uint64_t watch_asked_at(struct watch *watch, uint64_t origin);

/* The calling thread, which handles faults, runs before the guest's if that is wanted and allowed. How it runs is
   said. */
void watch_go_first(const char *side, bool is_wanted);

/* The guest's page at an address of the node, where the two number them differently. */
char *watch_page(const struct watch *watch, uint64_t address);

/* At the source, before its start: all memory is registered, and the node is issued the mmap, and a store to each
   page that is present. */
void watch_enter_memory(struct watch *watch);

/* After the Package: the processors that waited at the source make their accesses again. */
void watch_take_over(struct watch *watch);

/* Reads messages, and does what the node says of each. Where threads fault faster than that is done, some are left
   (is_behind). */
void watch_handle(struct watch *watch);

/* The same until nothing is left. The threads have stopped. */
void watch_finish(struct watch *watch);

/* Reads them, and leaves faults for later: the threads that gave memory back finish their calls, and those that
   wait begin none. */
void watch_read(struct watch *watch);

/* A page was installed at this address of the node: the threads that wait for it continue. */
void watch_wake(struct watch *watch, uint64_t address);

/* These pages of the node were woken beside it: faults of them that wait for a place are none any more. */
void watch_forget(struct watch *watch, uint32_t first, uint32_t count);

/* The kernel has returned EAGAIN: an event is unread, or the thread that made it has not finished its call. All
   messages are read, as by watch_read. */
void watch_again(struct watch *watch);

/* Installs copies that are kept, of pages of handed memory, at most `most`. Returns whether there are more. */
bool watch_install_kept(struct watch *watch, uint32_t most);

/* Adds the figures of another slice to these. */
void watch_add(struct watch *all, const struct watch *one);

/* Whether a thread waits for a page, or for a place; and how many do. */
bool watch_has_sleeper(const struct watch *watch);
uint32_t watch_sleepers(const struct watch *watch);

/* An errno that a call may not have returned here. */
_Noreturn void watch_unexpected(int error, const char *call, uint64_t address);

#endif
