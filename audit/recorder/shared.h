/*
 * What all processes of one log share: a page of a file that audit/record makes, so that it outlives fork, exec and
 * kill. Without that file it is a page of this process alone.
 */
#ifndef SHARED_H
#define SHARED_H

#include <stdbool.h>
#include <stdint.h>

#define SHARED_BYTES 65536
#define MOST_RANGES 2048

/* Bytes from `start`; `length` is written last and is 0 until then. */
struct range {
    _Atomic uint64_t start, length;
};

struct shared {
    _Atomic uint64_t lost;   /* lines that could not be written and that no `lost` line has yet */
    _Atomic uint64_t ranges; /* how many were taken of `range`, or more: then each map call is recorded */
    struct range range[MOST_RANGES];
};

/* Maps the file; where that fails the page of this process stays. */
void shared_map(const char *path);

struct shared *shared(void);

/*
 * Ranges that were ever registered, or that something registered was moved to. None is taken away, so that a map call
 * may be recorded that no longer meets one; a reader expects that.
 */
void ranges_add(struct shared *page, uint64_t start, uint64_t length);
bool ranges_any(struct shared *page);
bool ranges_meet(struct shared *page, uint64_t start, uint64_t length);

#endif
