// A run: threads that load, store, swap and call the map at once, on some pages.
#ifndef RUN_H
#define RUN_H

#include "record.h"

#include <stdatomic.h>
#include <stdint.h>

#define BASE 0x10000000ul
#define PAGE 4096ul
#define MOST_THREADS 16

struct settings {
    unsigned threads;
    unsigned long pages;
    unsigned words;      // of each page, 8 bytes each
    unsigned long count; // of all operations before the last loads
    unsigned calls;      // of 10,000 operations, how many are map calls
    unsigned pauses;     // at most this many inside each operation
    int swaps;           // stores are exchanges
    uint64_t seed;
    const char *plant; // a fault, or none
    unsigned long planted_page;
};

// Makes the run. The records of thread I are in `records[I]`; those of the first map call are in `first`.
void make_run(const struct settings *settings, struct records *records, struct records *first);

// A page is mapped from the first of these calls to the second. Who needs several enters them by their numbers, the
// least first.
void enter_page(unsigned long page);
void leave_page(unsigned long page);

// The next tick of the counter. It is a full fence.
uint64_t tick(void);

// The address of a word of a page.
uint64_t word_at(const struct settings *settings, unsigned long page, unsigned word);

#endif
