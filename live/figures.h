/* Figures of a run: lines of KEY=VALUE on the standard output, and times of waits. */
#ifndef FIGURES_H
#define FIGURES_H

#include <stdbool.h>
#include <stddef.h>
#include <stdint.h>

/* Durations in nanoseconds. */
struct samples {
    uint64_t *value;
    size_t count, room;
    uint64_t dropped; /* for lack of memory */
};
void samples_add(struct samples *samples, uint64_t nanoseconds);
/* The value in microseconds that the part `of` 1,000 of them does not exceed; 0 where there are none. The samples
   are sorted then. */
double samples_part(struct samples *samples, uint32_t of);

/* Whether it is time for another line of progress. */
bool progress_is_due(void);

#endif
