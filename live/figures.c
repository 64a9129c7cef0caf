/* Durations, and when to say how far it is. */
#include "figures.h"

#include <stdlib.h>

#include "kernel.h"

#define PROGRESS_NS 100000000u

void samples_add(struct samples *samples, uint64_t nanoseconds)
{
    if (samples->count == samples->room) {
        size_t room = samples->room ? 2 * samples->room : 1024;
        uint64_t *more = realloc(samples->value, room * sizeof *more);

        if (!more) {
            samples->dropped++;
            return;
        }
        samples->value = more;
        samples->room = room;
    }
    samples->value[samples->count++] = nanoseconds;
}

static int by_length(const void *one, const void *other)
{
    uint64_t a = *(const uint64_t *)one, b = *(const uint64_t *)other;

    return (a > b) - (a < b);
}

double samples_part(struct samples *samples, uint32_t of)
{
    if (!samples->count)
        return 0;
    qsort(samples->value, samples->count, sizeof *samples->value, by_length);
    return (double)samples->value[(samples->count - 1) * of / 1000] / 1e3;
}

bool progress_is_due(void)
{
    static _Thread_local uint64_t next;
    uint64_t now = kernel_now();

    if (now < next)
        return false;
    next = now + PROGRESS_NS;
    return true;
}
