// Faults that are planted in the memory of a run, by thread 0 in its middle: to see whether they are found.
#ifndef PLANT_H
#define PLANT_H

#include "run.h"

// Whether there is a fault of this name.
int is_plant(const char *name);

// Plants what is due before operation `made` of the `count` of thread 0, by which this is called.
void plant_due(const struct settings *settings, unsigned long made, unsigned long count);

// Whether this store is the one that is to be lost.
int loses_store(unsigned thread, uint64_t addr);

#endif
