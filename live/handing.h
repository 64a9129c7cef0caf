/* The monitor's side of handed.h: how it hands its memory over. */
#ifndef HANDING_H
#define HANDING_H

#include "handed.h"

/* A connection to a handler at this Unix address. It waits until one listens there, for this number of seconds at
   most. */
int handing_connect(const struct address *address, uint32_t patience);

/* Hands over the descriptor with the list of what is registered with it. The guest has not run, and touches nothing
   before it is to run. */
void handing_give(int handler, int userfault, const struct handed_range *ranges, uint32_t count);

/* Says this byte. (A handler that has ended does not hear it: once it has said HANDED_STOP nothing is lost by
   that.) */
void handing_say(int handler, char what);

/* Waits for this byte, or, where it is 0, for the end of the connection; and else ends, with this reason. */
void handing_hear(int handler, char wanted, const char *otherwise);

#endif
