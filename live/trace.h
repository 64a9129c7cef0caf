/* The steps that this process's nodes make, line by line, in a file: `live/merge` makes one script of both sides'
   files. Each thread of the driver has one node, and calls but trace_open are of that node. Where there are
   several, the file has a section of each, in one part or more. */
#ifndef TRACE_H
#define TRACE_H

#include "node.h"

/* The file; path NULL: nothing is traced, and the calls below do nothing. */
void trace_open(const char *path);

/* From now on the steps of this node are traced. It is that of slice `slice` of `slices`. */
void trace_begin(struct node *node, uint32_t processors, uint32_t slice, uint32_t slices);

/* The node is a new one: what was traced of it is dropped. */
void trace_begin_again(struct node *node, uint32_t processors);

/* The node, a destination, has just taken a Resume of this epoch. No line says that, and a merge must know which
   one it was. */
void trace_resumed(uint32_t epoch);

/* When something was that a merge compares with other slices, in ns: `what` is a word. */
void trace_moment(const char *what, uint64_t at);

/* The node keeps its lines, and words them when they are taken. So they are taken at the end; before it only those
   beyond a bound are, by this call in each turn. */
void trace_bound(void);

/* Writes all lines that wait. It may be called at any end of the program, more than once. */
void trace_end(void);

#endif
