/* What the interposed functions share. */
#ifndef RECORDER_H
#define RECORDER_H

#include <stdbool.h>
#include <stdint.h>

#include "log.h"

/* A function that a program finds in place of the C library's. All else is hidden. */
#define INTERPOSED __attribute__((visibility("default")))

/* The end line of a call that returned `result`, or -1 with `error`: what follows `ok` or the errno is in `rest`,
   which may be NULL. */
void end_call(const struct call *call, bool failed, int error, void (*answer)(struct text *line, const void *of),
              const void *of);

/* "end N ok" or "end N ERRNO", and nothing more. */
void end_plain(const struct call *call, bool failed, int error);

/* Begins a call whose fields are O alone, or O and one more number. */
struct call begin_of_object(const char *word, uint64_t object, int fd);

/* Makes userfaultfd(2), or USERFAULTFD_IOC_NEW on `device`, and records it. Returns the descriptor, or -1 with
   errno. */
int recorded_open(int device, unsigned long flags);

/* After a REGISTER: which pages of a range are there. */
void record_pages(uint64_t object, int fd, uint64_t start, uint64_t length);
void record_no_pages(void); /* and from now on not */

/* Before a COPY: a sum of each of its source's pages, to the file that sums_open has named. Without that nothing is
   done. */
void sums_open(const char *path);
void record_sums(const struct call *call, uint64_t destination, uint64_t source, uint64_t length);

#endif
