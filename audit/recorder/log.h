/*
 * The file that the lines go to. Each line is one write to a file that is open for appending: so the kernel gives the
 * lines of all processes and threads one order.
 */
#ifndef LOG_H
#define LOG_H

#include <stdbool.h>

#include "text.h"

/* A call of the program, or a line about none: who makes it, and its number in this process. */
struct call {
    long pid, tid;
    uint64_t number;
};

/* Opens the log that audit/record has made. */
bool log_open(const char *path);

/* Whether there is one. Where there is not, nothing is recorded. */
bool log_is_open(void);

/* The thread that runs here. Its number is asked for each time: a child of vfork(2) or clone(2) shares all
   variables of another process. */
struct call log_caller(void);

/* The thread that was found by the last log_caller of this thread: without a system call, where the caller has just
   asked. */
long log_last_thread(void);

/*
 * Each writes a line of which `rest` is the part after the words that it puts itself. A line that is cut, or that
 * cannot be written, is counted, and a line `lost N` follows as soon as one can be written.
 */
struct call log_begin(struct text *rest); /* TIME PID TID begin N rest, with a new N */
void log_of_call(const struct call *call, const char *kind, struct text *rest); /* TIME PID TID kind N rest */
void log_note(const char *kind, struct text *rest);                             /* TIME PID TID kind rest */

/* Lines that the recorder knows it cannot write. */
void log_count_lost(uint64_t lines);

/* The log's descriptor, or -1. */
int log_number(void);
bool log_has(int fd);

/* Takes the log away from a descriptor that the program is about to use. */
void log_leave(int fd);

#endif
