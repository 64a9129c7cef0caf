/* Lines for the standard output and the standard error. A thread of its own writes them: a reader who reads no
   more, a full disk or a closed descriptor holds no one up. Lines wait in bounded memory; where that is full, or
   one cannot be written, it is dropped and counted. */
#ifndef LOG_H
#define LOG_H

#include <stdbool.h>
#include <stdint.h>

/* Starts the thread. Descriptors 0, 1 and 2 that are closed become /dev/null, so that no other file gets their
   number. Until then lines are written at once. */
void log_open(void);

/* Adds to the line of figures of this thread; one that ends with a line feed goes to the standard output. Those
   that begin with `progress` take no more than half of the memory. */
void log_figures(const char *format, ...) __attribute__((format(printf, 1, 2)));

/* A line `live: TEXT` for the standard error, of any thread; and one with the time of day in front of the text. */
void log_say(const char *format, ...) __attribute__((format(printf, 1, 2)));
void log_event(const char *format, ...) __attribute__((format(printf, 1, 2)));

/* Lines of this thread for the standard error name this slice from now on. */
void log_slice(uint32_t slice);

/* Waits until all is written, for two seconds at most. */
void log_flush(void);

/* Lines that were dropped. */
uint64_t log_dropped(void);

#endif
