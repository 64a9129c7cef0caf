/* The accesses of the guest's threads, line by line, in a file: `histories.py` joins those of a source and of a
   destination, and `postmig history` judges them. The language is that of docs/HISTORY.md; an access took effect
   between two readings of the monotonic clock. */
#ifndef HISTORY_H
#define HISTORY_H

#include <stdbool.h>
#include <stdint.h>

/* Before the first thread of the guest; path NULL: nothing is written, and the calls below do nothing. */
void history_open(const char *path);
bool history_is_open(void);

/* When an operation begins: what the caller does after it is after that moment. */
uint64_t history_begin(void);

/* An operation that began then, and has just ended. The calls are of any thread. */
void history_load(uint32_t thread, uint64_t begin, uint64_t address, uint64_t value);
void history_store(uint32_t thread, uint64_t begin, uint64_t address, uint64_t value);
void history_map(uint32_t thread, uint64_t begin, uint64_t address, uint64_t length);
void history_give_back(uint32_t thread, uint64_t begin, uint64_t address, uint64_t length);

/* The threads have ended, and nothing more is written. A history without this is no history: its last line is
   missing. */
void history_close(void);

#endif
