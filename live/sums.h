/* Sums of the bytes that this side has sent, or taken and installed: live/merge compares those of both sides. A wrong
   driver is found by them, and not a hostile one. Nothing is summed before sums_begin. */
#ifndef SUMS_H
#define SUMS_H

#include <stdbool.h>
#include <stddef.h>
#include <stdint.h>
#include <stdio.h>

/* From now on, of a guest with this many pages. */
void sums_begin(uint32_t pages);

/* The memory of the sums is freed: nothing more is summed. */
void sums_end(void);

bool sums_are_made(void);

/* The node is a new one: what was summed is dropped. */
void sums_begin_again(void);

/* A part of the memory into which pages are installed: that of the guest's page `first` begins there. */
void sums_place(const char *at, size_t bytes, uint32_t first);

/* Pages from this one on were sent, or installed there; where `bytes` is NULL they are zeros. Elsewhere nothing
   is installed. */
void sums_sent(uint32_t page, const void *bytes, size_t pages);
void sums_installed(const char *at, const void *bytes, size_t pages);

/* Pages from this one on are owed, or the guest's no more: what was installed there before is nothing. */
void sums_forget(uint32_t page, uint32_t pages);

/* A frame without pages was sent, or taken, in this epoch. */
void sums_frame(bool is_sent, uint32_t epoch, const uint8_t *bytes, size_t length);

/* Writes all of them as comments of a trace. False: it could not be written, and errno says why. */
bool sums_write(FILE *file);

#endif
