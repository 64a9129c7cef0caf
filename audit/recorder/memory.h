/* Reads the program's memory as the kernel does: a bad address is an answer, and no signal. */
#ifndef MEMORY_H
#define MEMORY_H

#include <stdbool.h>
#include <stddef.h>

/* The caller has asked log_caller, in the same function or above it. */
bool memory_copy(void *to, const void *from, size_t bytes);

#endif
