/* The calls of the kernel that move a guest's memory. A call that may be refused returns 0 or an errno; every other
   refusal ends the program. */
#ifndef KERNEL_H
#define KERNEL_H

#include <linux/userfaultfd.h>
#include <stdbool.h>
#include <stddef.h>
#include <stdint.h>

/* Nanoseconds of the monotonic clock. */
uint64_t kernel_now(void);

/* Nanoseconds of processor time that this thread has used. */
uint64_t kernel_thread_time(void);

/* Whether and how the calling thread can run before others that want a processor, for people. From then on
   kernel_first has it do so, or not. */
const char *kernel_go_first(void);
void kernel_first(bool is_first);

/* Gives the processor to someone else, after the kernel has refused a call for the `times`th time in a row: for a
   moment at first. */
void kernel_yield(uint32_t times);

/* Takes this much of the heap, and gives it back to malloc(3) alone: what is allocated later is there. Refused
   where there is less. */
void kernel_reserve(size_t bytes);

/* Anonymous memory of this many bytes, of which no part is ever a huge page. */
char *kernel_map(size_t bytes);

/* A descriptor for faults of missing and of protected pages, with the three events and the thread of each fault. */
int kernel_open_userfault(void);

/* Registers a range for missing faults, and for those of protected pages too. */
void kernel_register(int userfault, char *at, size_t bytes, bool with_protection);
void kernel_unregister(int userfault, char *at, size_t bytes);

/* Each returns 0, EAGAIN while an event is unread, or what else the kernel says. Where it is 0 the threads that
   sleep there were woken. */
int kernel_copy(int userfault, char *to, const void *from); /* `from` NULL: of a page of zeros */
/* EAGAIN: `installed` of them, maybe 0, were */
int kernel_copy_pages(int userfault, char *to, const void *from, size_t pages, size_t *installed);
int kernel_zero(int userfault, char *to);
int kernel_zero_asleep(int userfault, char *to); /* but this one wakes no one */
int kernel_unprotect(int userfault, char *at, size_t bytes);
int kernel_wake(int userfault, char *at);

/* Protects a range, which wakes no one. */
int kernel_protect(int userfault, char *at, size_t bytes);

/* Copies pages of memory that a thread may be giving back just now, in which the caller must not fault itself.
   False where one is missing. */
bool kernel_peek(const char *at, size_t bytes, void *to);

/* Reads messages that wait, at most `most` of them. Returns their number. */
size_t kernel_read(int userfault, struct uffd_msg *messages, size_t most);

/* The entry of each page in /proc/self/pagemap. */
void kernel_pagemap(const char *at, size_t pages, uint64_t *entries);

static inline bool entry_is_present(uint64_t entry)
{
    return entry >> 62 != 0; /* in memory, or swapped out */
}

static inline bool entry_is_protected(uint64_t entry)
{
    return entry >> 57 & 1;
}

/* Gives pages of memory back that is not registered: a later load reads zeros. */
struct kernel_range {
    char *at;
    size_t bytes;
};
void kernel_give_back(const struct kernel_range *ranges, size_t count);

#endif
