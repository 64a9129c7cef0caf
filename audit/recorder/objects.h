/*
 * Which descriptors are userfault objects, and which one each is. An object is named by the number of its inode, which
 * each has of its own since Linux 5.12: it stays the same over dup(2), fork(2) and a descriptor that is passed by a
 * socket.
 */
#ifndef OBJECTS_H
#define OBJECTS_H

#include <stdbool.h>
#include <stdint.h>

#include "log.h"

/* The object of a descriptor that the kernel has just made, which is known to be one. */
uint64_t object_of_new(int fd);

/* The object of a descriptor as the kernel has it now, 0 where it is another file or none. It asks /proc. */
uint64_t object_identify(int fd);

/* Whether a descriptor may be an object: cheap, and never wrong where it says no of one that was introduced
   here. */
bool object_is_possible(int fd);
bool object_any_is_possible(void);

/* The object of a descriptor for the next line, which is then known to the log: `found` and `dropped` are written
   as needed. 0 where it is none. */
uint64_t object_for_line(int fd);

/* A descriptor that the log's line itself introduces: the end of open, a fork message. The object's memory is this
   process's where `own`. */
void object_introduce(uint64_t object, int fd, bool own);
void object_forget(uint64_t object, int fd);
bool object_is_own(uint64_t object, int fd);

/* A line `found`. */
void object_found(uint64_t object, int fd);

/* Of a descriptor that came from elsewhere: a line `found` where it is an object. */
void object_discover(int fd);

/* The highest descriptor that was introduced. */
int object_highest(void);

/*
 * Before a call without an object: a child of vfork(2) or clone(2) has another process's memory, and which one's, say
 * lines `found` of the objects that this one has made.
 */
void objects_of_borrowed_memory(void);

/* A new process: its descriptors are introduced again. */
void objects_after_fork(void);
void objects_after_exec(void);

#endif
