/* The calls of a userfaultfd, each checked, and what a handler does after answers that are not errors of its
   own. */
#ifndef OBJECT_H
#define OBJECT_H

#include <stdbool.h>
#include <stddef.h>
#include <stdint.h>
#include <sys/types.h>

#include "newer.h"

#define MOST_MESSAGES 64

/* Opens an object, not blocking, with these features. Ends the program with STATUS_CANNOT where the kernel has them
   not. */
int object_open(uint64_t features);
void object_close(int object);
void object_register(int object, const void *start, size_t length, uint64_t mode);
void object_unregister(int object, const void *start, size_t length);
void object_wake(int object, uint64_t start, size_t length);
/* Takes the protection away, which wakes; or protects. False where an event must be read first. */
bool object_unprotect(int object, uint64_t start, size_t length);
void object_protect(int object, const void *start, size_t length);

/* What became of a page. */
enum put {
    PUT,   /* by this call */
    THERE, /* by another one: what waits there has been woken */
    AGAIN, /* an event must be read first, and then the call made again */
    GONE   /* the range or its process has gone */
};
enum put put_copy(int object, uint64_t page, const void *from);
enum put put_zeros(int object, uint64_t page);
/* The same for an ioctl of the program's own: the result of the call, and its errno. */
enum put put_of(int object, uint64_t page, int result);

/* Reads up to `room` messages. 0 where there is none. */
size_t object_read(int object, struct uffd_msg *messages, size_t room);
uint64_t page_of(const struct uffd_msg *message);
/* Whether the object or the other descriptor has something to read, after this wait in milliseconds at the most
   (-1: for ever). */
struct ready {
    bool object, other;
};
struct ready object_poll(int object, int other, int wait);

/* Sends `bytes` with a descriptor by a socket; receives both. */
void send_object(int socket, int object, const void *with, size_t bytes);
int receive_object(int socket, void *with, size_t bytes);

#endif
