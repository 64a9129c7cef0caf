/* What each connection begins with, in both directions of the main one: HELLO_BYTES that tell who it is and which
   migration this is. What both sides must have alike is compared before the first page. docs/FORMATS.md has the
   bytes. */
#ifndef HELLO_H
#define HELLO_H

#include <stdbool.h>
#include <stdint.h>

enum channel { MAIN, URGENT };

#define HELLO_BYTES 192u
#define MOST_OF_NAME 32u    /* bytes of the migration's name, */
#define MOST_OF_REASON 112u /* and of a reason */

#define HELLO_BEATS 1u     /* flags: this side beats, */
#define HELLO_HAS_GUEST 2u /* `guest` is the number of its guest's plan, */
#define HELLO_BINDS 4u     /* and it binds the destination before the switch, or is bound so (beat.h) */

struct hello {
    enum channel channel;
    uint32_t epoch;
    uint64_t instance; /* a number of this process, made at random */
    uint32_t flags;
    uint32_t pages; /* of the slice, */
    uint32_t areas, processors;
    uint64_t guest;                       /* and what it does */
    uint32_t most_pages, most_processors; /* of the node */
    uint32_t slices, slice;               /* how many the guest has, and which one this is */
    char migration[MOST_OF_NAME + 1];
    char reason[MOST_OF_REASON + 1]; /* why this side refuses the other; empty: it does not */
};

struct options;

/* That of this process: of its options, with a new number, for the first slice. has_guest: its guest is that of
   this program. */
void hello_begin(struct hello *own, const struct options *options, bool has_guest);

void hello_write(const struct hello *hello, uint8_t *bytes);

/* False where these bytes, or the first of them, are a stranger's; `length` is at most HELLO_BYTES. The hello is
   read where all are there. */
bool hello_read(struct hello *hello, const uint8_t *bytes, uint32_t length);

/* Why the two cannot migrate, in words for both, or false. */
bool hello_unlike(const struct hello *source, const struct hello *destination, char *reason);

#endif
