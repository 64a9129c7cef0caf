/* What all parts share. */
#ifndef LIVE_H
#define LIVE_H

#include <stdbool.h>
#include <stdint.h>

#define PAGE_BYTES 4096u
/* The first page of a slice, and how many it may have, with its processors: the bounds of the model. */
#define LOW_PAGE 0x10u
#define LEAST_PAGES 256u   /* 1 MiB */
#define MOST_PAGES 262144u /* 1 GiB, of a slice */
#define MOST_SLICES 32u
#define MOST_PROCESSORS 16u /* of a node: places in which threads wait */
#define MOST_THREADS 255u

/* How the program ends. */
enum status {
    STATUS_OK = 0,
    STATUS_LOST = 1,    /* the migration has not been completed */
    STATUS_REFUSED = 2, /* bad use, or the kernel refuses or returns what was not expected */
    STATUS_WRONG = 3    /* a word of the guest's memory is wrong */
};

/* Writes `live: TEXT` to the standard error, and ends with STATUS_REFUSED. */
_Noreturn void refuse(const char *format, ...) __attribute__((format(printf, 1, 2)));

/* The same with the text of an errno after it. */
_Noreturn void refuse_errno(int error, const char *format, ...) __attribute__((format(printf, 2, 3)));

/* What a caller must hold. Where it does not, this is a fault of the program, which is refused as any other is: a
   guest that is here is kept. */
#define require(condition) ((condition) ? (void)0 : refuse("%s: %s does not hold", __func__, #condition))

/* The same as refuse with STATUS_LOST, whatever is to be kept. */
_Noreturn void lose(const char *format, ...) __attribute__((format(printf, 1, 2)));

/* The caller is a thread of the driver, which has a node. What follows is of each such thread by itself. */
void live_begin(void);

/* What becomes of the process where something is refused in this thread. `keep` gets the reason, once it is
   written, and returns the status of the program; NULL: it ends at once. */
struct keeping {
    int (*keep)(const char *why);
    bool (*meanwhile)(uint32_t milliseconds); /* waits, and returns whether the operator ends the process; NULL: nothing
                                                 is waited for */
};
void live_keep(struct keeping keeping);

/* What a side says once it does nothing more, and keeps what it has. */
#define HELD "all that is here is kept as it is, and nothing is done any more, until the operator abandons it"

/* Something is lacking that there may be later. With `meanwhile` this waits, longer from time to time, and returns:
   the caller tries again. Else it is the same as refuse_errno, or refuse where `error` is 0. */
void lack(int error, const char *format, ...) __attribute__((format(printf, 2, 3)));

#endif
