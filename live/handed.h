/* The memory of another process, a monitor, which runs the guest's threads. It registers the memory, connects to a
   Unix socket, and hands over its userfaultfd with a list of its ranges, in the form of Firecracker's page-fault
   handlers: one message, with the descriptor by SCM_RIGHTS, and the text

       [{"base_host_virt_addr": N, "size": N, "offset": N, "page_size": 4096}, ..]

   `offset` is the place of a range in the guest's memory, in bytes. Members of other names are left out. Then a
   byte HANDED_RUN says that the guest runs, and HANDED_STOP that its threads are to stop; the monitor says
   HANDED_STOP once they have. Firecracker hears of the first by its own interface, and of neither here.

   UFFDIO_COPY installs no page twice, and no one gives pages of another process back. So copies that come before the
   guest runs are kept apart here, and installed one by one when it does. */
#ifndef HANDED_H
#define HANDED_H

#include <stdbool.h>
#include <stddef.h>
#include <stdint.h>

#include "wire.h"

#define MOST_HANDED 16u /* ranges */
#define HANDED_RUN 'r'
#define HANDED_STOP 's'

struct handed_range {
    uint64_t at, bytes, offset;
};

enum kept { NOT_KEPT, KEPT, WAS_KEPT }; /* WAS_KEPT: it was installed, and not given back since */

struct handed {
    int monitor; /* the connection */
    int userfault;
    struct handed_range range[MOST_HANDED];
    uint32_t ranges;
    uint32_t pages;      /* of the guest */
    char *copies;        /* of all its pages, in order */
    uint8_t *kept;       /* an enum kept for each page */
    uint32_t kept_pages; /* that are KEPT */
    uint32_t cursor;     /* the next one is looked for from here */
    bool has_stopped;
};

/* Waits for a monitor, and takes its memory, which must have this number of pages. */
void handed_accept(struct handed *handed, const struct address *address, uint32_t pages);

/* Pages are numbered from 0, in the order of their offsets. handed_number: the page at an address of the
   monitor. */
char *handed_page(const struct handed *handed, uint64_t page);
uint64_t handed_number(const struct handed *handed, uint64_t at);

/* A copy is kept, or none is any more, of these pages. */
void handed_keep(struct handed *handed, uint64_t first, uint64_t count);
void handed_forget(struct handed *handed, uint64_t first, uint64_t count);

/* Installs the copy that is kept of a page. Returns 0 or an errno. */
int handed_install(struct handed *handed, uint64_t page);

/* A page of which a copy is kept. False if there is none. */
bool handed_next(struct handed *handed, uint64_t *page);

/* Has the guest run, or its threads stop. */
void handed_say(const struct handed *handed, char what);

/* Whether they have stopped. A monitor that ends before that is lost, and the guest with it. */
bool handed_has_stopped(struct handed *handed);

/* All its pages are there: the memory is left to the kernel. Who waits there is woken, the monitor hears that its
   threads are to stop, and messages are read until it has said that they have: a thread that gives pages back waits
   until its message was read. Then the connection ends. It ends sooner once `meanwhile` returns true, which is
   asked ten times a second; NULL: no one is asked. */
void handed_leave(struct handed *handed, bool (*meanwhile)(uint32_t milliseconds));

#endif
