/* postmig, one node at a time: the decisions of a source or of a destination, without a page's bytes.

   A node is the proved node in the world whose stores all store 0. So each of its pages is zeros and takes no
   memory, and the bytes stay with the caller, who moves them as the node says. No call takes or writes a byte of a
   page: only numbers, the heads of frames, and frames that have no page bytes.

   Each call that makes a step writes the step's effect. Where it answers anything but POSTMIG_OK nothing changed,
   unless it says otherwise. A call named next or check changes nothing: it says what the step would answer.

   A page is its number: its first address divided by 4096, 0x10 up to 0xfffff. An address is one of the guest.

   What the driver must do for each answer is the table WHAT IS DUE at the end. */
#ifndef POSTMIG_NODE_H
#define POSTMIG_NODE_H
#include "postmig.h"
#ifdef __cplusplus
extern "C" {
#endif

/* More answers of a call. POSTMIG_NOT_OPEN: the handle has no node, or one of the other kind. */
enum {
    POSTMIG_NOT_A_FRAME = 11,   /* the bytes are not those of one frame */
    POSTMIG_NOT_A_COMMAND = 12, /* the numbers are not those of a command */
    POSTMIG_NO_PAGE = 13,       /* there is no such page */
    POSTMIG_NO_TRACE = 14,      /* the node has no trace */

    /* refusals beside those of a world, POSTMIG_REFUSED_.. of postmig.h, where nothing changed either */
    POSTMIG_REFUSED_OUT_OF_PLACE = 82, /* no such frame may come now */
    POSTMIG_REFUSED_BAD_FRAME = 83, /* what the frame says does not fit what the destination has: its pages, its number
                                       of processors */
    POSTMIG_REFUSED_BAD_OWED = 84   /* a Recv contradicts the source */
};

/* EFFECTS */

/* What a step did. The comment names the fields that are set beside kind; all others are 0. */
enum {
    POSTMIG_DID_ANSWER = 1,     /* a command was answered: cpu, reply, value */
    POSTMIG_DID_SLEEP = 2,      /* a processor sleeps on the page of its load or store: cpu */
    POSTMIG_DID_ENTER_CALL = 3, /* a processor is in a map call until that many messages have been read: cpu, count */
    POSTMIG_DID_START = 4,      /* number: the epoch */
    POSTMIG_DID_ROUND = 5,      /* number: the round; count: its pages to be sent */
    POSTMIG_DID_SEND_PAGE = 6,  /* addr */
    POSTMIG_DID_SEND_ZERO = 7, /* the same. In the world of zeros each page is one of zeros; the caller may send it as a
                                  Page */
    POSTMIG_DID_SEND_RUN = 8,  /* addr: of the first page; count: of pages */
    POSTMIG_DID_READ_FAULT = 9,  /* addr; number: 1 of a write-protect fault, 0 of a missing page */
    POSTMIG_DID_READ_EVENT = 10, /* number: POSTMIG_EVENT_..; addr, other, length. More events of the call are unread */
    POSTMIG_DID_READ_LAST = 11,  /* the last event of a map call: the same, and cpu, reply, value of that call */
    POSTMIG_DID_UNPROTECT = 12,  /* addr: its protection was cleared, its sleepers woken */
    POSTMIG_DID_ZERO = 13,       /* addr: a missing page was made zeros, its sleepers woken */
    POSTMIG_DID_WAKE = 14,       /* addr: it is present, its sleepers were woken */
    POSTMIG_DID_FORGET = 15,     /* addr: it is no longer mapped or registered, its sleepers were woken */
    POSTMIG_DID_REQUEST = 16,    /* addr: where it is owed; other: the address of its page at the source. Its sleepers
                                    sleep on */
    POSTMIG_DID_SWITCH = 17,     /* count: pages owed; number: pages discarded */
    POSTMIG_DID_MOVE = 18,       /* (a world's alone) length */
    POSTMIG_DID_TAKE_ADVISE = 19,
    POSTMIG_DID_TAKE_PAGE = 20,    /* (a world's alone) addr */
    POSTMIG_DID_TAKE_ZERO = 21,    /* addr: its page at the source. Of a Zero and of the head of a Page */
    POSTMIG_DID_TAKE_RUN = 22,     /* addr: of the first page; count: of pages */
    POSTMIG_DID_TAKE_DISCARD = 23, /* count: of pages */
    POSTMIG_DID_TAKE_PACKAGE = 24, /* count: of pages owed */
    POSTMIG_DID_TAKE_END = 25,
    POSTMIG_DID_TAKE_RESUME = 26,
    POSTMIG_DID_TAKE_REQUEST = 27, /* addr: of the requested page at the source */
    POSTMIG_DID_TAKE_RECV = 28, /* number: 0 the destination has not run, 1 it runs, 2 it has taken End; count: of pages
                                   that it needs */
    POSTMIG_DID_TAKE_DONE = 29,
    POSTMIG_DID_INSTALL = 30, /* addr: where the copy goes; other: the address of its page at the source */
    POSTMIG_DID_DROP = 31,    /* other: the address of its page at the source: the copy is owed nowhere */
    POSTMIG_DID_DEQUEUE = 32, /* addr: of the requested page at the source */
    POSTMIG_DID_END = 33,
    POSTMIG_DID_BREAK = 34,  /* (a world's alone) */
    POSTMIG_DID_NOTICE = 35, /* number: 0 at the source, 1 at the destination */
    POSTMIG_DID_RESUME = 36  /* number: the new epoch */
};

/* The events of an address space, by the numbers of struct uffd_msg. */
enum {
    POSTMIG_EVENT_REMAP = 0x14,  /* addr: from; other: to; length: in bytes */
    POSTMIG_EVENT_REMOVE = 0x15, /* addr: the first address; other: the address after the last byte */
    POSTMIG_EVENT_UNMAP = 0x16   /* the same */
};

/* The replies to a command. */
enum {
    POSTMIG_REPLY_VALUE = 1, /* value: what a load read */
    POSTMIG_REPLY_DONE = 2,
    POSTMIG_REPLY_AT = 3,   /* value: the address of the mapping */
    POSTMIG_REPLY_SEGV = 4, /* value: 1 if the page is mapped, else 0 */
    POSTMIG_REPLY_BAD_ACCESS = 5,
    POSTMIG_REPLY_REFUSED = 6 /* value: the errno of Linux */
};

typedef struct {
    uint32_t kind; /* POSTMIG_DID_.. */
    uint32_t cpu;
    uint32_t number;
    uint32_t count;
    uint64_t addr;
    uint64_t other;
    uint64_t length;
    uint64_t value;
    uint32_t reply; /* POSTMIG_REPLY_.. */
} postmig_effect;

/* COMMANDS of the guest's processors */

enum {
    POSTMIG_LOAD = 1,    /* addr, width */
    POSTMIG_STORE = 2,   /* addr, width, value: of these nodes always 0 */
    POSTMIG_MMAP = 3,    /* length, prot, place, target */
    POSTMIG_MUNMAP = 4,  /* addr, length */
    POSTMIG_MREMAP = 5,  /* addr, length: the old one; new_length, may_move, place: ANYWHERE or FIXED, target */
    POSTMIG_DONTNEED = 6 /* addr, length */
};
enum { POSTMIG_PROT_NONE = 0, POSTMIG_PROT_READ = 1, POSTMIG_PROT_READ_WRITE = 2 };
enum { POSTMIG_ANYWHERE = 0, POSTMIG_FIXED = 1, POSTMIG_NO_REPLACE = 2 };

/* A command. Fields that its kind does not name are not read. */
typedef struct {
    uint32_t kind;     /* POSTMIG_LOAD .. POSTMIG_DONTNEED */
    uint32_t width;    /* of a load or store: 1, 2, 4 or 8; up to 255 is a command, with POSTMIG_REPLY_BAD_ACCESS as its
                          reply */
    uint32_t prot;     /* POSTMIG_PROT_.. */
    uint32_t place;    /* POSTMIG_ANYWHERE, POSTMIG_FIXED, POSTMIG_NO_REPLACE */
    uint32_t may_move; /* 0, else MREMAP_MAYMOVE */
    uint64_t addr;
    uint64_t length;
    uint64_t new_length;
    uint64_t target; /* the address of a place other than POSTMIG_ANYWHERE */
    uint64_t value;
} postmig_command;

/* BOTH KINDS OF NODE */

/* Frames that a node has sent wait in its handle, in their order, until they are taken: those of a source for the
   wire to the destination, those of a destination for the wire back. They are Advise, Discard, Package, End,
   Resume; and Request, Recv, Done. (Page, Zero and Run have bytes: the caller writes them, by the heads below, on
   the wire or the urgent wire.) Takes all that wait and writes their texts, one after the other, in version 2 of
   the format. POSTMIG_NO_FRAME: none waits. POSTMIG_NO_ROOM: *written is the length that is needed, and they still
   wait; so they do at POSTMIG_NO_MEMORY. At a broken channel the caller takes what waits and drops it, as all that
   was not read. */
uint32_t postmig_node_frame(postmig_handle *node, uint8_t *out, size_t room, size_t *written);

/* Begins the trace of a node, without a line, or with false ends it and drops the lines that wait. One that is on
   stays as it is when it is begun again. A new node has none, and keeps nothing.

   A node with a trace keeps a line for each call that makes a step (the table below) and answers POSTMIG_OK, in the
   order of the calls: the line of a script, " => ", and what postmig run prints for it in the world whose stores
   all store 0: "push 0x10000 1 => sent zero 0x10000", "deliver => took advise". So it is a test (postmig test) of
   that node's steps. A run has 1 to 64 pages there, and a push names its epoch. A call that is refused adds no
   line. Room for the line is made before the step: with a trace POSTMIG_NO_MEMORY may come before any other
   refusal, and then nothing changed.

   A line waits until it is taken, as numbers: its words are made then, and are what costs. A trace of N lines takes
   24 N bytes, which may be 48 N, since its room doubles where it is full, and 72 N while it does; and about 130
   bytes more for each line that is not of a store that met no fault, of a zero page that was pushed or taken, on
   either wire, or of an install. */
uint32_t postmig_node_trace(postmig_handle *node, bool on);

/* How many lines wait in the trace of a node, in *lines: 0 without a trace. It takes the same time for any
   number. */
uint32_t postmig_node_trace_count(postmig_handle *node, size_t *lines);

/* Takes the first line that waits in the trace, with its line feed: *written bytes, 0 if none waits.
   POSTMIG_NO_ROOM: *written is the length of the line, and it still waits; so it does at POSTMIG_NO_MEMORY.
   POSTMIG_NO_TRACE. */
uint32_t postmig_node_trace_take(postmig_handle *node, uint8_t *out, size_t room, size_t *written);

/* The states of a processor. */
enum {
    POSTMIG_PROCESSOR_IDLE = 0,   /* it can be issued a command */
    POSTMIG_PROCESSOR_ASLEEP = 1, /* it waits for the page of its command */
    POSTMIG_PROCESSOR_WOKEN = 2,  /* it has to be retried */
    POSTMIG_PROCESSOR_IN_CALL = 3 /* it is in a map call until its messages are read */
};

typedef struct {
    uint32_t state;          /* POSTMIG_PROCESSOR_.. */
    uint32_t messages;       /* in a map call: how many of its messages are unread; else 0 */
    postmig_command command; /* asleep or woken: its load or store; else its kind is 0 */
} postmig_processor;

/* What a processor of the guest does. After the Package those of the destination have the commands that the
   source's had. So a driver needs no list of its own: a fault is issued to one that is idle, and after each step
   that wakes the woken ones are retried. NO_CPU. */
uint32_t postmig_node_processor(postmig_handle *node, uint8_t cpu, postmig_processor *processor);

/* THE SOURCE */

/* Opens a source with this number of processors, 1 to 16, in its world of zeros: nothing is mapped, no migration
   has begun. Its epoch and number of rounds begin as given (0 and 0). What the handle had is freed; it keeps that
   if the answer is not POSTMIG_OK. */
uint32_t postmig_source_new(uint8_t cpus, uint32_t epoch, uint32_t rounds, postmig_handle *source);

/* Has a processor make a command: how the guest's memory at the start is entered (mmap, then a store of 0 to each
   present page), and how a real fault is (a load, or a store of 0; the effect is POSTMIG_DID_SLEEP, and then
   postmig_source_read reads the fault) and a real REMOVE, REMAP or UNMAP (dontneed, mremap, munmap or mmap; then a
   read for each message). A load or store that meets no fault needs no call. POSTMIG_NOT_A_COMMAND; NO_CPU, BUSY,
   PHASE once the source has switched. */
uint32_t postmig_source_issue(postmig_handle *source, uint8_t cpu, const postmig_command *command,
                              postmig_effect *effect);

/* Has a woken processor make its load or store again, so that it is idle. NO_CPU, NOT_ASLEEP, NOT_WOKEN, PHASE once
   switched. */
uint32_t postmig_source_retry(postmig_handle *source, uint8_t cpu, postmig_effect *effect);

/* Begins a migration, in the next epoch: registers all that is mapped. Advise waits. PHASE, COUNT_USED. */
uint32_t postmig_source_start(postmig_handle *source, postmig_effect *effect);

/* Begins a round of pre-copy. PHASE, CHANGING, COUNT_USED. */
uint32_t postmig_source_round(postmig_handle *source, postmig_effect *effect);

/* What postmig_source_run_sent would send: the first page and how many. PHASE, NOTHING_THERE once the round is
   done, CHANGING. */
uint32_t postmig_source_next_run(postmig_handle *source, uint8_t most, uint32_t *first, uint32_t *count);

/* The least page of the round, and those that follow it without a gap, at most `most` of them (1 to 64), are
   write-protected and clean: the caller has write-protected and then copied them, and sends a Run. Refused as
   postmig_source_next_run. */
uint32_t postmig_source_run_sent(postmig_handle *source, uint8_t most, postmig_effect *effect);

/* The same for the least page alone: the caller sends a Page or a Zero. */
uint32_t postmig_source_send(postmig_handle *source, postmig_effect *effect);

/* Reads the next message of the node's own userfault object. PHASE before the start and once switched,
   NOTHING_THERE. */
uint32_t postmig_source_read(postmig_handle *source, postmig_effect *effect);

/* The effect that postmig_source_act would have, or its refusal. */
uint32_t postmig_source_next_act(postmig_handle *source, postmig_effect *effect);

/* Resolves the first fault that was read: POSTMIG_DID_UNPROTECT, _ZERO, _WAKE or _FORGET. PHASE, NOTHING_THERE,
   CHANGING. */
uint32_t postmig_source_act(postmig_handle *source, postmig_effect *effect);

/* Stops the processors for good. Discard and Package wait. PHASE, CHANGING. */
uint32_t postmig_source_switch(postmig_handle *source, postmig_effect *effect);

/* The least page from `from` on that is owed and was not sent in this epoch. POSTMIG_NO_PAGE if there is none. */
uint32_t postmig_source_next_remaining(postmig_handle *source, uint32_t from, uint32_t *page);

/* Whether postmig_source_push would send this page, or its refusal. */
uint32_t postmig_source_check_push(postmig_handle *source, uint32_t epoch, uint32_t page);

/* An owed page is sent, in the epoch in which that was decided: the caller sends a Page or a Zero, on the wire or
   on the urgent wire. It no longer remains. PHASE, STALE_EPOCH, PAGE_NOT_SENDABLE, NOT_REMAINING; the urgent call
   also COUNT_USED. */
uint32_t postmig_source_push(postmig_handle *source, uint32_t epoch, uint32_t page, postmig_effect *effect);
uint32_t postmig_source_push_urgent(postmig_handle *source, uint32_t epoch, uint32_t page, postmig_effect *effect);

/* Dequeues the oldest request: its page is to be pushed next, if it remains. PHASE, NOTHING_THERE. */
uint32_t postmig_source_serve(postmig_handle *source, postmig_effect *effect);

/* Nothing more is sent in this epoch. End waits. PHASE, PAGES_LEFT. */
uint32_t postmig_source_end(postmig_handle *source, postmig_effect *effect);

/* Takes a frame that came back: the bytes are its whole text. Request, Recv, Done. After a Recv of a source that
   has switched, to a destination that has not run, Discard and Package wait. POSTMIG_NOT_A_FRAME, OUT_OF_PLACE,
   STALE_EPOCH, BAD_OWED. */
uint32_t postmig_source_back(postmig_handle *source, const uint8_t *bytes, size_t length, postmig_effect *effect);

/* Notices that the channel is broken: the source is paused. PHASE before the start, once released, and if it is
   paused already. */
uint32_t postmig_source_notice(postmig_handle *source, postmig_effect *effect);

/* Begins the next epoch, over a new channel. Resume waits. The source stays paused until it takes the Recv. PHASE
   unless it is paused, COUNT_USED. The caller makes it once it has lost its own channel and has another, whatever
   the destination knows. */
uint32_t postmig_source_resume(postmig_handle *source, postmig_effect *effect);

enum {
    POSTMIG_SOURCE_IDLE = 0,    /* no migration has begun */
    POSTMIG_SOURCE_PRECOPY = 1, /* it runs the processors, in rounds */
    POSTMIG_SOURCE_STOPPED = 2, /* it has stopped them, and sends what is owed */
    POSTMIG_SOURCE_PAUSED = 3,  /* it has noticed a break, and not taken a Recv since */
    POSTMIG_SOURCE_RELEASED = 4 /* the migration is complete */
};

typedef struct {
    uint32_t phase;    /* POSTMIG_SOURCE_.. */
    uint32_t switched; /* 1 once it has stopped the processors for good */
    uint32_t epoch;
    uint32_t rounds;    /* made */
    uint32_t remaining; /* owed pages not sent in this epoch */
    uint32_t waiting;   /* 1 if frames wait for postmig_node_frame, else 0 */
    uint64_t asked;     /* requests not dequeued */
    uint64_t held;      /* faults read and not resolved */
    uint64_t changing;  /* unread events */
    uint64_t pages_sent;
    uint64_t faults; /* read */
} postmig_source_state;

/* It counts the pages that remain, which takes the longer the larger the guest is: it is no call for every page. */
uint32_t postmig_source_counts(postmig_handle *source, postmig_source_state *state);

/* THE DESTINATION */

/* Opens a destination with this number of processors, 1 to 16: as many as the source has. What the handle had is
   freed, as above. */
uint32_t postmig_destination_new(uint8_t cpus, postmig_handle *destination);

/* Takes a frame of the wire from the source. The bytes are its text, without the bytes of pages: of a Page the
   first 16, of a Run the first 20 (postmig_frame_lengths says how many). The bytes of a page stay with the caller:
   before the destination runs the newest copy of each page is kept (a Discard drops copies), and afterwards a copy
   waits for its install. To an End, Done waits; to a Resume, a Recv and then the Requests once more.
   POSTMIG_NOT_A_FRAME, OUT_OF_PLACE, STALE_EPOCH, BAD_FRAME, INSTALL_FIRST, URGENT_FIRST. POSTMIG_NO_MEMORY of a
   Run: the first of its pages may be kept then, and taking the frame again keeps them all. */
uint32_t postmig_destination_take(postmig_handle *destination, const uint8_t *bytes, size_t length,
                                  postmig_effect *effect);

/* Takes a frame of the urgent wire: a Zero, or the first 16 bytes of a Page. POSTMIG_NOT_A_FRAME, OUT_OF_PLACE,
   STALE_EPOCH. */
uint32_t postmig_destination_take_urgent(postmig_handle *destination, const uint8_t *bytes, size_t length,
                                         postmig_effect *effect);

/* As those of the source, for a destination that has run: PHASE before. After the Package each processor whose
   command waited is woken, and has to be retried. */
uint32_t postmig_destination_issue(postmig_handle *destination, uint8_t cpu, const postmig_command *command,
                                   postmig_effect *effect);
uint32_t postmig_destination_retry(postmig_handle *destination, uint8_t cpu, postmig_effect *effect);

/* Reads the next message of the node's own userfault object. PHASE before it has run, NOTHING_THERE. */
uint32_t postmig_destination_read(postmig_handle *destination, postmig_effect *effect);

/* The effect that postmig_destination_act would have, or its refusal. */
uint32_t postmig_destination_next_act(postmig_handle *destination, postmig_effect *effect);

/* Resolves the first fault that was read: POSTMIG_DID_REQUEST (a Request waits, if the page was not requested
   before and the destination is neither paused nor ended), _ZERO, _WAKE or _FORGET. PHASE, NOTHING_THERE,
   CHANGING. */
uint32_t postmig_destination_act(postmig_handle *destination, postmig_effect *effect);

/* The effect that postmig_destination_install would have, or its refusal. */
uint32_t postmig_destination_next_install(postmig_handle *destination, postmig_effect *effect);

/* The first copy that arrived is installed, or dropped: POSTMIG_DID_INSTALL, the caller has put its bytes at addr,
   or POSTMIG_DID_DROP. PHASE, NOTHING_THERE, CHANGING. Copies of both wires wait in one queue, in the order in
   which their frames were taken. */
uint32_t postmig_destination_install(postmig_handle *destination, postmig_effect *effect);

/* Makes `count` installs in a row, each as postmig_destination_install makes it, or only those before the first
   that is refused: POSTMIG_OK, or the status of that refusal. *made is how many were made, and the effect is that
   of the last of them. For pages that one call of the kernel has put side by side. */
uint32_t postmig_destination_install_run(postmig_handle *destination, uint32_t count, postmig_effect *effect,
                                         uint32_t *made);

/* Notices that the channel is broken: the destination is paused. PHASE if it is paused already. The caller makes it
   only between a Start and the end of the migration, or the two logs are no world. */
uint32_t postmig_destination_notice(postmig_handle *destination, postmig_effect *effect);

enum {
    POSTMIG_DESTINATION_IDLE = 0,       /* it knows of no migration */
    POSTMIG_DESTINATION_ADVISED = 1,    /* it keeps copies */
    POSTMIG_DESTINATION_DISCARDING = 2, /* it has taken Discard, and waits for the Package */
    POSTMIG_DESTINATION_RUNNING = 3,    /* it runs the processors */
    POSTMIG_DESTINATION_PAUSED = 4,     /* it has noticed a break, and not taken a Resume since; if it has run, the
                                           processors run */
    POSTMIG_DESTINATION_ENDED = 5       /* it runs the processors, and nothing more comes */
};

typedef struct {
    uint32_t phase;   /* POSTMIG_DESTINATION_.. */
    uint32_t has_run; /* 1 once it has taken a Package */
    uint32_t epoch;
    uint32_t owed;      /* pages that it still has to get */
    uint32_t waiting;   /* 1 if frames wait for postmig_node_frame, else 0 */
    uint64_t requests;  /* pages requested and not installed */
    uint64_t arrivals;  /* copies that wait to be installed */
    uint64_t changing;  /* unread events */
    uint64_t installed; /* copies */
    uint64_t dropped;   /* copies */
    uint64_t faults;    /* read */
} postmig_destination_state;

uint32_t postmig_destination_counts(postmig_handle *destination, postmig_destination_state *state);

/* Where a page of the source is owed at the destination now. POSTMIG_NO_PAGE if nowhere. */
uint32_t postmig_destination_home(postmig_handle *destination, uint32_t origin, uint32_t *page);

/* The states of a page at the destination. */
enum {
    POSTMIG_PAGE_UNMAPPED = 0, /* all are, until the Package is taken */
    POSTMIG_PAGE_MISSING = 1,  /* it is zeros once it is touched */
    POSTMIG_PAGE_PRESENT = 2,  /* with the Package: the copy that was kept last, unless a Discard or a Resume has taken
                                  it away */
    POSTMIG_PAGE_OWED = 3      /* its contents come from the source */
};

typedef struct {
    uint32_t count; /* of pages, side by side */
    uint32_t prot;  /* of each, POSTMIG_PROT_..; of unmapped ones 0 */
    uint32_t state; /* of each, POSTMIG_PAGE_.. */
} postmig_pages;

/* What the page `from` is, and how many pages from there on are alike: the page after them is not, or is 0x100000.
   So what a Package maps, what it owes, and what the Discards before it have left, is found by a walk from 0x10 on,
   by *pages.count at a time, to the end of the guest's memory. It takes the longer the more pages are alike.
   POSTMIG_NO_PAGE from page 0x100000 on; POSTMIG_NO_MEMORY. */
uint32_t postmig_destination_pages(postmig_handle *destination, uint32_t from, postmig_pages *pages);

/* HEADS OF FRAMES, without a handle */

/* Writes the 16 bytes in front of the 4096 of a Page. Of a page that no node has they are the head of no frame. */
uint32_t postmig_page_head(uint32_t epoch, uint32_t page, uint8_t *out, size_t room, size_t *written);

/* Writes the 20 bytes in front of those of a Run of 1 to 64 pages. POSTMIG_NOT_A_FRAME for another number of
   pages. */
uint32_t postmig_run_head(uint32_t epoch, uint32_t first, uint32_t count, uint8_t *out, size_t room, size_t *written);

/* Writes a Zero, which has 16 bytes. POSTMIG_NOT_A_FRAME for a page that no node has; POSTMIG_NO_MEMORY. */
uint32_t postmig_zero_frame(uint32_t epoch, uint32_t page, uint8_t *out, size_t room, size_t *written);

/* Of the frame at the front of these bytes, of which at least 12 are there: how many bytes it has without those of
   its pages, and how many bytes of pages follow them. POSTMIG_NO_FRAME: fewer than 12 bytes. If the bytes begin no
   frame, the two numbers mean nothing: the call that takes the frame finds that. A head is at most 5 MiB. */
uint32_t postmig_frame_lengths(const uint8_t *bytes, size_t length, size_t *head, size_t *pages);

/* WHICH CALL MAKES WHICH STEP (the line of a script)

   issue       cpu K ..            source: until Switch; destination: once it has run
   retry       retry K
   source      start, round, send, run_sent (sendrun N), read (sread), act (sact), switch, push, push_urgent
               (upush), serve, end,
               back, notice (notice source), resume
   destination take (deliver), take_urgent (udeliver), read (dread), act (dact), install, install_run (an install
   for each copy), notice
               (notice dest)
   none        new, next_.., check_.., counts, home, pages, processor, node_frame, node_trace, node_trace_count,
               node_trace_take, heads of frames; break is the caller's

   AN ORDER OF CALLS

   source      new; issue mmap, issue a store of 0 to each present page; start; { round; { next_run, (protect,
               copy), run_sent, (send) } }
               with, for each real fault, issue, read, next_act, (ioctl), act, retry; switch; { back | serve,
               push_urgent |
               next_remaining, push }; end; back of Done.
   destination new; { take }; after POSTMIG_DID_TAKE_PACKAGE the walk of destination_pages, and retry of each
   processor that waited;
               { take | take_urgent | next_install, (ioctl), install, retry | for each real fault: issue, read,
               next_act, (ioctl), act,
               retry }; take of End.
   after each call that says that a frame waits: node_frame.
   a break     both: drop what is unread and what waits in node_frame; notice. source: resume, send the Resume.
               destination: take it, send
               the Recv and the Requests. source: back of the Recv.

   WHAT IS DUE

   A node decides; its driver moves the bytes, calls the kernel, and carries the frames. PREMISE: which definition
   of crates/mig_laws/specs asks that of a driver: of Processes.antt and Orders.antt, or with D of Drivers.antt
   (two_drivers_are_a_world); or kernel: what the kernel has is then what the node has, which no law says and
   docs/LINUX.md measures. FOUND BY, where it is not done: node, it refuses a later call; run, the kernel returns
   what no node expects, a word of the guest is wrong, or a side does not end, each as in live/; merge, live/merge
   --judge of both traces; nobody. What run finds it may find late, or in one migration of several. The laws are of
   all that happens to the guest: nothing else touches its memory.

   Each copy and each zero page that is put wakes, and so does the end of a protection; where none of these is due
   UFFDIO_WAKE is. To RETRY is to call _retry for each processor that postmig_node_processor calls woken, and _read
   of the fault of each that sleeps again, all before the next act or install: its thread is awake by then.

                                                                                  PREMISE             FOUND BY
   Before the start
    1  Both nodes begin with the same number of processors.                       first_processes     node
    2  No node of a migration is begun anew, but a destination before the         first_processes,    nobody
       switch, by a Notice and a Resume. After the switch no other destination.   D IsNewThere
    3  The three events are asked for before the first UFFDIO_REGISTER. All       D MeetsNoFault      run
       memory is registered before the kernel is asked what is present; then the
       source is issued the mmap, and a store of 0 to each present page. Nothing
       else makes a page present later. Each map call is issued, also one that
       sends no message (a new mapping, growth in place), and so is the first
       access to each page that it has mapped; or the guest maps nothing new.
    4  Each store that is issued is one of 0.                                     D entered           nobody

   Each call
    5  One call of a node at a time, and of the guest one map call                kernel              nobody
       (docs/LINUX.md).
    6  next_.., then the call of the kernel, then the step, with nothing of that  kernel              run
       page in between. EAGAIN: nothing was done, or only the first pages were
       put; the messages are read, and the node is asked again about the rest.
    7  POSTMIG_NO_MEMORY: the call is made again. (Of a Run its first pages may   D IsDoneHere,       nobody
       be kept: the same frame is handed in again, or the migration ends.)        D IsDoneThere
    8  What waits in node_frame is sent before the pages of a later call. Only    TakesFront,         node, merge
       push_urgent's go on the urgent connection.                                 TakesUrgentFront
    9  A frame is handed in whole (of a Page or a Run its head), once, and in     TakesFront,         merge; of
       bytes run
       the order in which it was sent; its bytes are those that were sent.        D IsDoneThere

   Accesses and faults
   10  A load or store of a present page, which if it is a store is not           D MeetsNoFault      run
       write-protected at the node, takes effect in memory alone, and is not
       issued. A processor is idle meanwhile: begin with more of them than
       threads can wait, as long as another thread may run. And the driver
       itself touches no missing page of the guest, and no huge page makes one
       present. (One that may be given back meanwhile is read without a fault:
       pread of /proc/self/mem.)
   11  A fault of the kernel is issued to an idle processor, or is that of one    kernel              run
       which sleeps on the page already; DID_SLEEP: read of its fault.
       DID_ANSWER: the page is there by now. The kernel is asked, as for
       DID_WAKE. Where no processor is idle the driver keeps the fault until one
       is, or its page has been woken; it reads on.
   12  Each message is handed in once and in order, but one: with each REMAP a    kernel              run
       kernel sends an UNMAP of the old range, after it, which is left out.
       DID_ENTER_CALL: count reads, one for each of the others. (A fault that is
       kept is an access of when it is issued: events may pass it, and wake it
       if they are of its page.)
   13  DID_READ_EVENT, DID_READ_LAST: UFFDIO_WAKE of the range, of REMAP the old  D tries_again       run, merge
       one; retry. (The range is unmapped, moved or cleared once the thread's
       call returns, and not before.)
   14  DID_UNPROTECT: before it UFFDIO_WRITEPROTECT of the page without a mode;   kernel              run
       retry.
   15  DID_ZERO: before it UFFDIO_ZEROPAGE; retry. EEXIST: a REMOVE was read and  D zeroes            run
       has not cleared yet; it is tried again, as after EAGAIN.
   16  DID_WAKE: before it the kernel is asked whether the page is there, since   kernel              run
       a REMOVE may be read before it clears: UFFDIO_ZEROPAGE, and after EEXIST
       UFFDIO_WAKE; retry.
   17  DID_FORGET: UFFDIO_WAKE of the page; retry.                                kernel              run
   18  DID_REQUEST: node_frame, a Request may wait.                               TakesFront          merge

   The source
   19  DID_SEND_RUN, DID_SEND_PAGE, DID_SEND_ZERO of a round:                     D filled            run
       UFFDIO_WRITEPROTECT has returned before the first byte is read, and the
       bytes are read before the next fault of the page is acted on. They are
       the page's, which is sent as a Page or a Zero.
   20  DID_SWITCH: before it each thread that can write guest memory has left it  D IsAccessHere,     run
       for good, devices too, and events are read until then; after it            D filled
       node_frame, Discard and Package wait. The accesses with which processors
       wait go with the Package.
   21  DID_SEND_PAGE, DID_SEND_ZERO of a push: the bytes are those that the page  D filled            run
       had at the switch. The source keeps its memory, unchanged by anybody,
       until DID_TAKE_DONE or a Recv that says 2; then it may go.

   The destination
   22  Before DID_TAKE_PACKAGE the newest copy of each page is kept.              D takes             run
   23  DID_TAKE_PACKAGE: memory is mapped as postmig_destination_pages says, the  D takes             run
       kept copies are at the present pages, all others are missing (what was     D IsAccessThere
       there is given back); it is registered; then retry, and the threads run:
       one that waited as a processor makes its access again as the same one. (A
       driver that cannot write there puts a kept copy at the first fault of its
       page, or earlier, and forgets it when the page is given back. It puts the
       rest before it turns the object off.)
   24  DID_TAKE_ZERO since then: the bytes wait, in the order of the frames of    D comes             run
       both wires.
   25  DID_INSTALL: before it UFFDIO_COPY or UFFDIO_ZEROPAGE with the bytes of    D puts              run
       that frame; retry. DID_DROP: they are dropped, and nobody is woken.
   26  DID_TAKE_END: the destination listens until somebody knows that the        none: Done may      nobody
       source is released, since Done may be lost; without a channel that may     be lost
       come again, until Done was sent. The object is read until each kept copy
       is put and the ranges are unregistered (PROTOCOL.md).

   A lost channel
   27  All that was not taken of it is dropped, received and unsent bytes and     IsLossHere,         node, merge
       what waits in node_frame, before the notice: DID_NOTICE. None before a     IsLossThere
       start.
   28  An urgent connection belongs to one epoch.                                 IsOpening           node, merge
   29  DID_RESUME: over the next channel, which the destination joins.            IsOpening,          node
                                                                                  IsJoining
   30  A destination that has taken End makes no notice of a lost channel,        IsSettled, for a    merge
       unless a Resume comes over the next one: the source may be released. (The  world
       headline holds all the same.) */

#ifdef __cplusplus
}
#endif
#endif
