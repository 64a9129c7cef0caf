/* postmig as a library: worlds in which a guest migrates, checks of transcripts, and a decoder of frames.

   docs/USING.md has what a caller owes, and complete programs. The contracts of the functions are in
   crates/postmig_c/src. */
#ifndef POSTMIG_H
#define POSTMIG_H
#include <stdbool.h>
#include <stddef.h>
#include <stdint.h>
#ifdef __cplusplus
extern "C" {
#endif

/* What a call answers. */
enum {
    POSTMIG_OK = 0,
    POSTMIG_NO_ROOM = 1,    /* out is too short: *written is the length that is needed */
    POSTMIG_NOT_OPEN = 2,   /* the handle has no world; of a call on a decoder, no decoder */
    POSTMIG_NOT_A_LINE = 3, /* the text is not a line; of a whole text, *written is the number of its first line that is
                               not one */
    POSTMIG_NO_MEMORY = 4,  /* malloc failed */
    POSTMIG_NO_CPU = 5,     /* there are 1 to 16 processors */
    POSTMIG_NO_FRAME = 6,   /* no frame waits: the stream has to continue */
    POSTMIG_FRAMES_WAIT = 7,  /* frames wait: postmig_frames_next has to take them first */
    POSTMIG_BAD_TAG = 8,      /* the stream has a version or tag that is not known, */
    POSTMIG_BAD_LENGTH = 9,   /* a length that no body of such a frame has, */
    POSTMIG_BAD_FIELD = 10,   /* or another field with a value that no frame has there */
    POSTMIG_NO_QUESTION = 15, /* no question has this number */

    POSTMIG_REFUSED = 64, /* an answer from here on is a refusal, and nothing changed. The first that applies is given,
                             in this order: */
    POSTMIG_REFUSED_NO_CPU = 65,            /* the guest has no such processor */
    POSTMIG_REFUSED_BUSY = 66,              /* the processor has a command under way */
    POSTMIG_REFUSED_NOT_ASLEEP = 67,        /* the processor has no load or store to retry */
    POSTMIG_REFUSED_NOT_WOKEN = 68,         /* the processor still sleeps */
    POSTMIG_REFUSED_PHASE = 69,             /* the node is not in a phase that allows the step */
    POSTMIG_REFUSED_BROKEN = 70,            /* (a world's alone) the channel is lost */
    POSTMIG_REFUSED_NOT_BROKEN = 71,        /* (a world's alone) the channel is not lost */
    POSTMIG_REFUSED_STALE_EPOCH = 72,       /* the ticket or the frame is of another epoch */
    POSTMIG_REFUSED_NOTHING_THERE = 73,     /* no page, message, fault, copy, request or frame is there */
    POSTMIG_REFUSED_CHANGING = 74,          /* an event of the address space is unread */
    POSTMIG_REFUSED_INSTALL_FIRST = 75,     /* an End came, and a copy has to be installed first: hand the same frame in
                                               again then */
    POSTMIG_REFUSED_PAGE_NOT_SENDABLE = 76, /* the source does not have the page */
    POSTMIG_REFUSED_NOT_REMAINING = 77,     /* the page is not owed, or was pushed in this epoch */
    POSTMIG_REFUSED_PAGES_LEFT = 78,        /* owed pages are still to be pushed */
    POSTMIG_REFUSED_COUNT_USED = 79,        /* a count is at its greatest value */
    /* 80, out of memory, is answered as POSTMIG_NO_MEMORY */
    POSTMIG_REFUSED_URGENT_FIRST = 81 /* an End came, and frames of the urgent wire have to be taken first: hand it in
                                         again then */
};

/* Writes the name of a refusal, as a script's output has it ("Phase" of 69), for any status from POSTMIG_REFUSED on.
   POSTMIG_NOT_A_LINE: there is no refusal of this number. */
uint32_t postmig_refusal_name(uint32_t status, uint8_t *out, size_t room, size_t *written);

/* A world or a decoder. Initialise it to POSTMIG_NONE before the first call; from then on only these functions
   write it. It is not copied, it stays on the thread that opened it, and one call at a time uses it. */
typedef struct {
    void *at;
} postmig_handle;
#define POSTMIG_NONE \
    {                \
        0            \
    }

/* Frees what the handle has, if it has anything. Calling it twice is fine. */
void postmig_free(postmig_handle *handle);

/* WORLDS */

/* Opens a new world with this number of processors, 1 to 16. What the handle had is freed; it keeps that if the
   answer is not POSTMIG_OK. Each line prints the outcome of its step, or, if is_transcript, the entries that its
   step adds to the transcript. */
uint32_t postmig_world_new(uint8_t cpus, bool is_transcript, postmig_handle *world);

/* The same, with these counts as the epoch and the number of rounds. */
uint32_t postmig_world_new_with_counts(uint8_t cpus, bool is_transcript, uint32_t epoch, uint32_t rounds,
                                       postmig_handle *world);

/* Does one line of a script, without its line feed, and writes what it prints.
   POSTMIG_NO_ROOM: the line was done; postmig_world_answer writes what it printed.
   POSTMIG_NOT_A_LINE: the world did not change.
   POSTMIG_NO_MEMORY: the world did not change, or the line was done and what it printed is lost. It may be used
   further. */
uint32_t postmig_world_line(postmig_handle *world, const uint8_t *line, size_t length, uint8_t *out, size_t room,
                            size_t *written);

/* Writes again what the last line printed: nothing after POSTMIG_NOT_A_LINE or POSTMIG_NO_MEMORY. */
uint32_t postmig_world_answer(postmig_handle *world, uint8_t *out, size_t room, size_t *written);

/* Puts a copy of a world into another handle: an equal world, of which no line has printed anything. Its lines
   print the outcomes of their steps, or with is_transcript the entries that these add. No line of the one changes
   the other, and each is freed for itself. The copy takes as much memory as the world has. What the handle `copy`
   had is freed; it keeps that if the answer is not POSTMIG_OK. The two handles are two variables. */
uint32_t postmig_world_copy(postmig_handle *world, bool is_transcript, postmig_handle *copy);

/* Whether two worlds are the same: the memory, processors and userfaultfd objects of both nodes, what each node
   still has to do, the frames in flight with the bytes of the first that have come, the counters, and the
   transcript. Then the same lines have the same outcomes in both. How a world came about does not count, nor what
   its lines have printed. Both worlds stay as they are. It takes no memory, and time that grows with all that the
   worlds hold. The two handles are two variables. POSTMIG_NOT_OPEN: one of them has no world. */
uint32_t postmig_world_is_same(postmig_handle *world, postmig_handle *other, bool *is_same);

/* Says what a line of a script would do, without doing it: POSTMIG_OK, or the refusal that it would print
   (POSTMIG_REFUSED_..). Whether there is memory for it is not considered. A comment, an empty line and progress are
   never refused. What the last line printed stays. POSTMIG_NOT_A_LINE; POSTMIG_NO_MEMORY: there was none to read
   the line. */
uint32_t postmig_world_would(postmig_handle *world, const uint8_t *line, size_t length);

/* What postmig_world_show is asked for: what the processors do and wait for; what is queued, step by step; the owed
   pages, and where their copies are; the frames on the three wires; the pages of both nodes; or all of these. */
enum { POSTMIG_CPUS = 0, POSTMIG_QUEUES = 1, POSTMIG_OWED = 2, POSTMIG_WIRES = 3, POSTMIG_PAGES = 4, POSTMIG_ALL = 5 };

/* Writes what a world holds as it is now: the text of `postmig show`, its progress first. The pages of
   POSTMIG_PAGES and POSTMIG_ALL are those with a byte from the address start up to, and without, end: 0 and
   UINT64_MAX are all. What the last line printed stays. It takes memory for the text and for a copy of the world.
   POSTMIG_NO_QUESTION. POSTMIG_NO_ROOM and POSTMIG_NO_MEMORY: the world did not change, and the call may be made
   again. */
uint32_t postmig_world_show(postmig_handle *world, uint32_t what, uint64_t start, uint64_t end, uint8_t *out,
                            size_t room, size_t *written);

enum { POSTMIG_IDLE = 0, POSTMIG_PRECOPY = 1, POSTMIG_SWITCHING = 2, POSTMIG_POSTCOPY = 3, POSTMIG_COMPLETE = 4 };

/* How far the migration of a world has come. */
typedef struct {
    uint32_t phase;
    uint32_t epoch;     /* of the source */
    uint32_t rounds;    /* rounds of pre-copy made */
    uint32_t left;      /* pages that the destination is still owed */
    uint64_t sent;      /* pages that the source has sent */
    uint64_t installed; /* copies that the destination has installed, */
    uint64_t dropped;   /* and those that it has dropped */
    uint64_t faults;    /* page faults that the handler of either node has read */
} postmig_counts;

uint32_t postmig_world_counts(postmig_handle *world, postmig_counts *counts);

/* WHOLE SCRIPTS AND TRANSCRIPTS */

/* Runs a script on a new world, and writes what it prints. */
uint32_t postmig_run(uint8_t cpus, bool is_transcript, const uint8_t *script, size_t length, uint8_t *out, size_t room,
                     size_t *written);

/* Whether a transcript is that of one flat memory; writes the verdict: "ok N" or "wrong I expected REPLY". */
uint32_t postmig_check(const uint8_t *transcript, size_t length, bool *is_flat, uint8_t *out, size_t room,
                       size_t *written);

/* The same, and why it is wrong, as `postmig check --explain` writes it: "ok N", or the first entry that is wrong,
   or with all each of them, and after it the lines of its reason, which begin with two spaces.
   POSTMIG_NOT_A_LINE: *written is the number of the line. */
uint32_t postmig_explain(bool all, const uint8_t *transcript, size_t length, bool *is_flat, uint8_t *out, size_t room,
                         size_t *written);

/* WRONG LINES */

/* Says why a text is not a line of a script, or with is_transcript of a transcript; it is given without its line
   feed. POSTMIG_OK: it is a line; *written is 0.
   POSTMIG_NOT_A_LINE: it is none, and the reason is written, in the words of `postmig lint` and without a line
   feed; *column is where it is, in bytes from 1.
   POSTMIG_NO_ROOM: it is none, and *written is the length of the reason.
   A line of more than 256 bytes is wrong here and in postmig_run, though postmig_world_line does it. */
uint32_t postmig_line_reason(bool is_transcript, const uint8_t *line, size_t length, size_t *column, uint8_t *out,
                             size_t room, size_t *written);

/* Lists the wrong lines of a whole script, or with is_transcript of a transcript, as `postmig lint` does of its
   standard input: a line "-:LINE:COLUMN: REASON" for each. is_clean: there are none, and nothing is written. */
uint32_t postmig_lint(bool is_transcript, const uint8_t *text, size_t length, bool *is_clean, uint8_t *out, size_t room,
                      size_t *written);

/* FRAMES */

/* A frame without the bytes and lists that it carries. */
typedef struct {
    uint32_t tag;   /* the second byte of its header */
    uint32_t epoch; /* the epoch in which it was sent */
    uint64_t addr;  /* the address of its page, or of the first page of its run; else 0 */
    uint64_t count; /* its pages: of a run, discarded, or owed; of an End, the urgent frames; 1 for a frame of one page;
                       else 0 */
} postmig_frame;

/* Opens a new decoder. What the handle had is freed; it keeps that if the answer is not POSTMIG_OK. */
uint32_t postmig_frames_new(postmig_handle *frames);

/* Takes the next bytes of the stream, cut anywhere. POSTMIG_FRAMES_WAIT and POSTMIG_NO_MEMORY: nothing of them was
   taken. */
uint32_t postmig_frames_feed(postmig_handle *frames, const uint8_t *bytes, size_t length);

/* Takes the first frame that waits, and writes its bytes, in version 2 of the format. POSTMIG_NO_ROOM: it still
   waits. After the last frame the answer is POSTMIG_NO_FRAME, or the fault of the stream that stands there; it
   stays that fault. */
uint32_t postmig_frames_next(postmig_handle *frames, postmig_frame *frame, uint8_t *out, size_t room, size_t *written);

#ifdef __cplusplus
}
#endif
#endif
