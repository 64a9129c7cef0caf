/* A destination: the state of a slice of `live dest` and `live handler`, and what its parts do. Each part is a
   file. */
#ifndef DEST_H
#define DEST_H

#include "batch.h"
#include "door.h"
#include "figures.h"
#include "handed.h"
#include "options.h"
#include "slices.h"
#include "watch.h"
#include "wire.h"

#define FRAMES_AT_A_TIME 16u /* so that faults are handled in between */

/* What the source that is served has a claim to. It grows; a new node takes back what is below CLAIM_BOUND. */
enum claim {
    CLAIM_NONE,  /* it has sent nothing: another one takes its place once it is idle, */
    CLAIM_SENDS, /* or is turned away while it is not */
    CLAIM_BOUND, /* once each slice is bound it may have switched: no other one is served, and only `abandon` ends this
                    side; */
    CLAIM_TOLD   /* and this was sent on this channel */
};

/* What a turn has left to do, for which poll(2) is not to wait. */
enum pending {
    PENDING_NOTHING,
    PENDING_FRAMES, /* whole ones may be there */
    PENDING_PAGES   /* the last receive of pages got some, and maybe not all of them were taken */
};

/* What comes next on the main connection of a channel. */
enum expects {
    FIRST_FRAME,  /* none was taken: it may be a Resume */
    WHOLE_FRAMES, /* in the stream */
    PAGES, /* for the most part, since the guest runs: their bytes are received into the batch, what is between them
              into the stream */
    NOTHING_MORE /* a frame was refused on either connection: the channel is lost */
};

struct dest {
    const struct options *options;
    struct slices *slices;
    struct guest *guest;
    uint32_t slice; /* which one this is */
    struct node node;
    struct handed handed; /* its memory, where it is a monitor's */
    bool is_handed;
    struct watch watch;
    postmig_destination_state state; /* since the last step that changes the phase or the epoch; its counts may be older
                                        than the node's */
    uint64_t last_turn;              /* ns */
    enum pending pending;            /* of this turn */
    uint32_t unasked;                /* turns since poll(2) */
    uint32_t logged_phase;           /* the phase that was written last */
    bool is_held;                    /* nothing is done any more */

    /* the channel */
    struct door door;
    bool is_at_door; /* someone may be */
    struct stream main, urgent;
    struct batch batch;   /* of the main one, whose stream is empty while a part of a page is here */
    enum expects expects; /* of this channel, or of the next one where none is open */
    uint32_t channels;    /* taken until now */
    struct hello own;     /* what is said of this process, */
    struct hello source;  /* and the last hello of the source */
    enum claim claim;     /* of that source */
    uint64_t opened;      /* its channel: ns */
    uint32_t silences;    /* channels in a row on which nothing was heard */

    struct samples waits;
    struct {
        uint64_t discard, package, run, end;
        uint64_t breaks, late_breaks; /* those of a guest that runs here */
        uint64_t kept, discarded;     /* copies before the guest ran */
        uint64_t busy;                /* of the driver's thread, from the Package to the End, in processor time */
    } figures;
};

/* Takes the state again from the node. */
void dest_look(struct dest *dest);
/* Says how far this slice is, for what is said of all. */
void dest_says(struct dest *dest);
/* This turn has that left to do, or more. */
void dest_has_pending(struct dest *dest, enum pending pending);

extern const char *const dest_phases[];

/* dest_copies.c: before the guest runs copies go straight into its memory, which is not registered yet. Those of a
   monitor's memory are kept apart. */

/* Whether the copies that a frame has brought are of this guest's memory. (Where they are not, its channel is lost,
   and what the node keeps of it goes with the Resume of the next one.) */
bool dest_is_of_guest(const struct dest *dest, const postmig_effect *effect);
void dest_keep_copies(struct dest *dest, const postmig_effect *effect, const struct frame *frame);
/* Only the copies of pages that the node calls present are kept: a Discard or a Resume has taken others away. False
   where the Package, which owes this number of pages, is not of this guest's memory. */
bool dest_settle_copies(struct dest *dest, uint32_t owed);
/* The kernel has no page that is owed, and no copy of one is kept. */
void dest_check_owed(struct dest *dest);

/* dest_install.c: pages that the guest is owed */

/* The frame was taken last, and is the only copy that waits. */
void dest_install(struct dest *dest, const struct frame *frame);
/* All of these pages of the source were taken, and wait. */
void dest_install_all(struct dest *dest, const uint8_t *pages, const uint64_t *origin, uint32_t count);

/* dest_frames.c: what comes of the source */

/* Receives and takes frames. Each is false once the connection is broken. */
bool dest_take_main(struct dest *dest);
bool dest_take_urgent(struct dest *dest);
/* A node to which nothing has happened. (Where other slices are not bound, this one's source was not to switch.) */
void dest_renew_node(struct dest *dest);
/* The source has a claim to this from now on. */
void dest_claim(struct dest *dest, enum claim claim);

/* dest_channel.c: connections */

/* Who the source is, for people. */
const char *dest_source(const struct dest *dest);
/* Sends and receives, and breaks a channel that is broken, or on which nothing came for too long. */
void dest_use_channel(struct dest *dest);
/* Lets in who is wanted. */
void dest_look_at_door(struct dest *dest);

/* dest_words.c: the operator */
void dest_obey(struct dest *dest);

/* dest.c: what is done once the guest may be nowhere else, where the kernel or the node has said what was not
   expected; and before it */
extern const struct keeping dest_bound, dest_free;

#endif
