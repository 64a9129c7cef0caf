/* A source: the state of a slice of `live source`, and what its parts do. Each part is a file. */
#ifndef SOURCE_H
#define SOURCE_H

#include "hello.h"
#include "options.h"
#include "slices.h"
#include "watch.h"
#include "wire.h"

#define MOST_OF_RUN 64u
#define MOST_UNSENT (128u << 10) /* bytes: more pages are not put into a stream */
#define SECOND_NS 1000000000u

struct source {
    const struct options *options;
    struct slices *slices;
    struct guest *guest;
    uint32_t slice; /* which one this is */
    struct node node;
    struct watch watch;
    postmig_source_state state; /* since the last step that changes the phase or the epoch; its counts may be older than
                                   the node's */
    uint64_t last_turn;         /* ns */
    uint64_t waited;            /* without progress, in ns */
    uint32_t logged_phase;      /* the phase that was written last */
    bool is_to_switch;          /* it switches now, or has */
    bool is_held;               /* nothing is done any more, though the pages are here alone */

    /* the channel */
    struct stream main, urgent;
    uint32_t channels;                   /* opened until now */
    struct hello own;                    /* what is said of this process on each connection */
    uint64_t destination;                /* the instance that has answered first, or before the switch; 0: none has */
    bool is_answered;                    /* on this channel */
    bool does_bind, has_asked, is_bound; /* the destination knows of being bound, was asked on this channel, and is */
    bool has_to_resume;                  /* the channel is lost, and the next epoch has not begun */
    bool is_refused;                     /* what came on this channel is no destination's */
    uint64_t opened, next_try, retry;    /* ns */
    char why[192];         /* the cause of the last break, which is written once, until a destination replies */
    uint32_t silences;     /* channels in a row on which nothing was heard */
    uint32_t turns;        /* with an urgent connection */
    uint64_t last_request; /* when one came last, in ns */

    /* pre-copy */
    uint32_t rounds;                  /* made since pre-copy has begun, or begun again */
    uint32_t round_pages;             /* of this round, */
    uint64_t sent_before;             /* those sent before it, */
    uint64_t round_begun, round_sent; /* when it has begun, and pages of it that were sent */
    char *run;                        /* bytes of a run of pages that threads may be giving back */
    uint32_t held_turns, calm; /* turns in which faults wait: pages could not be protected, and runs that are sent once
                                  they could */

    /* post-copy */
    bool package_is_sent, end_is_sent;
    uint32_t cursor;    /* background push continues from this page; */
    bool has_pushed;    /* it has pushed a page since it was at the first one; */
    bool zeros_are_due; /* and only pages of zeros remain */
    uint8_t *contents;  /* of each page, once it was looked at after the switch: it stays as it is */

    struct {
        uint64_t start, stop, stopped, sent, released;
        uint64_t owed, discards, pushed, served, zeros, breaks;
        uint64_t lost_dones; /* a Recv has said that the destination had ended */
        uint64_t busy;       /* of the driver's thread, from the switch to the release, in processor time */
    } figures;
};

/* Takes the state again from the node. */
void source_look(struct source *source);

/* Says how far this slice is, for what is said of all. */
void source_says(struct source *source);

/* Pages of the round, or of what is owed, that are still to be sent. */
uint64_t source_left(const struct source *source);

extern const char *const source_phases[];

/* source_frames.c: pages become frames */

char *source_page(const struct source *source, uint32_t page);
bool source_is_zero(const char *page);
/* The same after the switch: the page is compared once, since a page of zeros is met in each pass. */
bool source_has_zeros(struct source *source, uint32_t page);
/* The bytes of pages before the switch, each of which the node calls present. NULL where one of them is missing: it
   was given back, and the thread that did so has cleared it late. */
const char *source_bytes(const struct source *source, uint32_t first, uint32_t count);
/* Puts a Zero, where `bytes` is NULL, or a Page. */
void source_put_page(struct source *source, struct stream *stream, uint32_t page, const char *bytes);

/* source_channel.c: connections, and what comes back on them */

/* Connects, if it is time to. */
void channel_connect(struct source *source);
/* Sends and receives, and breaks a channel that is broken, or on which nothing came for too long. The last turn
   took `took` ns. */
void channel_use(struct source *source, uint64_t took);
/* Nothing that is under way arrives any more. */
void channel_lose(struct source *source, const char *why, int error);
/* Whether the destination serves no other source from now on. It is asked for that once on each channel. */
bool channel_binds(struct source *source);
/* From now on the cuts count that are meant for after the switch. */
void channel_switched(struct source *source);

/* source_precopy.c and source_postcopy.c: what is sent. Each returns whether there is more to do at once. */
bool precopy_work(struct source *source);
bool postcopy_work(struct source *source);

/* source_words.c: the operator */
void source_obey(struct source *source);
/* The same, after a wait for orders. */
void source_wait_for_orders(struct source *source, uint32_t milliseconds);

/* source.c: what is done where the kernel or the node has said what was not expected */
extern const struct keeping source_before_switch, source_after_switch;

#endif
