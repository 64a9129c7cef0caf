/* The word of the operator: SIGTERM and SIGINT, and lines at a control socket. Each line is a WORD or `WORD
   NUMBER`, and is answered by one line of JSON. Only processes of the same user, and of root, may connect. */
#ifndef OPERATOR_H
#define OPERATOR_H

#include <poll.h>
#include <stdbool.h>
#include <stdint.h>

#include "wire.h"

enum word {
    WORD_STATUS,    /* says where it is */
    WORD_WATCH,     /* the same, again each second */
    WORD_CANCEL,    /* ends the migration before the switch */
    WORD_END,       /* ends the process, once nothing is lost by that */
    WORD_ABANDON,   /* the other side is gone for good */
    WORD_RATE,      /* pages per second of pre-copy, 0: no limit */
    WORD_PUSH_RATE, /* the same of the background in post-copy */
    WORD_PATIENCE,  /* seconds, 0: without end */
    WORD_SIGNAL,    /* SIGTERM or SIGINT */
    WORD_UNKNOWN
};

struct order {
    enum word word;
    uint32_t number;
    uint32_t client; /* of a line */
};

#define MOST_CLIENTS 4u
#define OPERATOR_FILES (MOST_CLIENTS + 2u)
#define MOST_JSON 1280u /* bytes of a line, of which a text has less than half */

/* Blocks the signals, in all threads that are started later, and listens there if it has a text. This thread alone
   hears orders. */
void operator_open(const struct address *control);

/* What to wait for: OPERATOR_FILES of them. */
void operator_files(struct pollfd *files);

/* The next order. False if there is none. */
bool operator_next(struct order *order);

/* Answers it: done, or refused for this reason. What a signal is refused for goes to the standard error. */
void operator_done(const struct order *order);
void operator_refuse(const struct order *order, const char *reason);

/* Of a side that does nothing more, and keeps what it has: whether this order ends it, and what would. The word
   `abandon` does; without a socket a signal does, unless it is the first one. */
bool operator_abandons(const struct order *order);
const char *operator_ends_held(void);

/* A text as it may be in a string of JSON: marks that would end it are others. Empty for NULL; the next call takes
   its place. */
const char *operator_text(const char *text);

/* A line of JSON: as the answer to an order, and (operator_tell) to all who watch. One that is not read is
   dropped. */
void operator_answer(const struct order *order, const char *json);
bool operator_is_watched(void); /* and a second is over */
void operator_tell(const char *json);

void operator_close(void);

#endif
