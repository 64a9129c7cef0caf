/* The command line. */
#ifndef OPTIONS_H
#define OPTIONS_H

#include <stdbool.h>
#include <stdint.h>

#include "guest.h"
#include "hello.h"
#include "wire.h"

#define MOST_CUTS 64u
#define FOREVER UINT32_MAX
#define USUAL_PATIENCE 0u /* before the switch PATIENT_S, and after it forever */
#define PATIENT_S 10u

/* Where the two connections of one epoch are cut. */
struct cuts {
    struct cut main, urgent;
};
#define NO_CUTS        \
    {                  \
        NO_CUT, NO_CUT \
    }

struct options {
    struct address address;
    const char *trace;   /* the file of the node's steps, or NULL */
    const char *history; /* the file of the guest's accesses, or NULL */
    bool makes_sums;     /* which the trace ends with */
    struct guest_plan plan;
    struct guest_pace pace;
    uint32_t buffer;   /* bytes of a socket's buffers in the kernel */
    uint32_t patience; /* seconds without the other side, after which this one stops trying; FOREVER: it never does;
                          USUAL_PATIENCE */
    uint32_t silence;  /* seconds without a byte, after which a connection counts as broken */
    char migration[MOST_OF_NAME + 1]; /* its name */
    struct address control;           /* where the operator has a word; no text: by signals alone */
    uint32_t slices;
    uint32_t cuts[MOST_SLICES];
    struct cuts cut[MOST_SLICES][MOST_CUTS]; /* of the first epochs */
    bool shows_progress;
    bool goes_first;  /* the driver's thread runs before the guest's, where that is allowed */
    bool has_key;     /* connections are encrypted by it */
    const char *feed; /* a command that takes the part of the other side, or NULL */
    /* of the source */
    uint32_t rounds, target, rate, push_rate, before;
    bool has_urgent;
    uint32_t after; /* ms of the guest after the migration; FOREVER: until the operator says so */
    /* of the destination */
    struct address monitor; /* where a monitor hands its memory over; no text: the guest runs here */
    bool checks_owed;
};

#endif
