/* Where the destination listens. A connection that was accepted is a newcomer until its hello has been read. Only
   some wait at a time, and none for longer than a moment. */
#ifndef DOOR_H
#define DOOR_H

#include <netinet/in.h>
#include <poll.h>
#include <stdint.h>

#include "hello.h"
#include "live.h"
#include "wire.h"

#define MOST_NEWCOMERS 64u
#define RESERVED 8u /* of these places, for the host of the source that was let in */
#define PATIENCE_MS 2000u

struct newcomer {
    int file; /* -1: none */
    struct tls *tls;
    uint64_t deadline;
    struct in6_addr host; /* zeros: at a Unix socket */
    uint8_t bytes[HELLO_BYTES];
    uint32_t length; /* of them that came */
    struct hello hello;
    bool is_refused; /* it has got a reason, and is to go */
};

struct door {
    int file;
    const struct address *address;
    const struct hello *own; /* what each source is compared with, and answered */
    struct newcomer newcomer[MOST_NEWCOMERS];
    struct in6_addr known;   /* the host of the source that was let in, */
    bool is_known;           /* if one was */
    int passes[MOST_SLICES]; /* to the doors after this one, by their slices; -1: none */
    uint64_t turned_away;
    int lack; /* why no one could be accepted, as it was said last; an errno */
};

/* Listens there. A busy address is refused. */
void door_open(struct door *door, const struct address *address, uint32_t buffer, const struct hello *own);

/* No one listens: the one newcomer is the program at this file, which has all the time that it takes for its
   hello. */
void door_feed(struct door *door, int file, const struct hello *own);

/* The door of a further slice: who comes there was let in by the first one's, which passes it on. */
void door_behind(struct door *door, struct door *first, const struct hello *own);

/* Passes those to their slices' doors that belong to this source, which the first slice serves. */
void door_pass(struct door *first, uint64_t instance);

/* The port, where the kernel has chosen it. */
uint16_t door_port(const struct door *door);

/* Accepts who is there, makes handshakes, reads hellos, and turns strangers and those away that have waited too
   long. */
void door_look(struct door *door);

/* Whom the destination waits for. */
enum others { OTHERS_GO, OTHERS_WAIT, OTHERS_COME };
struct wanted {
    enum channel channel;
    uint32_t least, most; /* epochs */
    uint64_t instance;    /* the source that is served; 0: any */
    enum others others;   /* whether another one is turned away, waits, or takes its place */
};

/* Has the stream use the connection of a newcomer that is wanted. Those of an older epoch are turned away; another
   source that is to go, and one that does not fit, gets a reason. False if there is none. */
bool door_take(struct door *door, const struct wanted *wanted, struct stream *stream, struct hello *hello);

/* Adds what the door waits for: at most MOST_NEWCOMERS + 1 files. Returns their number. */
uint32_t door_files(const struct door *door, struct pollfd *files);

/* Whether someone waits: door_look is due within PATIENCE_MS. */
bool door_has_newcomer(const struct door *door);

/* The host of the source that was let in, as a text. */
const char *door_source(const struct door *door);

void door_close(struct door *door);

#endif
