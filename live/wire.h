/* Connections between the two hosts: TCP, plain on loopback alone and else by TLS, and Unix sockets. Each begins
   with a hello of the source, frames follow it. On the main connection the destination says its own hello first.
   Between frames there may be beats. */
#ifndef WIRE_H
#define WIRE_H

#include <poll.h>
#include <stdbool.h>
#include <stddef.h>
#include <stdint.h>
#include <sys/socket.h>
#include <sys/uio.h>

#include "hello.h"
#include "local.h"
#include "tls.h"

struct address {
    const char *text;
    struct sockaddr_storage name;
    socklen_t length;
};

/* Reads `HOST:PORT` or `[HOST]:PORT` with the number of a host, or `unix:PATH`. Any other address is refused. */
void address_read(struct address *address, const char *text);

bool address_is_unix(const struct address *address);

/* Whether only processes of this host are there: on loopback, or at a Unix socket. */
bool address_is_local(const struct address *address);

/* After how many bytes, in or out, a connection is cut, for tests: what is under way is lost, and the other side
   gets a reset. Those of `post` go out after the switch, of a source, or after the End, of a destination. */
#define NEVER UINT64_MAX
struct cut {
    uint64_t in, out, post;
};
#define NO_CUT              \
    {                       \
        NEVER, NEVER, NEVER \
    }

struct bytes {
    uint8_t *at;
    size_t room, begin, end; /* those from `begin` to `end` are there */
};

/* One connection. Without one `file` is -1. */
struct stream {
    int file;
    struct tls *tls; /* NULL: it is plain */
    bool is_ready;   /* something may have arrived since the last receive: the caller sets it too, after poll(2) */
    struct bytes in, out;
    struct cut cut;
    int error;               /* of what has broken the connection; 0: its end */
    uint64_t sent, received; /* bytes that the kernel has taken: the connection is made; and given */
    bool beats;              /* both sides beat; */
    uint64_t sent_before, received_before, next_beat, silent; /* which beat.c counts */
};
#define NO_STREAM  \
    {              \
        .file = -1 \
    }

/* Options of a socket that carries frames, or that listens for such: those it accepts have the same. `buffer` is
   the size of its buffers in the kernel, 0 for the kernel's own choice. False with errno. */
bool socket_set_up(int file, uint32_t buffer);

/* Begins to connect. Returns -1 where no one listens, with errno. */
int wire_connect(const struct address *address, uint32_t buffer);

/* Has the stream use a connection, with its session or NULL. Its buffers are empty. */
void stream_open(struct stream *stream, int file, struct tls *tls, const struct cut *cut);
/* Closes it, and drops all that was not read or sent. */
void stream_close(struct stream *stream);
/* The same, with the memory of its buffers. */
void stream_free(struct stream *stream);
bool stream_is_open(const struct stream *stream);

/* Room for `length` more bytes to be sent: the caller writes some of them, and adds their number to out.end. */
uint8_t *stream_room(struct stream *stream, size_t length);
size_t stream_unsent(const struct stream *stream);
/* Bytes that the kernel has taken and the other side has not. */
size_t stream_under_way(const struct stream *stream);

/* Each is false once the connection is broken. They send and receive what the kernel takes or has; at most `least`
   bytes, or a whole buffer where that is more, are received. */
bool stream_send(struct stream *stream);
bool stream_receive(struct stream *stream, size_t least);

/* Receives into these parts, one after the other, which it may shorten. `got` is the number of bytes. */
bool stream_receive_parts(struct stream *stream, struct iovec *parts, size_t count, size_t *got);

/* Room for `length` more bytes after those that were received; and some of them are there now. */
uint8_t *stream_space(struct stream *stream, size_t length);
void stream_fill(struct stream *stream, size_t length);

/* What was received and not taken. */
size_t stream_length(const struct stream *stream);
const uint8_t *stream_front(const struct stream *stream);
void stream_take(struct stream *stream, size_t length);

/* For poll(2): what this stream waits for. Where is_ready is set, poll(2) is not to wait. */
struct pollfd stream_waits(const struct stream *stream);

#endif
