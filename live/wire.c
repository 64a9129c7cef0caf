/* Addresses, and the bytes of a connection. */
#include "wire.h"

#include <arpa/inet.h>
#include <errno.h>
#include <fcntl.h>
#include <linux/sockios.h>
#include <netinet/in.h>
#include <netinet/tcp.h>
#include <poll.h>
#include <stdio.h>
#include <stdlib.h>
#include <string.h>
#include <sys/ioctl.h>
#include <sys/un.h>
#include <unistd.h>

#include "live.h"

#define LEAST_ROOM (512u << 10)
#define MOST_RECEIVED (128u << 10) /* by one call, so that faults are read in between */
#define LEAST_SEGMENT 1024u
#define MOST_SEGMENT 16384u
/* bytes that the kernel takes before it can send them: a page that is asked for may wait after these */
#define MOST_BACKLOG (128 << 10)
#define DEAD_AFTER_MS 5000 /* a peer that acknowledges nothing for so long is gone */

/* ADDRESSES */

static void read_unix(struct address *address, const char *path)
{
    struct sockaddr_un *name = (struct sockaddr_un *)&address->name;

    if (!*path || strlen(path) >= sizeof name->sun_path)
        refuse("%s: a path of 1 to %zu bytes is needed", address->text, sizeof name->sun_path - 1);
    name->sun_family = AF_UNIX;
    memcpy(name->sun_path, path, strlen(path) + 1);
    address->length = sizeof *name;
}

/* HOST without brackets. */
static bool read_host(struct address *address, const char *host, uint16_t port)
{
    struct sockaddr_in *four = (struct sockaddr_in *)&address->name;
    struct sockaddr_in6 *six = (struct sockaddr_in6 *)&address->name;

    if (inet_pton(AF_INET, strcmp(host, "localhost") ? host : "127.0.0.1", &four->sin_addr) == 1) {
        four->sin_family = AF_INET;
        four->sin_port = htons(port);
        address->length = sizeof *four;
        return true;
    }
    memset(&address->name, 0, sizeof address->name);
    six->sin6_family = AF_INET6;
    six->sin6_port = htons(port);
    address->length = sizeof *six;
    return inet_pton(AF_INET6, host, &six->sin6_addr) == 1;
}

void address_read(struct address *address, const char *text)
{
    char host[64] = "", rest[2] = "";
    unsigned port = 0;

    *address = (struct address){ .text = text };
    if (!strncmp(text, "unix:", 5)) {
        read_unix(address, text + 5);
        return;
    }
    if (sscanf(text, "[%63[^]]]:%5u%1s", host, &port, rest) != 2 &&
        sscanf(text, "%63[^:]:%5u%1s", host, &port, rest) != 2)
        port = UINT32_MAX;
    if (port > UINT16_MAX)
        refuse("%s: an address is HOST:PORT, [HOST]:PORT or unix:PATH", text);
    if (!read_host(address, host, (uint16_t)port))
        refuse("%s: a host is given by its number, or as localhost", text);
}

bool address_is_local(const struct address *address)
{
    const struct sockaddr_in *four = (const struct sockaddr_in *)&address->name;
    const struct sockaddr_in6 *six = (const struct sockaddr_in6 *)&address->name;

    if (address->name.ss_family == AF_INET)
        return ntohl(four->sin_addr.s_addr) >> 24 == 127;
    return address_is_unix(address) || IN6_IS_ADDR_LOOPBACK(&six->sin6_addr);
}

bool address_is_unix(const struct address *address)
{
    return address->name.ss_family == AF_UNIX;
}

/* SOCKETS */

static bool set_option(int file, int level, int name, int value)
{
    return !setsockopt(file, level, name, &value, sizeof value);
}

/* A window of less than a segment stalls, and a segment of loopback has 64 KiB: small buffers need small
   segments. */
static int segment_of(uint32_t buffer)
{
    uint32_t part = buffer / 4;

    return (int)(part < LEAST_SEGMENT ? LEAST_SEGMENT : part > MOST_SEGMENT ? MOST_SEGMENT : part);
}

static bool set_tcp_options(int file)
{
    return set_option(file, IPPROTO_TCP, TCP_NODELAY, 1) &&
        set_option(file, IPPROTO_TCP, TCP_NOTSENT_LOWAT, MOST_BACKLOG) &&
        set_option(file, IPPROTO_TCP, TCP_USER_TIMEOUT, DEAD_AFTER_MS) &&
        set_option(file, SOL_SOCKET, SO_KEEPALIVE, 1) && set_option(file, IPPROTO_TCP, TCP_KEEPIDLE, 2) &&
        set_option(file, IPPROTO_TCP, TCP_KEEPINTVL, 1) && set_option(file, IPPROTO_TCP, TCP_KEEPCNT, 3);
}

bool socket_set_up(int file, uint32_t buffer)
{
    int family = 0;
    socklen_t length = sizeof family;

    if (getsockopt(file, SOL_SOCKET, SO_DOMAIN, &family, &length))
        return false;
    if (family != AF_UNIX &&
        (!set_tcp_options(file) || (buffer && !set_option(file, IPPROTO_TCP, TCP_MAXSEG, segment_of(buffer)))))
        return false;
    return !buffer ||
        (set_option(file, SOL_SOCKET, SO_SNDBUF, (int)buffer) && set_option(file, SOL_SOCKET, SO_RCVBUF, (int)buffer));
}

int wire_connect(const struct address *address, uint32_t buffer)
{
    int file = socket(address->name.ss_family, SOCK_STREAM | SOCK_NONBLOCK | SOCK_CLOEXEC, 0), error;

    if (file < 0)
        return -1;
    if (socket_set_up(file, buffer) &&
        (!connect(file, (const struct sockaddr *)&address->name, address->length) || errno == EINPROGRESS))
        return file;
    error = errno;
    (void)close(file); /* nothing was written */
    errno = error;
    return -1;
}

/* BYTES */

static void grow(struct bytes *bytes, size_t room)
{
    uint8_t *at;

    while (!(at = realloc(bytes->at, room)))
        lack(0, "no memory for %zu bytes", room);
    bytes->at = at;
    bytes->room = room;
}

/* Room for `length` bytes at the end. */
static uint8_t *bytes_room(struct bytes *bytes, size_t length)
{
    size_t there = bytes->end - bytes->begin, room = bytes->room ? bytes->room : LEAST_ROOM;

    if (bytes->room - bytes->end >= length)
        return bytes->at + bytes->end;
    while (room - there < length)
        room *= 2;
    if (room > bytes->room)
        grow(bytes, room);
    memmove(bytes->at, bytes->at + bytes->begin, there);
    bytes->begin = 0;
    bytes->end = there;
    return bytes->at + there;
}

static void bytes_drop(struct bytes *bytes, size_t length)
{
    require(length <= bytes->end - bytes->begin);
    bytes->begin += length;
    if (bytes->begin == bytes->end)
        bytes->begin = bytes->end = 0;
}

/* STREAMS */

void stream_open(struct stream *stream, int file, struct tls *tls, const struct cut *cut)
{
    stream->file = file;
    stream->tls = tls;
    stream->is_ready = file >= 0;
    stream->cut = *cut;
    stream->error = 0;
    stream->sent = stream->received = stream->sent_before = stream->received_before = stream->next_beat =
        stream->silent = 0;
    stream->beats = false;
    stream->in.begin = stream->in.end = 0;
    stream->out.begin = stream->out.end = 0;
}

void stream_close(struct stream *stream)
{
    tls_free(stream->tls);
    if (stream->file >= 0)
        (void)close(stream->file); /* what was not sent is lost, as meant */
    stream_open(stream, -1, NULL, &(struct cut)NO_CUT);
}

void stream_free(struct stream *stream)
{
    stream_close(stream);
    free(stream->in.at);
    free(stream->out.at);
    stream->in = stream->out = (struct bytes){ 0 };
}

bool stream_is_open(const struct stream *stream)
{
    return stream->file >= 0;
}

uint8_t *stream_room(struct stream *stream, size_t length)
{
    return bytes_room(&stream->out, length);
}

size_t stream_unsent(const struct stream *stream)
{
    return stream->out.end - stream->out.begin;
}

size_t stream_under_way(const struct stream *stream)
{
    int bytes = 0;

    if (ioctl(stream->file, SIOCOUTQ, &bytes))
        refuse_errno(errno, "SIOCOUTQ");
    return stream_unsent(stream) + (size_t)bytes;
}

/* Has the kernel drop what is under way, and reset a TCP connection. */
static bool cut_off(const struct stream *stream)
{
    struct sockaddr none = { .sa_family = AF_UNSPEC };

    (void)connect(stream->file, &none, sizeof none); /* a Unix socket refuses it, and is closed */
    return false;
}

/* Else the connection is broken, by the first error. */
static bool is_wait(struct stream *stream, int error)
{
    bool is_so = error == EAGAIN || error == EINTR;

    if (!is_so && !stream->error)
        stream->error = error;
    return is_so;
}

/* (a record of TLS that was begun before a cut was set may go over it) */
static void count_cut(uint64_t *cut, size_t bytes)
{
    if (*cut != NEVER)
        *cut -= bytes < *cut ? bytes : *cut;
}

bool stream_send(struct stream *stream)
{
    while (stream_unsent(stream)) {
        size_t length = stream_unsent(stream);
        ssize_t sent;

        if (length > stream->cut.out)
            length = stream->cut.out;
        if (!length)
            return cut_off(stream);
        sent = stream->tls ? tls_send(stream->tls, stream->out.at + stream->out.begin, length)
                           : send(stream->file, stream->out.at + stream->out.begin, length, MSG_NOSIGNAL);
        if (sent < 0)
            return is_wait(stream, errno);
        bytes_drop(&stream->out, (size_t)sent);
        stream->sent += (size_t)sent;
        count_cut(&stream->cut.out, (size_t)sent);
    }
    return true;
}

/* Leaves the first `length` bytes of the parts. Returns the number of parts that have some. */
static size_t shorten(struct iovec *parts, size_t count, uint64_t length)
{
    size_t left = 0;

    for (; left < count && length; left++) {
        parts[left].iov_len = parts[left].iov_len < length ? parts[left].iov_len : length;
        length -= parts[left].iov_len;
    }
    return left;
}

/* Fills the parts with what has arrived by records. As recvmsg(2): what is said after the last byte is said again
   by the next call. */
static ssize_t decrypt(struct tls *tls, const struct iovec *parts, size_t count)
{
    ssize_t all = 0, got = 0;

    for (size_t i = 0; i < count; i++)
        for (size_t there = 0; there < parts[i].iov_len; there += (size_t)got) {
            got = tls_receive(tls, (uint8_t *)parts[i].iov_base + there, parts[i].iov_len - there);
            if (got <= 0)
                return all ? all : got;
            all += got;
        }
    return all;
}

bool stream_receive_parts(struct stream *stream, struct iovec *parts, size_t count, size_t *got)
{
    struct msghdr message = { .msg_iov = parts, .msg_iovlen = shorten(parts, count, stream->cut.in) };
    ssize_t received;

    *got = 0;
    if (!message.msg_iovlen)
        return cut_off(stream);
    received =
        stream->tls ? decrypt(stream->tls, parts, message.msg_iovlen) : recvmsg(stream->file, &message, MSG_DONTWAIT);
    stream->is_ready = tls_has_bytes(stream->tls);
    if (received < 0)
        return is_wait(stream, errno);
    *got = (size_t)received;
    stream->received += *got;
    count_cut(&stream->cut.in, *got);
    return received > 0;
}

bool stream_receive(struct stream *stream, size_t least)
{
    size_t room = least > MOST_RECEIVED ? least : MOST_RECEIVED, got = 0;
    struct iovec part = { stream_space(stream, room), room };
    bool is_whole = stream_receive_parts(stream, &part, 1, &got);

    stream_fill(stream, got);
    return is_whole;
}

uint8_t *stream_space(struct stream *stream, size_t length)
{
    return bytes_room(&stream->in, length);
}

void stream_fill(struct stream *stream, size_t length)
{
    require(length <= stream->in.room - stream->in.end);
    stream->in.end += length;
}

size_t stream_length(const struct stream *stream)
{
    return stream->in.end - stream->in.begin;
}

const uint8_t *stream_front(const struct stream *stream)
{
    return stream->in.at + stream->in.begin;
}

void stream_take(struct stream *stream, size_t length)
{
    bytes_drop(&stream->in, length);
}

struct pollfd stream_waits(const struct stream *stream)
{
    short handshake = tls_waits_for(stream->tls), usual = stream_unsent(stream) ? POLLIN | POLLOUT : POLLIN;

    return (struct pollfd){ .fd = stream->file, .events = handshake ? handshake : usual };
}
