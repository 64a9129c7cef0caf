/* Accepts connections, and keeps them until it is known whose they are. */
#include "door.h"

#include <arpa/inet.h>
#include <errno.h>
#include <fcntl.h>
#include <netinet/in.h>
#include <netinet/tcp.h>
#include <string.h>
#include <unistd.h>

#include "kernel.h"
#include "live.h"
#include "local.h"
#include "log.h"

#define MILLION 1000000u
#define MOST_WAITING 128  /* connections that the kernel has made */
#define MOST_ACCEPTED 64u /* by one look */

static void begin(struct door *door, const struct hello *own)
{
    memset(door, 0, sizeof *door);
    door->own = own;
    door->file = -1;
    for (uint32_t i = 0; i < MOST_NEWCOMERS; i++)
        door->newcomer[i].file = -1;
    for (uint32_t i = 0; i < MOST_SLICES; i++)
        door->passes[i] = -1;
}

void door_behind(struct door *door, struct door *first, const struct hello *own)
{
    int files[2];

    begin(door, own);
    if (pipe2(files, O_NONBLOCK | O_CLOEXEC))
        refuse_errno(errno, "a pipe");
    door->address = first->address;
    door->file = files[0];
    first->passes[own->slice] = files[1];
}

void door_feed(struct door *door, int file, const struct hello *own)
{
    begin(door, own);
    door->newcomer[0] = (struct newcomer){ .file = file, .deadline = UINT64_MAX };
}

/* (a connection is made for the program once something has arrived on it) */
static int listen_by_tcp(const struct address *address, uint32_t buffer)
{
    int file = socket(address->name.ss_family, SOCK_STREAM | SOCK_NONBLOCK | SOCK_CLOEXEC, 0), yes = 1,
        seconds = PATIENCE_MS / 1000;

    if (file < 0 || setsockopt(file, SOL_SOCKET, SO_REUSEADDR, &yes, sizeof yes) ||
        setsockopt(file, IPPROTO_TCP, TCP_DEFER_ACCEPT, &seconds, sizeof seconds))
        refuse_errno(errno, "a socket");
    if (!socket_set_up(file, buffer))
        refuse_errno(errno, "an option of a socket");
    if (bind(file, (const struct sockaddr *)&address->name, address->length) || listen(file, MOST_WAITING))
        refuse_errno(errno, errno == EADDRINUSE ? "%s is in use by another program" : "%s", address->text);
    return file;
}

void door_open(struct door *door, const struct address *address, uint32_t buffer, const struct hello *own)
{
    begin(door, own);
    door->address = address;
    door->file = address_is_unix(address) ? local_listen(address, MOST_WAITING) : listen_by_tcp(address, buffer);
    if (address_is_unix(address) && !socket_set_up(door->file, buffer))
        refuse_errno(errno, "an option of a socket");
}

uint16_t door_port(const struct door *door)
{
    struct sockaddr_storage name = { 0 };
    socklen_t length = sizeof name;

    if (getsockname(door->file, (struct sockaddr *)&name, &length))
        refuse_errno(errno, "getsockname");
    if (name.ss_family == AF_INET)
        return ntohs(((struct sockaddr_in *)&name)->sin_port);
    return name.ss_family == AF_INET6 ? ntohs(((struct sockaddr_in6 *)&name)->sin6_port) : 0;
}

static void turn_away(struct door *door, struct newcomer *newcomer)
{
    tls_free(newcomer->tls);
    (void)close(newcomer->file); /* nothing was written */
    newcomer->file = -1;
    door->turned_away += !newcomer->is_refused;
}

/* Of an address of either family. */
static struct in6_addr host_of(const struct sockaddr_storage *name)
{
    struct in6_addr host = { 0 };

    if (name->ss_family == AF_INET6)
        return ((const struct sockaddr_in6 *)name)->sin6_addr;
    if (name->ss_family == AF_INET) {
        host.s6_addr[10] = host.s6_addr[11] = 0xff;
        memcpy(host.s6_addr + 12, &((const struct sockaddr_in *)name)->sin_addr, 4);
    }
    return host;
}

static bool is_same_host(const struct in6_addr *one, const struct in6_addr *other)
{
    return !memcmp(one, other, sizeof *one);
}

static bool is_known(const struct door *door, const struct in6_addr *host)
{
    return door->is_known && is_same_host(&door->known, host);
}

static uint32_t places_of(const struct door *door, const struct in6_addr *host)
{
    uint32_t count = 0;

    for (const struct newcomer *it = door->newcomer; it < door->newcomer + MOST_NEWCOMERS; it++)
        count += it->file >= 0 && is_same_host(&it->host, host);
    return count;
}

/* Whether the first is to give way before the second: a stranger before the known host, who has said less, whose
   host has more places, and then who has waited longer. */
static bool gives_way(const struct door *door, const struct newcomer *one, const struct newcomer *other)
{
    bool one_is_known = is_known(door, &one->host), other_is_known = is_known(door, &other->host);
    uint32_t places = places_of(door, &one->host), other_places = places_of(door, &other->host);

    if (one_is_known != other_is_known)
        return other_is_known;
    if ((one->length == HELLO_BYTES) != (other->length == HELLO_BYTES))
        return other->length == HELLO_BYTES;
    return places != other_places ? places > other_places : one->deadline < other->deadline;
}

/* A free place, or that of who gives way first. Strangers leave some to the known host. */
static struct newcomer *place_for(struct door *door, const struct in6_addr *host)
{
    uint32_t most = MOST_NEWCOMERS - (door->is_known && !is_known(door, host) ? RESERVED : 0), count = 0;
    struct newcomer *empty = NULL, *first = NULL;

    for (struct newcomer *it = door->newcomer; it < door->newcomer + MOST_NEWCOMERS; it++) {
        if (it->file < 0) {
            empty = it;
            continue;
        }
        count++;
        if (!first || gives_way(door, it, first))
            first = it;
    }
    if (count < most)
        return empty;
    turn_away(door, first);
    return first;
}

/* No one more is there, or one has gone again; or a newcomer cannot be accepted, which is said once for each
   reason. */
static void note_lack(struct door *door, int error)
{
    if (error == EAGAIN || error == ECONNABORTED || error == EINTR || error == door->lack || door->file < 0)
        return;
    door->lack = error;
    log_event("no one can be accepted at %s: %s (%s)", door->address->text, strerrorname_np(error), strerror(error));
}

/* Of those that the first door has passed on. */
static void take_passed(struct door *door)
{
    struct newcomer newcomer;

    while (read(door->file, &newcomer, sizeof newcomer) == (ssize_t)sizeof newcomer)
        *place_for(door, &newcomer.host) = newcomer;
}

/* A few at most, so that who waits is looked at in between. */
static void accept_some(struct door *door)
{
    for (uint32_t i = 0; i < MOST_ACCEPTED; i++) {
        struct sockaddr_storage name = { 0 };
        socklen_t length = sizeof name;
        int file = accept4(door->file, (struct sockaddr *)&name, &length, SOCK_NONBLOCK | SOCK_CLOEXEC);
        struct newcomer *place;
        struct in6_addr host;
        struct tls *tls;

        if (file < 0) {
            note_lack(door, errno);
            return;
        }
        if ((address_is_unix(door->address) && !local_is_own(file)) || !tls_new(&tls, file, TLS_LISTENS)) {
            (void)close(file); /* nothing was written */
            door->turned_away++;
            continue;
        }
        host = host_of(&name);
        place = place_for(door, &host);
        *place = (struct newcomer){
            .file = file, .host = host, .tls = tls, .deadline = kernel_now() + (uint64_t)PATIENCE_MS * MILLION
        };
    }
}

/* Sends it the reason, and waits until it goes. (One whose connection does not take that at once gets none.) */
static void refuse_newcomer(struct door *door, struct newcomer *newcomer, const char *reason)
{
    struct hello answer = *door->own;
    uint8_t bytes[HELLO_BYTES];

    answer.epoch = newcomer->hello.epoch;
    (void)memccpy(answer.reason, reason, 0, MOST_OF_REASON);
    hello_write(&answer, bytes);
    if (newcomer->tls)
        (void)tls_send(newcomer->tls, bytes, sizeof bytes);
    else
        (void)send(newcomer->file, bytes, sizeof bytes, MSG_NOSIGNAL | MSG_DONTWAIT);
    newcomer->is_refused = true;
    if (newcomer->deadline == UINT64_MAX)
        newcomer->deadline = kernel_now() + (uint64_t)PATIENCE_MS * MILLION;
    door->turned_away++;
    log_event("a source is refused: %s", reason);
}

/* False once it has gone. What it says is not read. */
static bool is_going(struct newcomer *newcomer)
{
    uint8_t bytes[4096];
    ssize_t got = newcomer->tls ? tls_receive(newcomer->tls, bytes, sizeof bytes)
                                : recv(newcomer->file, bytes, sizeof bytes, MSG_DONTWAIT);

    return got > 0 || (got < 0 && (errno == EAGAIN || errno == EINTR));
}

/* False for a stranger, and for one that has gone. */
static bool read_hello(struct newcomer *newcomer)
{
    uint8_t *at = newcomer->bytes + newcomer->length;
    size_t room = HELLO_BYTES - newcomer->length;
    ssize_t got;

    if (newcomer->is_refused)
        return is_going(newcomer);
    if (!room)
        return true;
    got = newcomer->tls ? tls_receive(newcomer->tls, at, room) : recv(newcomer->file, at, room, MSG_DONTWAIT);
    if (got < 0)
        return errno == EAGAIN || errno == EINTR;
    newcomer->length += (uint32_t)got;
    return got > 0 && hello_read(&newcomer->hello, newcomer->bytes, newcomer->length);
}

void door_look(struct door *door)
{
    if (door->own->slice)
        take_passed(door);
    else
        accept_some(door);
    for (struct newcomer *it = door->newcomer; it < door->newcomer + MOST_NEWCOMERS; it++)
        if (it->file >= 0 && (!read_hello(it) || kernel_now() > it->deadline))
            turn_away(door, it);
}

static bool is_other(const struct wanted *wanted, const struct newcomer *newcomer)
{
    return wanted->instance && newcomer->hello.instance != wanted->instance;
}

/* It waits for another slice. */
static bool is_to_pass(const struct door *door, const struct newcomer *newcomer)
{
    return newcomer->hello.slices == door->own->slices && newcomer->hello.slice != door->own->slice;
}

/* (as many bytes as this are written at once, or none) */
void door_pass(struct door *first, uint64_t instance)
{
    for (struct newcomer *it = first->newcomer; it < first->newcomer + MOST_NEWCOMERS; it++) {
        if (it->file < 0 || it->is_refused || it->length < HELLO_BYTES || it->hello.instance != instance ||
            !is_to_pass(first, it))
            continue;
        if (write(first->passes[it->hello.slice], it, sizeof *it) == (ssize_t)sizeof *it)
            it->file = -1;
    }
}

/* Why a source is not let in, or NULL. */
static const char *reason_against(const struct door *door, const struct wanted *wanted, const struct newcomer *newcomer)
{
    static _Thread_local char reason[MOST_OF_REASON + 1];

    if (is_other(wanted, newcomer) && wanted->others == OTHERS_GO)
        return "this destination serves another source";
    if (is_to_pass(door, newcomer))
        return NULL;
    return hello_unlike(&newcomer->hello, door->own, reason) ? reason : NULL;
}

/* (an urgent connection comes with the main one of its source) */
static bool is_wanted(const struct wanted *wanted, const struct newcomer *newcomer)
{
    if (is_other(wanted, newcomer))
        return wanted->others == OTHERS_COME && wanted->channel == MAIN;
    return newcomer->hello.epoch <= wanted->most;
}

bool door_take(struct door *door, const struct wanted *wanted, struct stream *stream, struct hello *hello)
{
    bool is_there = false;

    for (struct newcomer *it = door->newcomer; it < door->newcomer + MOST_NEWCOMERS; it++) {
        const char *reason;

        if (it->file < 0 || it->is_refused || it->length < HELLO_BYTES || it->hello.channel != wanted->channel)
            continue;
        reason = reason_against(door, wanted, it);
        if (reason) {
            refuse_newcomer(door, it, reason);
        } else if (is_to_pass(door, it)) {
            continue;
        } else if (it->hello.epoch < wanted->least && !is_other(wanted, it)) {
            turn_away(door, it);
        } else if (!is_there && is_wanted(wanted, it)) {
            stream_open(stream, it->file, it->tls, &(struct cut)NO_CUT);
            *hello = it->hello;
            door->known = it->host;
            door->is_known = true;
            it->file = -1;
            is_there = true;
        }
    }
    return is_there;
}

uint32_t door_files(const struct door *door, struct pollfd *files)
{
    uint32_t count = 0;

    files[count++] = (struct pollfd){ .fd = door->file, .events = POLLIN };
    for (uint32_t i = 0; i < MOST_NEWCOMERS; i++) {
        short handshake = door->newcomer[i].file < 0 ? 0 : tls_waits_for(door->newcomer[i].tls);

        if (door->newcomer[i].file >= 0 && (door->newcomer[i].is_refused || door->newcomer[i].length < HELLO_BYTES))
            files[count++] = (struct pollfd){ .fd = door->newcomer[i].file, .events = handshake ? handshake : POLLIN };
    }
    return count;
}

bool door_has_newcomer(const struct door *door)
{
    for (uint32_t i = 0; i < MOST_NEWCOMERS; i++)
        if (door->newcomer[i].file >= 0)
            return true;
    return false;
}

const char *door_source(const struct door *door)
{
    static _Thread_local char text[INET6_ADDRSTRLEN];

    if (address_is_unix(door->address))
        return door->address->text;
    return inet_ntop(AF_INET6, &door->known, text, sizeof text) ? text : "?";
}

void door_close(struct door *door)
{
    for (uint32_t i = 0; i < MOST_NEWCOMERS; i++)
        if (door->newcomer[i].file >= 0)
            turn_away(door, &door->newcomer[i]);
    if (door->file < 0)
        return;
    if (address_is_unix(door->address) && !door->own->slice)
        local_close(door->file, door->address);
    else
        (void)close(door->file); /* it carried nothing */
}
