/* Signals and the control socket. */
#include "operator.h"

#include <errno.h>
#include <signal.h>
#include <stdio.h>
#include <string.h>
#include <sys/signalfd.h>
#include <unistd.h>

#include "kernel.h"
#include "live.h"
#include "local.h"
#include "log.h"

#define MOST_LINE 64u
#define MOST_WAITING 16 /* connections that the kernel has made */
#define WATCH_NS 1000000000u
#define LOOK_NS 10000000u  /* a turn of the loop may take microseconds */
#define MOST_AT_A_TIME 16u /* orders, between which nothing else is done */

struct client {
    int file; /* -1: none */
    char line[MOST_LINE];
    size_t length;
    bool watches;
};

static struct {
    int door, signals;
    const struct address *address;
    struct client client[MOST_CLIENTS];
    uint32_t turn;      /* the place that was taken last from someone, */
    uint32_t heard;     /* and that of the client that was heard last */
    uint64_t next;      /* when those who watch hear again; */
    uint64_t next_look; /* and when an order is looked for again */
    uint32_t in_a_row;  /* of them */
    bool is_warned;     /* a signal to a side that does nothing more was refused */
} orders = { .door = -1, .signals = -1 };

static _Thread_local bool has_word; /* the thread that has opened it; another one hears nothing */

static const char *const words[] = { "status", "watch", "cancel", "end", "abandon", "rate", "push-rate", "patience" };

static void watch_signals(void)
{
    sigset_t set;

    if (sigemptyset(&set) || sigaddset(&set, SIGTERM) || sigaddset(&set, SIGINT) ||
        pthread_sigmask(SIG_BLOCK, &set, NULL))
        refuse("signals cannot be blocked");
    orders.signals = signalfd(-1, &set, SFD_NONBLOCK | SFD_CLOEXEC);
    if (orders.signals < 0)
        refuse_errno(errno, "signalfd");
    (void)signal(SIGHUP, SIG_IGN); /* a terminal that goes takes no guest with it; it always succeeds */
}

void operator_open(const struct address *control)
{
    for (uint32_t i = 0; i < MOST_CLIENTS; i++)
        orders.client[i].file = -1;
    watch_signals();
    has_word = true;
    if (!control->text)
        return;
    orders.address = control;
    orders.door = local_listen(control, MOST_WAITING);
}

void operator_files(struct pollfd *files)
{
    *files++ = (struct pollfd){ .fd = has_word ? orders.signals : -1, .events = POLLIN };
    *files++ = (struct pollfd){ .fd = has_word ? orders.door : -1, .events = POLLIN };
    for (uint32_t i = 0; i < MOST_CLIENTS; i++)
        *files++ = (struct pollfd){ .fd = has_word ? orders.client[i].file : -1, .events = POLLIN };
}

static void drop(struct client *client)
{
    (void)close(client->file); /* nothing waits to be written */
    *client = (struct client){ .file = -1 };
}

/* A free place, or else each in turn. */
static struct client *place_for_client(void)
{
    for (uint32_t i = 0; i < MOST_CLIENTS; i++)
        if (orders.client[i].file < 0)
            return &orders.client[i];
    orders.turn = (orders.turn + 1) % MOST_CLIENTS;
    drop(&orders.client[orders.turn]);
    return &orders.client[orders.turn];
}

static void accept_client(void)
{
    int file = orders.door < 0 ? -1 : accept4(orders.door, NULL, NULL, SOCK_NONBLOCK | SOCK_CLOEXEC);

    if (file < 0)
        return;
    if (!local_is_own(file)) {
        (void)close(file); /* nothing was written */
        return;
    }
    *place_for_client() = (struct client){ .file = file };
}

/* A line that is there, whole. */
static bool read_order(const char *line, struct order *order)
{
    char name[MOST_LINE] = "", rest;
    unsigned number = 0;
    int count = sscanf(line, "%63s %9u%c", name, &number, &rest);

    order->word = WORD_UNKNOWN;
    order->number = number;
    for (unsigned i = 0; i < sizeof words / sizeof *words; i++)
        if (!strcmp(name, words[i]) && count == (i < WORD_RATE ? 1 : 2))
            order->word = (enum word)i;
    return count > 0;
}

static bool next_line(struct client *client, struct order *order)
{
    char *end = memchr(client->line, '\n', client->length);
    size_t length;
    bool is_there;

    if (!end)
        return false;
    *end = 0;
    length = (size_t)(end - client->line) + 1;
    is_there = read_order(client->line, order);
    client->length -= length;
    memmove(client->line, client->line + length, client->length);
    return is_there;
}

/* One that writes longer lines is let go. */
static bool hear(struct client *client, struct order *order)
{
    ssize_t got;

    if (client->file < 0)
        return false;
    if (next_line(client, order))
        return true;
    if (client->length == MOST_LINE) {
        drop(client);
        return false;
    }
    got = recv(client->file, client->line + client->length, MOST_LINE - client->length, MSG_DONTWAIT);
    if (got == 0 || (got < 0 && errno != EAGAIN && errno != EINTR))
        drop(client);
    else if (got > 0)
        client->length += (size_t)got;
    return client->file >= 0 && next_line(client, order);
}

/* Signals go first, and clients in turns. */
static bool take_next(struct order *order)
{
    struct signalfd_siginfo info;

    *order = (struct order){ .word = WORD_SIGNAL };
    if (orders.signals >= 0 && read(orders.signals, &info, sizeof info) == (ssize_t)sizeof info)
        return true;
    accept_client();
    for (uint32_t i = 0; i < MOST_CLIENTS; i++) {
        order->client = orders.heard = (orders.heard + 1) % MOST_CLIENTS;
        if (hear(&orders.client[order->client], order))
            return true;
    }
    return false;
}

bool operator_next(struct order *order)
{
    uint64_t now = kernel_now();

    if (!has_word || now < orders.next_look)
        return false;
    if (orders.in_a_row++ < MOST_AT_A_TIME && take_next(order))
        return true;
    orders.in_a_row = 0;
    orders.next_look = now + LOOK_NS;
    return false;
}

/* A client that has no room for a line is one that does not read. */
static void send_line(struct client *client, const char *json)
{
    char text[MOST_JSON + 2];
    int length = snprintf(text, sizeof text, "%s\n", json);

    if (client->file >= 0 && send(client->file, text, (size_t)length, MSG_DONTWAIT | MSG_NOSIGNAL) != length)
        drop(client);
}

const char *operator_text(const char *text)
{
    static char safe[MOST_JSON / 2];

    (void)snprintf(safe, sizeof safe, "%s", text ? text : ""); /* what does not fit is left out */
    for (char *at = safe; *at; at++)
        if (*at == '"' || *at == '\\' || (unsigned char)*at < ' ')
            *at = '\'';
    return safe;
}

void operator_answer(const struct order *order, const char *json)
{
    if (order->word == WORD_SIGNAL)
        return;
    orders.client[order->client].watches |= order->word == WORD_WATCH;
    send_line(&orders.client[order->client], json);
}

void operator_done(const struct order *order)
{
    operator_answer(order, "{\"ok\":true}");
}

void operator_refuse(const struct order *order, const char *reason)
{
    char json[512];

    (void)snprintf(json, sizeof json, "{\"ok\":false,\"reason\":\"%.400s\"}", operator_text(reason)); /* it fits */
    if (order->word == WORD_SIGNAL)
        log_event("the signal is refused: %s", reason);
    else
        send_line(&orders.client[order->client], json);
}

bool operator_abandons(const struct order *order)
{
    bool was_warned = orders.is_warned;

    if (order->word != WORD_SIGNAL || orders.address)
        return order->word == WORD_ABANDON;
    orders.is_warned = true;
    return was_warned;
}

const char *operator_ends_held(void)
{
    return orders.address ? "it has stopped, and keeps what it has: abandon ends it"
                          : "it has stopped, and keeps what it has: another signal ends it";
}

bool operator_is_watched(void)
{
    uint64_t now = kernel_now();
    bool is_watched = false;

    for (uint32_t i = 0; has_word && i < MOST_CLIENTS; i++)
        is_watched |= orders.client[i].file >= 0 && orders.client[i].watches;
    if (!is_watched || now < orders.next)
        return false;
    orders.next = now + WATCH_NS;
    return true;
}

void operator_tell(const char *json)
{
    for (uint32_t i = 0; i < MOST_CLIENTS; i++)
        if (orders.client[i].watches)
            send_line(&orders.client[i], json);
}

void operator_close(void)
{
    for (uint32_t i = 0; i < MOST_CLIENTS; i++)
        if (orders.client[i].file >= 0)
            drop(&orders.client[i]);
    if (orders.door >= 0)
        local_close(orders.door, orders.address);
    orders.door = -1;
}
