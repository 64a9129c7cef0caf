/* Takes the memory of a monitor, and keeps the copies of pages that cannot be installed yet. */
#include "handed.h"

#include <ctype.h>
#include <errno.h>
#include <fcntl.h>
#include <poll.h>
#include <stdio.h>
#include <stdlib.h>
#include <string.h>
#include <sys/socket.h>
#include <unistd.h>

#include "kernel.h"
#include "live.h"
#include "local.h"
#include "log.h"

#define MOST_TEXT 8192u
#define PATIENT_MS 60000
#define MOST_UNREAD 16u

/* THE LIST OF RANGES */

static void skip_blanks(const char **text)
{
    while (isspace((unsigned char)**text))
        ++*text;
}

static bool take(const char **text, char wanted)
{
    skip_blanks(text);
    if (**text != wanted)
        return false;
    ++*text;
    return true;
}

/* A name without escapes, in quotation marks. */
static bool read_name(const char **text, char *name, size_t room)
{
    size_t length;

    if (!take(text, '"'))
        return false;
    length = strcspn(*text, "\"\\");
    if ((*text)[length] != '"' || length >= room)
        return false;
    memcpy(name, *text, length);
    name[length] = 0;
    *text += length + 1;
    return true;
}

static bool read_number(const char **text, uint64_t *number)
{
    char *rest;

    skip_blanks(text);
    if (!isdigit((unsigned char)**text))
        return false;
    errno = 0;
    *number = strtoull(*text, &rest, 10);
    *text = rest;
    return !errno;
}

/* A name, a colon and a number. Each name that counts is there once at most; `seen` has a bit for each. */
static bool read_member(const char **text, struct handed_range *range, unsigned *seen)
{
    static const char *const names[] = { "base_host_virt_addr", "size", "offset", "page_size" };
    uint64_t page_bytes = PAGE_BYTES, number, *places[] = { &range->at, &range->bytes, &range->offset, &page_bytes };
    char name[32];

    if (!read_name(text, name, sizeof name) || !take(text, ':') || !read_number(text, &number))
        return false;
    for (unsigned i = 0; i < sizeof names / sizeof *names; i++)
        if (!strcmp(name, names[i])) {
            if (*seen >> i & 1)
                return false;
            *seen |= 1u << i;
            *places[i] = number;
        }
    if (page_bytes != PAGE_BYTES)
        refuse("the monitor's pages have %llu bytes, and here they have %u", (unsigned long long)page_bytes,
               PAGE_BYTES);
    return true;
}

static bool read_range(const char **text, struct handed_range *range)
{
    const unsigned needed = 7; /* all but the size of a page */
    unsigned seen = 0;

    *range = (struct handed_range){ 0 };
    if (!take(text, '{'))
        return false;
    do
        if (!read_member(text, range, &seen))
            return false;
    while (take(text, ','));
    return take(text, '}') && (seen & needed) == needed;
}

static bool read_ranges(const char *text, struct handed *handed)
{
    if (!take(&text, '['))
        return false;
    do
        if (handed->ranges == MOST_HANDED || !read_range(&text, &handed->range[handed->ranges++]))
            return false;
    while (take(&text, ','));
    return take(&text, ']') && (skip_blanks(&text), !*text);
}

/* The ranges are whole pages, each is the guest's next part, and none overlaps another. */
static bool fit(const struct handed *handed)
{
    uint64_t sum = 0;

    for (uint32_t i = 0; i < handed->ranges; i++) {
        const struct handed_range *it = &handed->range[i];

        if ((it->at | it->bytes) % PAGE_BYTES || !it->bytes || it->at > UINT64_MAX - it->bytes || it->offset != sum)
            return false;
        for (uint32_t other = 0; other < i; other++)
            if (it->at < handed->range[other].at + handed->range[other].bytes &&
                handed->range[other].at < it->at + it->bytes)
                return false;
        sum += it->bytes;
        if (sum > (uint64_t)MOST_PAGES * PAGE_BYTES)
            return false;
    }
    return sum == (uint64_t)handed->pages * PAGE_BYTES;
}

/* THE MONITOR */

static void wait_until_readable(int file, const char *for_what)
{
    if (poll(&(struct pollfd){ .fd = file, .events = POLLIN }, 1, PATIENT_MS) != 1)
        refuse("no %s within %u s", for_what, PATIENT_MS / 1000);
}

static int accept_monitor(const struct address *address)
{
    int door = local_listen(address, 1), file;

    log_figures("waiting for=%s\n", address->text);
    for (;;) {
        wait_until_readable(door, "monitor");
        file = accept4(door, NULL, NULL, SOCK_CLOEXEC);
        if (file >= 0 && local_is_own(file))
            break;
        if (file < 0 && errno != EAGAIN && errno != ECONNABORTED)
            refuse_errno(errno, "a monitor cannot be accepted");
        log_event("someone at %s is no process of this user: turned away", address->text);
        if (file >= 0)
            (void)close(file); /* nothing was written */
    }
    local_close(door, address);
    return file;
}

/* The descriptor that came with a message, or -1. */
static int descriptor_of(struct msghdr *message)
{
    struct cmsghdr *part = CMSG_FIRSTHDR(message);
    int file;

    if (!part || part->cmsg_level != SOL_SOCKET || part->cmsg_type != SCM_RIGHTS ||
        part->cmsg_len != CMSG_LEN(sizeof file))
        return -1;
    memcpy(&file, CMSG_DATA(part), sizeof file);
    return file;
}

/* The text of the list, which is one message, and its descriptor. */
static void receive(struct handed *handed, char *text)
{
    union {
        struct cmsghdr header;
        char bytes[CMSG_SPACE(sizeof(int))];
    } control = { 0 };
    struct iovec part = { text, MOST_TEXT };
    struct msghdr message = {
        .msg_iov = &part, .msg_iovlen = 1, .msg_control = &control, .msg_controllen = sizeof control
    };
    ssize_t got;

    wait_until_readable(handed->monitor, "list of the monitor's memory");
    got = recvmsg(handed->monitor, &message, MSG_CMSG_CLOEXEC);
    if (got <= 0)
        refuse("the monitor has ended before it handed over its memory");
    text[got] = 0;
    handed->userfault = descriptor_of(&message);
    if (handed->userfault < 0 || message.msg_flags & MSG_CTRUNC)
        refuse("the monitor's message has no userfaultfd, or more than one descriptor");
    if (strlen(text) != (size_t)got || !read_ranges(text, handed))
        refuse("the monitor's list of its memory cannot be read: %.200s", text);
}

void handed_accept(struct handed *handed, const struct address *address, uint32_t pages)
{
    static char text[MOST_TEXT + 1];
    int flags;

    memset(handed, 0, sizeof *handed);
    handed->pages = pages;
    handed->monitor = accept_monitor(address);
    receive(handed, text);
    if (!fit(handed))
        refuse("the monitor's memory is not %u pages in ranges without gaps: begin both with the same --memory", pages);
    flags = fcntl(handed->userfault, F_GETFL);
    if (flags < 0 || fcntl(handed->userfault, F_SETFL, flags | O_NONBLOCK))
        refuse_errno(errno, "the monitor's descriptor");
    handed->copies = kernel_map((size_t)pages * PAGE_BYTES);
    handed->kept = calloc(pages, sizeof *handed->kept);
    if (!handed->kept)
        refuse("no memory for the list of copies");
}

void handed_say(const struct handed *handed, char what)
{
    if (send(handed->monitor, &what, 1, MSG_NOSIGNAL) != 1)
        lose("the monitor has ended, and the guest with it");
}

bool handed_has_stopped(struct handed *handed)
{
    char what;
    ssize_t got = handed->has_stopped ? -1 : recv(handed->monitor, &what, 1, MSG_DONTWAIT);

    if (got == 0 || (got < 0 && !handed->has_stopped && errno != EAGAIN && errno != EINTR))
        lose("the monitor has ended, and the guest with it");
    if (got == 1 && what != HANDED_STOP)
        refuse("the monitor says 0x%02x, which is nothing", (unsigned char)what);
    handed->has_stopped |= got == 1;
    return handed->has_stopped;
}

void handed_leave(struct handed *handed, bool (*meanwhile)(uint32_t milliseconds))
{
    struct pollfd files[] = { { .fd = handed->monitor, .events = POLLIN },
                              { .fd = handed->userfault, .events = POLLIN } };
    struct uffd_msg unread[MOST_UNREAD];
    bool is_ended = false;

    if (handed_has_stopped(handed))
        refuse("the guest has stopped, and was not asked to");
    for (uint32_t i = 0; i < handed->ranges; i++)
        kernel_unregister(handed->userfault, handed_page(handed, handed->range[i].offset / PAGE_BYTES),
                          handed->range[i].bytes);
    handed_say(handed, HANDED_STOP);
    log_event("all pages are put: waiting until the monitor says that its threads have stopped");
    while (!is_ended && !handed_has_stopped(handed)) {
        (void)poll(files, 2, 100); /* what is there is read in any case */
        while (kernel_read(handed->userfault, unread, MOST_UNREAD))
            continue;
        is_ended = meanwhile && meanwhile(0);
    }
    if (is_ended)
        log_event(
            "the operator ends the wait: the monitor has all pages, and has not said that its threads have stopped");
    (void)close(handed->userfault); /* nothing was written to it */
    (void)close(handed->monitor);   /* nor waits for the monitor */
    free(handed->kept);
}

/* PAGES */

char *handed_page(const struct handed *handed, uint64_t page)
{
    for (uint32_t i = 0; i < handed->ranges; i++) {
        const struct handed_range *it = &handed->range[i];

        if (page * PAGE_BYTES >= it->offset && page * PAGE_BYTES - it->offset < it->bytes)
            return (char *)(uintptr_t)(it->at + page * PAGE_BYTES - it->offset); // NOLINT(performance-no-int-to-ptr):
                                                                                 // it is the monitor's
    }
    refuse("page %llu is not the monitor's", (unsigned long long)page);
}

uint64_t handed_number(const struct handed *handed, uint64_t at)
{
    for (uint32_t i = 0; i < handed->ranges; i++)
        if (at >= handed->range[i].at && at - handed->range[i].at < handed->range[i].bytes)
            return (handed->range[i].offset + at - handed->range[i].at) / PAGE_BYTES;
    refuse("a message of the address 0x%llx, which is in no range of the monitor", (unsigned long long)at);
}

static void set_kept(struct handed *handed, uint64_t first, uint64_t count, enum kept now)
{
    require(first <= handed->pages && count <= handed->pages - first);
    for (uint64_t page = first; page < first + count; page++) {
        handed->kept_pages -= handed->kept[page] == KEPT;
        handed->kept_pages += now == KEPT;
        handed->kept[page] = (uint8_t)now;
    }
}

void handed_keep(struct handed *handed, uint64_t first, uint64_t count)
{
    set_kept(handed, first, count, KEPT);
}

void handed_forget(struct handed *handed, uint64_t first, uint64_t count)
{
    set_kept(handed, first, count, NOT_KEPT);
}

int handed_install(struct handed *handed, uint64_t page)
{
    int error;

    require(handed->kept[page] == KEPT);
    error = kernel_copy(handed->userfault, handed_page(handed, page), handed->copies + page * PAGE_BYTES);
    if (!error)
        set_kept(handed, page, 1, WAS_KEPT);
    return error;
}

bool handed_next(struct handed *handed, uint64_t *page)
{
    if (!handed->kept_pages)
        return false;
    while (handed->kept[handed->cursor] != KEPT)
        handed->cursor = (handed->cursor + 1) % handed->pages;
    *page = handed->cursor;
    return true;
}
