/* Lines wait in a ring, which one thread writes. */
#include "log.h"

#include <errno.h>
#include <fcntl.h>
#include <poll.h>
#include <pthread.h>
#include <signal.h>
#include <stdarg.h>
#include <stdio.h>
#include <stdlib.h>
#include <string.h>
#include <time.h>
#include <unistd.h>

#include "live.h"

#define LINE_BYTES 1536u
#define LINES 128u
#define STACK_BYTES (64u << 10)
#define FLUSH_S 2

struct line {
    int file;
    size_t length;
    char text[LINE_BYTES];
};

static struct {
    pthread_mutex_t lock;
    pthread_cond_t changed;
    struct line line[LINES];
    uint32_t first, count;
    uint64_t dropped;
    bool is_open, is_writing; /* the first line is being written */
} ring = { .lock = PTHREAD_MUTEX_INITIALIZER };

static _Thread_local char slice_name[16]; /* what lines of this thread begin with, for people */

/* Whether all of it was written. */
static bool write_all(const struct line *line)
{
    size_t done = 0;

    while (done < line->length) {
        ssize_t put = write(line->file, line->text + done, line->length - done);

        if (put < 0 && errno == EINTR)
            continue;
        if (put <= 0)
            return false;
        done += (size_t)put;
    }
    return true;
}

/* Writes the first line, if that does not take longer than this. The lock is held before and after it. False if it
   was not written. */
static bool write_first(int most_ms)
{
    struct line line = ring.line[ring.first];
    struct pollfd reader = { .fd = line.file, .events = POLLOUT };
    bool is_written;

    ring.is_writing = true;
    (void)pthread_mutex_unlock(&ring.lock);
    is_written = poll(&reader, 1, most_ms) == 1 && write_all(&line);
    (void)pthread_mutex_lock(&ring.lock);
    ring.is_writing = false;
    ring.first = (ring.first + 1) % LINES;
    ring.count--;
    ring.dropped += !is_written;
    (void)pthread_cond_broadcast(&ring.changed);
    return is_written;
}

static void *write_lines(void *nothing)
{
    (void)pthread_mutex_lock(&ring.lock); /* it is not held by this thread */
    for (;;)
        if (ring.count && !ring.is_writing)
            (void)write_first(-1);
        else
            (void)pthread_cond_wait(&ring.changed, &ring.lock); /* without an attribute it always succeeds */
    return nothing;
}

static void fill_closed(void)
{
    for (int file = STDIN_FILENO; file <= STDERR_FILENO; file++)
        if (fcntl(file, F_GETFD) < 0 && open("/dev/null", O_RDWR) != file)
            _Exit(STATUS_REFUSED); /* no one would hear of it */
}

void log_open(void)
{
    pthread_attr_t attributes;
    pthread_condattr_t clock;
    pthread_t writer;
    sigset_t all, before;
    int error;

    fill_closed();
    (void)sigfillset(&all); /* it always succeeds, as do the next calls but the one that makes a thread */
    (void)pthread_condattr_init(&clock);
    (void)pthread_condattr_setclock(&clock, CLOCK_MONOTONIC);
    (void)pthread_cond_init(&ring.changed, &clock);
    (void)pthread_attr_init(&attributes);
    (void)pthread_attr_setstacksize(&attributes, STACK_BYTES);
    (void)pthread_sigmask(SIG_BLOCK, &all, &before);
    error = pthread_create(&writer, &attributes, write_lines, NULL);
    (void)pthread_sigmask(SIG_SETMASK, &before, NULL);
    (void)pthread_attr_destroy(&attributes);
    if (error)
        refuse_errno(error, "the thread that writes lines cannot be started");
    (void)pthread_detach(writer);
    ring.is_open = true;
}

/* Adds a line, or drops it where there are `most` of them. */
static void add(int file, const char *text, size_t length, uint32_t most)
{
    struct line *line;

    (void)pthread_mutex_lock(&ring.lock);
    if (ring.count >= most) {
        ring.dropped++;
    } else {
        line = &ring.line[(ring.first + ring.count++) % LINES];
        line->file = file;
        line->length = length;
        memcpy(line->text, text, length);
    }
    (void)pthread_cond_broadcast(&ring.changed);
    (void)pthread_mutex_unlock(&ring.lock);
}

static void put(int file, const char *text, size_t length)
{
    bool may_wait = strncmp(text, "progress ", 9) != 0;

    if (ring.is_open)
        add(file, text, length, may_wait ? LINES : LINES / 2);
    else
        (void)!write(file, text, length); /* there is no one to tell */
}

static size_t print(char *text, size_t room, const char *format, va_list arguments)
{
    int length = vsnprintf(text, room, format, arguments);

    return length < 0 ? 0 : (size_t)length < room ? (size_t)length : room - 1;
}

void log_figures(const char *format, ...)
{
    static _Thread_local char text[LINE_BYTES];
    static _Thread_local size_t length;
    va_list arguments;

    va_start(arguments, format);
    length += print(text + length, sizeof text - length, format, arguments);
    va_end(arguments);
    if (text[length - 1] != '\n' && length < sizeof text - 1)
        return;
    text[length - 1] = '\n';
    put(STDOUT_FILENO, text, length);
    length = 0;
}

static void say(const char *before, const char *format, va_list arguments)
{
    char text[LINE_BYTES];
    size_t length = (size_t)snprintf(text, sizeof text, "live: %s%s", before, slice_name);

    length += print(text + length, sizeof text - 1 - length, format, arguments);
    text[length++] = '\n';
    put(STDERR_FILENO, text, length);
}

void log_slice(uint32_t slice)
{
    (void)snprintf(slice_name, sizeof slice_name, "slice %u: ", slice); /* it fits */
}

void log_say(const char *format, ...)
{
    va_list arguments;

    va_start(arguments, format);
    say("", format, arguments);
    va_end(arguments);
}

void log_event(const char *format, ...)
{
    struct timespec now;
    struct tm day;
    char before[48], text[16] = "";
    va_list arguments;

    clock_gettime(CLOCK_REALTIME, &now);
    if (gmtime_r(&now.tv_sec, &day))
        (void)strftime(text, sizeof text, "%H:%M:%S", &day);                                /* it fits */
    (void)snprintf(before, sizeof before, "%s.%03dZ ", text, (int)(now.tv_nsec / 1000000)); /* and so does this */
    va_start(arguments, format);
    say(before, format, arguments);
    va_end(arguments);
}

void log_flush(void)
{
    struct timespec until;

    if (!ring.is_open)
        return;
    clock_gettime(CLOCK_MONOTONIC, &until);
    until.tv_sec += FLUSH_S;
    (void)pthread_mutex_lock(&ring.lock);
    while (ring.count &&
           (ring.is_writing ? pthread_cond_timedwait(&ring.changed, &ring.lock, &until) != ETIMEDOUT
                            : write_first(1000 * FLUSH_S)))
        continue; /* (the thread that writes may get no processor) */
    (void)pthread_mutex_unlock(&ring.lock);
}

uint64_t log_dropped(void)
{
    uint64_t dropped;

    (void)pthread_mutex_lock(&ring.lock);
    dropped = ring.dropped;
    (void)pthread_mutex_unlock(&ring.lock);
    return dropped;
}
