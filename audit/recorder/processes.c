/* Where a process begins and ends: the start of a program, fork(2), _exit(2). */
#include <errno.h>
#include <fcntl.h>
#include <pthread.h>
#include <stddef.h>
#include <stdlib.h>
#include <string.h>
#include <unistd.h>

#include "next.h"
#include "objects.h"
#include "raw.h"
#include "recorder.h"
#include "shared.h"

/* With the words that log.c puts before them, no more than a line may have. */
#define STARTED_BYTES 3900
#define COMMAND_BYTES 2048

/* Puts the words of the command line, as far as they fit. */
static void put_command(struct text *line)
{
    char command[COMMAND_BYTES];
    long fd = raw_call(SYS_openat, AT_FDCWD, (long)"/proc/self/cmdline", O_RDONLY | O_CLOEXEC, 0, 0, 0), got;
    const char *at = command;

    got = raw_failed(fd) ? -1 : raw_call(SYS_read, fd, (long)command, sizeof command, 0, 0, 0);
    if (!raw_failed(fd))
        (void)raw_call(SYS_close, fd, 0, 0, 0, 0, 0); /* it was only read */
    while (got > 0 && at < command + got) {
        const char *end = memchr(at, '\0', (size_t)(command + got - at));

        /* (each byte may take three) */
        if (!end || (size_t)(end - at) * 3 + sizeof " ..." + 1 > line->capacity - line->length) {
            text_word(line, "...");
            return;
        }
        text_encoded(line, at);
        at = end + 1;
    }
    if (got <= 0 || got == (long)sizeof command)
        text_word(line, "...");
}

static void note_started(void)
{
    static char bytes[STARTED_BYTES];
    struct text line = text_over(bytes, sizeof bytes);

    text_number(&line, (uint64_t)raw_call(SYS_getppid, 0, 0, 0, 0, 0, 0));
    put_command(&line);
    log_note("started", &line);
}

/* In the child, before fork returns there. */
static void after_fork(void)
{
    char bytes[LINE_BYTES];
    struct text line = text_over(bytes, sizeof bytes);

    text_number(&line, (uint64_t)raw_call(SYS_getppid, 0, 0, 0, 0, 0, 0));
    log_note("forked", &line);
    objects_after_fork();
}

static void note_exit(void)
{
    char bytes[1];
    struct text line = text_over(bytes, sizeof bytes);

    if (log_is_open())
        log_note("exit", &line);
}

__attribute__((constructor)) static void begin(void)
{
    const char *path = getenv("UFFDLOG"), *page = getenv("UFFDLOG_SHARED"), *sums = getenv("UFFDLOG_SUMS");
    int error = errno;

    (void)next(); /* so that no signal handler needs to look them up */
    if (!path || !log_open(path))
        return;
    if (page)
        shared_map(page);
    if (getenv("UFFDLOG_NO_SCAN"))
        record_no_pages();
    if (sums)
        sums_open(sums);
    note_started();
    objects_after_exec();
    if (pthread_atfork(NULL, NULL, after_fork))
        log_count_lost(1); /* the line `forked` of each child */
    errno = error;
}

__attribute__((destructor)) static void finish(void)
{
    note_exit();
}

static void put_child(struct text *line, const void *of)
{
    const pid_t *child = of;

    text_number(line, (uint64_t)*child);
}

INTERPOSED pid_t fork(void)
{
    char bytes[LINE_BYTES];
    struct text line = text_over(bytes, sizeof bytes);
    struct call call;
    pid_t child;
    int error;

    if (!log_is_open())
        return next()->fork();
    text_word(&line, "fork");
    call = log_begin(&line);
    child = next()->fork();
    error = errno;
    if (child) /* the begin line is the parent's */
        end_call(&call, child < 0, error, child < 0 ? NULL : put_child, &child);
    errno = error;
    return child;
}

INTERPOSED void _exit(int status)
{
    note_exit();
    next()->exit(status);
}

INTERPOSED void _Exit(int status)
{
    note_exit();
    next()->exit(status);
}
