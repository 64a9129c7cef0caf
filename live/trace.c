/* The steps that this process's nodes make, line by line, in a file. A node words its lines; this file only takes
   them. */
#include "trace.h"

#include <errno.h>
#include <fcntl.h>
#include <inttypes.h>
#include <pthread.h>
#include <stdio.h>
#include <stdlib.h>
#include <string.h>
#include <unistd.h>

#include <postmig_node.h>

#include "kernel.h"
#include "live.h"
#include "log.h"
#include "sums.h"

#define LINE_BYTES 1024u /* more than any line has */
#define FILE_BYTES (256u << 10)
#define MOST_MOMENTS 2u
#define MOST_WAITING (1u << 19) /* lines: 12 MiB at the node where most are of pages that move without a fault */

static struct {
    pthread_mutex_t lock; /* of whose part is written */
    FILE *at;             /* NULL: nothing is traced, or no more is */
    uint32_t part;        /* the slice whose lines come now, counted from 1 on */
} file = { .lock = PTHREAD_MUTEX_INITIALIZER };

static _Thread_local struct {
    struct node *node; /* NULL: it is not traced */
    uint32_t slice, slices;
    uint32_t *epochs; /* of the Resumes that were taken, */
    size_t resumes;
    size_t written; /* and of how many of them the lines are in the file */
    uint64_t lines; /* in the file */
    struct {
        const char *what;
        uint64_t at;
    } moment[MOST_MOMENTS];
    uint32_t moments;
} trace;

/* Nothing of a migration depends on its trace: one that cannot be written ends, and that is said. */
static void give_up(int error)
{
    log_event("the trace ends after %" PRIu64 " lines: %s (%s)", trace.lines, strerrorname_np(error), strerror(error));
    (void)fclose(file.at); /* what is written of it is of no use without its end */
    file.at = NULL;
}

/* Whether this node's lines come now: if so the lock is held. */
static bool begin_part(int (*lock)(pthread_mutex_t *))
{
    bool is_written = true;

    if (!trace.node || lock(&file.lock))
        return false;
    if (file.at && trace.slices > 1 && file.part != trace.slice + 1)
        is_written = fprintf(file.at, "# slice %u of %u\n", trace.slice, trace.slices) >= 0;
    file.part = trace.slice + 1;
    if (!is_written)
        give_up(errno);
    if (file.at)
        return true;
    (void)pthread_mutex_unlock(&file.lock);
    (void)postmig_node_trace(&trace.node->handle, false); /* no line waits then */
    trace.node = NULL;
    return false;
}

static void end_part(void)
{
    (void)pthread_mutex_unlock(&file.lock);
}

void trace_open(const char *path)
{
    int made = path ? open(path, O_WRONLY | O_CREAT | O_TRUNC | O_CLOEXEC | O_NONBLOCK, 0666) : -1;

    if (!path)
        return;
    file.at = made < 0 ? NULL : fdopen(made, "w");
    if (!file.at)
        refuse_errno(errno, "%s", path);
    (void)setvbuf(file.at, NULL, _IOFBF, FILE_BYTES); /* a smaller buffer is as right */
}

static void give_up_part(int error)
{
    if (!begin_part(pthread_mutex_lock))
        return;
    give_up(error);
    end_part();
}

/* `head`: what the node's lines begin with. */
static void begin(struct node *node, const char *head, uint32_t processors)
{
    free(trace.epochs);
    trace.epochs = NULL;
    trace.resumes = trace.written = trace.lines = trace.moments = 0;
    sums_begin_again();
    trace.node = node;
    node_do(postmig_node_trace(&node->handle, true));
    if (!begin_part(pthread_mutex_lock))
        return;
    if (fprintf(file.at, "%s# cpus %u\n", head, processors) < 0)
        give_up(errno);
    end_part();
}

void trace_begin(struct node *node, uint32_t processors, uint32_t slice, uint32_t slices)
{
    trace.slice = slice;
    trace.slices = slices;
    if (file.at)
        begin(node, "", processors);
}

void trace_begin_again(struct node *node, uint32_t processors)
{
    if (trace.node)
        begin(node, "# anew\n", processors);
}

void trace_resumed(uint32_t epoch)
{
    uint32_t *epochs;

    if (!trace.node)
        return;
    epochs = realloc(trace.epochs, (trace.resumes + 1) * sizeof *epochs);
    if (!epochs) {
        give_up_part(ENOMEM);
        return;
    }
    trace.epochs = epochs;
    trace.epochs[trace.resumes++] = epoch;
}

/* After the line of a Resume that was taken. (It has no epoch where the program ends just then.) */
static bool write_epoch(const char *line)
{
    if (!strstr(line, "=> took resume\n") || trace.written == trace.resumes)
        return true;
    return fprintf(file.at, "# epoch %u\n", trace.epochs[trace.written++]) >= 0;
}

/* False if none waits, and once the trace has ended. */
static bool write_line(void)
{
    char line[LINE_BYTES + 1];
    size_t length = 0;

    node_expect(postmig_node_trace_take(&trace.node->handle, (uint8_t *)line, LINE_BYTES, &length),
                "postmig_node_trace_take");
    line[length] = 0;
    if (fwrite(line, 1, length, file.at) != length || !write_epoch(line)) {
        give_up(errno);
        return false;
    }
    trace.lines += length != 0;
    return length != 0;
}

void trace_moment(const char *what, uint64_t at)
{
    if (!trace.node || trace.moments == MOST_MOMENTS)
        return;
    trace.moment[trace.moments].what = what;
    trace.moment[trace.moments++].at = at;
}

static bool write_moments(void)
{
    bool is_written = true;

    for (uint32_t i = 0; i < trace.moments; i++)
        is_written &= fprintf(file.at, "# %s %" PRIu64 "\n", trace.moment[i].what, trace.moment[i].at) >= 0;
    return is_written;
}

void trace_bound(void)
{
    size_t waiting = 0;

    if (!trace.node)
        return;
    node_expect(postmig_node_trace_count(&trace.node->handle, &waiting), "postmig_node_trace_count");
    if (waiting <= MOST_WAITING || !begin_part(pthread_mutex_trylock)) /* (another slice may be writing for long) */
        return;
    while (waiting-- > MOST_WAITING && write_line())
        continue;
    end_part();
}

void trace_end(void)
{
    uint64_t before = kernel_thread_time(), sooner = trace.lines;
    bool is_whole;

    if (!begin_part(pthread_mutex_lock))
        return;
    while (write_line())
        continue;
    if (file.at && (!write_moments() || !sums_write(file.at) || fflush(file.at)))
        give_up(errno);
    is_whole = file.at;
    end_part();
    trace.node = NULL;
    free(trace.epochs);
    trace.epochs = NULL;
    if (is_whole)
        log_figures("trace lines=%" PRIu64 " sooner=%" PRIu64 " took=%" PRIu64 "\n", trace.lines, sooner,
                    kernel_thread_time() - before);
}
