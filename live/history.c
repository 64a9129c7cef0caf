/* The accesses of the guest's threads, line by line, in a file. */
#include "history.h"

#include <errno.h>
#include <inttypes.h>
#include <stdarg.h>
#include <stdatomic.h>
#include <stdio.h>
#include <string.h>

#include "kernel.h"
#include "live.h"
#include "log.h"

static struct {
    FILE *file; /* NULL: nothing is written */
    _Atomic uint64_t lines;
    _Atomic bool has_failed;
    char buffer[256u << 10];
} history;

/* Nothing of a migration depends on its history: one that cannot be written ends, and that is said once. */
static void give_up(int error)
{
    if (!atomic_exchange(&history.has_failed, true))
        log_event("the history ends after %" PRIu64 " lines: %s (%s)", atomic_load(&history.lines),
                  strerrorname_np(error), strerror(error));
}

void history_open(const char *path)
{
    if (!path)
        return;
    history.file = fopen(path, "we");
    if (!history.file)
        refuse_errno(errno, "%s", path);
    (void)setvbuf(history.file, history.buffer, _IOFBF, sizeof history.buffer); /* another buffer is as right */
    if (fputs("history 1\nclock tsc\n", history.file) < 0)
        give_up(errno);
}

bool history_is_open(void)
{
    return history.file;
}

/* The clock's value is in memory before the fence, and what comes after the fence is read or stored after it. */
uint64_t history_begin(void)
{
    volatile uint64_t now;

    if (!history.file)
        return 0;
    now = kernel_now();
    atomic_thread_fence(memory_order_seq_cst);
    return now;
}

/* After the operation, and later than its begin by this clock too. */
static uint64_t end_of(uint64_t begin)
{
    uint64_t end;

    atomic_thread_fence(memory_order_seq_cst);
    do
        end = kernel_now();
    while (end <= begin);
    return end;
}

static __attribute__((format(printf, 3, 4))) void add(uint32_t thread, uint64_t begin, const char *format, ...)
{
    uint64_t end = end_of(begin);
    bool is_written;
    va_list arguments;

    va_start(arguments, format);
    flockfile(history.file);
    is_written = fprintf(history.file, "%" PRIu32 " %" PRIu64 " %" PRIu64 " ", thread, begin, end) >= 0 &&
        vfprintf(history.file, format, arguments) >= 0;
    if (!is_written)
        give_up(errno);
    funlockfile(history.file);
    va_end(arguments);
    atomic_fetch_add(&history.lines, 1);
}

void history_load(uint32_t thread, uint64_t begin, uint64_t address, uint64_t value)
{
    if (history.file)
        add(thread, begin, "load 0x%" PRIx64 " 8 => value 0x%" PRIx64 "\n", address, value);
}

void history_store(uint32_t thread, uint64_t begin, uint64_t address, uint64_t value)
{
    if (history.file)
        add(thread, begin, "store 0x%" PRIx64 " 8 0x%" PRIx64 " => done\n", address, value);
}

void history_map(uint32_t thread, uint64_t begin, uint64_t address, uint64_t length)
{
    if (history.file)
        add(thread, begin, "mmap %" PRIu64 " rw fixed 0x%" PRIx64 " => at 0x%" PRIx64 "\n", length, address, address);
}

void history_give_back(uint32_t thread, uint64_t begin, uint64_t address, uint64_t length)
{
    if (history.file)
        add(thread, begin, "dontneed 0x%" PRIx64 " %" PRIu64 " => done\n", address, length);
}

void history_close(void)
{
    if (!history.file)
        return;
    if (!atomic_load(&history.has_failed) &&
        fprintf(history.file, "end %" PRIu64 "\n", atomic_load(&history.lines)) < 0)
        give_up(errno);
    if (fclose(history.file))
        give_up(errno);
    history.file = NULL;
}
