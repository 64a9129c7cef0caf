/* A sum of each page that a copy is about to read: the file beside the log that audit/sums compares. */
#include <fcntl.h>
#include <stdint.h>
#include <string.h>
#include <unistd.h>

#include "memory.h"
#include "raw.h"
#include "recorder.h"

#define FACTOR UINT64_C(0x9e3779b97f4a7c15)
#define PART_WORDS 128 /* what is read at once: signal stacks are small */
#define PATH_BYTES 4096

static char sums_path[PATH_BYTES];

void sums_open(const char *path)
{
    size_t length = strlen(path);

    if (length < sizeof sums_path)
        memcpy(sums_path, path, length + 1);
}

/* sum * FACTOR + word, for each word of the page: any one word that differs gives another sum. */
static bool sum_of_page(uint64_t page, uint64_t bytes, uint64_t *sum)
{
    uint64_t part[PART_WORDS];

    *sum = 0;
    for (uint64_t at = 0; at < bytes; at += sizeof part) {
        if (!memory_copy(part, (const void *)(uintptr_t)(page + at), sizeof part))
            return false;
        for (size_t i = 0; i < PART_WORDS; i++)
            *sum = *sum * FACTOR + part[i];
    }
    return true;
}

/* PROCESS THREAD CALL ADDRESS SUM: one write to a file that is open for appending, as a line of the log is. */
static void write_sum(long file, const struct call *call, uint64_t address, uint64_t sum)
{
    char bytes[LINE_BYTES];
    struct text line = text_over(bytes, sizeof bytes);

    text_number(&line, (uint64_t)call->pid);
    text_number(&line, (uint64_t)call->tid);
    text_number(&line, call->number);
    text_hex(&line, address);
    text_hex(&line, sum);
    text_end(&line);
    /* a line that is missing is counted by audit/sums */
    (void)raw_call(SYS_write, file, (long)bytes, (long)line.length, 0, 0, 0);
}

void record_sums(const struct call *call, uint64_t destination, uint64_t source, uint64_t length)
{
    uint64_t size = (uint64_t)sysconf(_SC_PAGESIZE), sum;
    long file;

    if (!sums_path[0])
        return;
    file = raw_call(SYS_openat, AT_FDCWD, (long)sums_path, O_WRONLY | O_APPEND | O_CLOEXEC, 0, 0, 0);
    for (uint64_t at = 0; !raw_failed(file) && length - at >= size && sum_of_page(source + at, size, &sum); at += size)
        write_sum(file, call, destination + at, sum);
    if (!raw_failed(file))
        (void)raw_call(SYS_close, file, 0, 0, 0, 0, 0);
}
