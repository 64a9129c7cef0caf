/* Which pages of a range are there: /proc/self/pagemap, right after the range was registered. */
#include <errno.h>
#include <fcntl.h>
#include <stddef.h>
#include <unistd.h>

#include "raw.h"
#include "recorder.h"

#define ENTRIES 256 /* 2 KiB of stack */
#define PRESENT 1u
#define SWAPPED 2u
#define PROTECTED 4u

static bool is_off;

void record_no_pages(void)
{
    is_off = true;
}

/* A run of pages with the same bits. */
struct run {
    uint64_t start, length;
    unsigned bits;
    int count; /* of the runs that were written */
};

static unsigned bits_of(uint64_t entry)
{
    return (entry >> 63 & 1 ? PRESENT : 0) | (entry >> 62 & 1 ? SWAPPED : 0) | (entry >> 57 & 1 ? PROTECTED : 0);
}

static void end_run(const struct call *call, struct run *run)
{
    char bytes[LINE_BYTES];
    struct text line = text_over(bytes, sizeof bytes);

    if (run->bits) {
        text_hex(&line, run->start);
        text_hex(&line, run->length);
        text_number(&line, run->bits);
        log_of_call(call, "have", &line);
        run->count++;
    }
    run->length = 0;
}

static void add_page(const struct call *call, struct run *run, uint64_t page, uint64_t size, uint64_t entry)
{
    unsigned bits = bits_of(entry);

    if (run->length && bits == run->bits) {
        run->length += size;
        return;
    }
    if (run->length)
        end_run(call, run);
    *run = (struct run){ page, size, bits, run->count };
}

/* Returns minus an errno where not all pages could be read. */
static long scan(const struct call *call, struct run *run, int pagemap, uint64_t start, uint64_t length)
{
    uint64_t entries[ENTRIES] = { 0 }, size = (uint64_t)sysconf(_SC_PAGESIZE), done = 0;

    while (done < length) {
        uint64_t left = (length - done) / size, count = left < ENTRIES ? left : ENTRIES;
        long bytes = (long)(count * sizeof *entries), place = (long)((start + done) / size * sizeof *entries);
        long got = raw_call(SYS_pread64, pagemap, (long)entries, bytes, place, 0, 0);

        if (got <= 0 || got % (long)sizeof *entries)
            return got < 0 ? got : -ENODATA;
        for (long i = 0; i < got / (long)sizeof *entries; i++, done += size)
            add_page(call, run, start + done, size, entries[i]);
    }
    if (run->length)
        end_run(call, run);
    return 0;
}

static void put_count(struct text *line, const void *of)
{
    const struct run *run = of;

    text_number(line, (unsigned)run->count);
}

void record_pages(uint64_t object, int fd, uint64_t start, uint64_t length)
{
    char bytes[LINE_BYTES];
    struct text line = text_over(bytes, sizeof bytes);
    struct run run = { 0, 0, 0, 0 };
    struct call call;
    long pagemap, result;

    if (is_off)
        return;
    text_word(&line, "scan");
    text_descriptor(&line, object, fd);
    text_hex(&line, start);
    text_hex(&line, length);
    call = log_begin(&line);
    pagemap = raw_call(SYS_openat, AT_FDCWD, (long)"/proc/self/pagemap", O_RDONLY | O_CLOEXEC, 0, 0, 0);
    result = raw_failed(pagemap) ? pagemap : scan(&call, &run, (int)pagemap, start, length);
    if (!raw_failed(pagemap))
        (void)raw_call(SYS_close, pagemap, 0, 0, 0, 0, 0); /* it was only read */
    end_call(&call, result < 0, (int)-result, result < 0 ? NULL : put_count, &run);
}
