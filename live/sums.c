/* Sums of pages and frames. */
#include "sums.h"

#include <inttypes.h>
#include <stdlib.h>
#include <string.h>

#include "live.h"

#define MOST_PLACES 64u
#define LANES 2u
typedef uint64_t lanes __attribute__((vector_size(LANES * sizeof(uint64_t))));

struct frame_sum {
    bool is_sent;
    uint32_t epoch;
    uint64_t sum;
};

static _Thread_local struct {
    uint32_t pages;
    uint64_t *page; /* of each the last one; 0: it was neither sent nor installed */
    struct frame_sum *frame;
    size_t frames, room;
    struct {
        const char *at;
        size_t bytes;
        uint32_t first;
    } place[MOST_PLACES];
    uint32_t places;
} sums;

static uint64_t mixed(uint64_t lane, uint64_t word)
{
    lane ^= word;
    return (lane << 29 | lane >> 35) * 0x9e3779b97f4a7c15ull;
}

/* Never 0. By Fletcher's sums of 64-bit words, in registers, so that a page costs little more than a copy of it. */
static uint64_t sum_of(const void *bytes, size_t length)
{
    lanes once = { 0 }, other_once = { 0 }, twice = { 0 }, other_twice = { 0 }, words[2];
    uint64_t sum = length;
    const char *at = bytes;

    for (; length >= sizeof words; length -= sizeof words, at += sizeof words) {
        memcpy(words, at, sizeof words);
        once += words[0];
        other_once += words[1];
        twice += once;
        other_twice += other_once;
    }
    memset(words, 0, sizeof words);
    memcpy(words, at, length);
    for (uint32_t i = 0; i < LANES; i++) {
        sum = mixed(mixed(mixed(sum, once[i]), twice[i]), words[0][i]);
        sum = mixed(mixed(mixed(sum, other_once[i]), other_twice[i]), words[1][i]);
    }
    return sum ? sum : 1;
}

void sums_begin(uint32_t pages)
{
    sums.pages = pages;
    sums.page = calloc(pages, sizeof *sums.page);
    if (!sums.page)
        refuse("no memory for the sums of %u pages", pages);
}

void sums_end(void)
{
    free(sums.page);
    free(sums.frame);
    memset(&sums, 0, sizeof sums);
}

bool sums_are_made(void)
{
    return sums.page;
}

void sums_begin_again(void)
{
    if (sums.page)
        memset(sums.page, 0, sums.pages * sizeof *sums.page);
    sums.frames = 0;
}

void sums_place(const char *at, size_t bytes, uint32_t first)
{
    if (!sums.page)
        return;
    if (sums.places == MOST_PLACES)
        refuse("sums are made of %u ranges of memory at most", MOST_PLACES);
    sums.place[sums.places].at = at;
    sums.place[sums.places].bytes = bytes;
    sums.place[sums.places++].first = first;
}

static bool are_pages(uint32_t first, size_t count)
{
    return first >= LOW_PAGE && count <= sums.pages && first - LOW_PAGE <= sums.pages - count;
}

void sums_sent(uint32_t page, const void *bytes, size_t pages)
{
    static const char zeros[PAGE_BYTES];

    require(!sums.page || are_pages(page, pages));
    for (size_t i = 0; sums.page && i < pages; i++)
        sums.page[page - LOW_PAGE + i] = sum_of(bytes ? (const char *)bytes + i * PAGE_BYTES : zeros, PAGE_BYTES);
}

void sums_installed(const char *at, const void *bytes, size_t pages)
{
    for (uint32_t i = 0; i < sums.places; i++)
        if (at >= sums.place[i].at && at < sums.place[i].at + sums.place[i].bytes)
            sums_sent(sums.place[i].first + (uint32_t)((size_t)(at - sums.place[i].at) / PAGE_BYTES), bytes, pages);
}

void sums_forget(uint32_t page, uint32_t pages)
{
    require(!sums.page || are_pages(page, pages));
    for (uint32_t i = 0; sums.page && i < pages; i++)
        sums.page[page - LOW_PAGE + i] = 0;
}

void sums_frame(bool is_sent, uint32_t epoch, const uint8_t *bytes, size_t length)
{
    if (!sums.page)
        return;
    if (sums.frames == sums.room) {
        size_t room = sums.room ? 2 * sums.room : 64;
        struct frame_sum *more;

        while (!(more = realloc(sums.frame, room * sizeof *more)))
            lack(0, "no memory for the sums of %zu frames", room);
        sums.frame = more;
        sums.room = room;
    }
    sums.frame[sums.frames++] = (struct frame_sum){ is_sent, epoch, sum_of(bytes, length) };
}

bool sums_write(FILE *file)
{
    for (size_t i = 0; i < sums.frames; i++)
        if (fprintf(file, "# sum %s %" PRIu32 " %016" PRIx64 "\n", sums.frame[i].is_sent ? "sent" : "taken",
                    sums.frame[i].epoch, sums.frame[i].sum) < 0)
            return false;
    for (uint32_t i = 0; sums.page && i < sums.pages; i++)
        if (sums.page[i] &&
            fprintf(file, "# sum page 0x%" PRIx64 " %016" PRIx64 "\n", (uint64_t)(LOW_PAGE + i) * PAGE_BYTES,
                    sums.page[i]) < 0)
            return false;
    return true;
}
