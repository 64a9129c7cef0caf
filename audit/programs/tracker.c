/*
 * Asynchronous tracking: write protection that the kernel itself takes away (WP_ASYNC), and PAGEMAP_SCAN, which finds
 * the pages that were written.
 *
 *     pages threads touches   of the area
 *     rounds                  scans
 */
#include <fcntl.h>
#include <stdatomic.h>
#include <stdlib.h>
#include <string.h>
#include <sys/ioctl.h>
#include <unistd.h>

#include "common.h"
#include "object.h"

#define REGIONS 512

static long pages, threads, touches, rounds;
static char *area;
static atomic_bool *was_stored;

static void *store(void *thread)
{
    struct random random = random_of((uint64_t)(long)thread + 1);

    for (long i = 0; i < touches; i++) {
        uint64_t number = random_below(&random, (uint64_t)pages);

        *(volatile uint64_t *)(area + number * PAGE) = 1;
        atomic_store(&was_stored[number], true);
    }
    return NULL;
}

/* Counts the pages that were written, and protects them again. */
static uint64_t scan(int pagemap)
{
    static struct page_region regions[REGIONS];
    struct pm_scan_arg call = {
        .size = sizeof call,
        .flags = PM_SCAN_WP_MATCHING,
        .start = address(area),
        .end = address(area) + (uint64_t)pages * PAGE,
        .vec = address(regions),
        .vec_len = REGIONS,
        .category_mask = PAGE_IS_WRITTEN,
        .return_mask = PAGE_IS_WRITTEN,
    };
    uint64_t found = 0;

    while (call.start < call.end) {
        long count = ioctl(pagemap, PAGEMAP_SCAN, &call);

        if (count < 0)
            cannot("PAGEMAP_SCAN");
        for (long i = 0; i < count; i++)
            found += (regions[i].end - regions[i].start) / PAGE;
        call.start = call.walk_end;
    }
    return found;
}

static void run_round(int pagemap)
{
    uint64_t stored = 0;
    struct crew crew;

    for (long i = 0; i < pages; i++)
        atomic_store(&was_stored[i], false);
    crew_start(&crew, threads, store);
    crew_join(&crew);
    for (long i = 0; i < pages; i++)
        stored += atomic_load(&was_stored[i]);
    if (scan(pagemap) != stored)
        fail("the scan finds other pages than the %llu that were written", (unsigned long long)stored);
}

int main(int argc, char **argv)
{
    int object, pagemap;

    options_begin(argc, argv);
    pages = option("pages", 512);
    threads = option("threads", 3);
    touches = option("touches", 200);
    rounds = option("rounds", 4);
    options_end();
    area = map_pages((size_t)pages);
    was_stored = calloc((size_t)pages, sizeof *was_stored);
    pagemap = open("/proc/self/pagemap", O_RDONLY | O_CLOEXEC);
    if (!was_stored || pagemap < 0)
        fail("no memory, or no pagemap");
    object = object_open(UFFD_FEATURE_WP_ASYNC | UFFD_FEATURE_WP_UNPOPULATED | UFFD_FEATURE_PAGEFAULT_FLAG_WP);
    object_register(object, area, (size_t)pages * PAGE, UFFDIO_REGISTER_MODE_WP);
    object_protect(object, area, (size_t)pages * PAGE);
    for (long i = 0; i < rounds; i++)
        run_round(pagemap);
    object_close(object);
    free(was_stored);
    return close(pagemap);
}
