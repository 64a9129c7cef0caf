/* Copies that are kept until the guest runs. */
#include "dest.h"

#include <stdlib.h>
#include <string.h>

#include "kernel.h"
#include "sums.h"

#define RANGES_AT_A_TIME 1024u

static char *copy_of(const struct dest *dest, uint64_t address)
{
    char *at = watch_page(&dest->watch, address); /* it is the guest's */

    return dest->is_handed ? dest->handed.copies + address - (uint64_t)LOW_PAGE * PAGE_BYTES : at;
}

static void keep_zero(char *at)
{
    uint64_t first;

    /* (a load makes the page present, as the kernel's page of zeros) */
    memcpy(&first, at, sizeof first);
    if (first || memcmp(at, at + sizeof first, PAGE_BYTES - sizeof first))
        memset(at, 0, PAGE_BYTES);
}

void dest_keep_copies(struct dest *dest, const postmig_effect *effect, const struct frame *frame)
{
    uint64_t pages = frame->page_bytes ? frame->page_bytes / PAGE_BYTES : 1,
             last = effect->addr + (pages - 1) * PAGE_BYTES;
    char *at = copy_of(dest, effect->addr);

    (void)watch_page(&dest->watch, last); /* it is the guest's */
    dest->figures.kept += pages;
    if (dest->is_handed)
        handed_keep(&dest->handed, effect->addr / PAGE_BYTES - LOW_PAGE, pages);
    if (frame->page_bytes)
        memcpy(at, frame->pages, frame->page_bytes);
    else
        keep_zero(at);
    sums_installed(at, at, pages);
}

bool dest_is_of_guest(const struct dest *dest, const postmig_effect *effect)
{
    uint64_t first = effect->addr / PAGE_BYTES, pages = effect->kind == POSTMIG_DID_TAKE_RUN ? effect->count : 1;

    return (effect->kind != POSTMIG_DID_TAKE_ZERO && effect->kind != POSTMIG_DID_TAKE_RUN) ||
        (first >= LOW_PAGE && first - LOW_PAGE + pages <= dest->watch.pages);
}

bool dest_settle_copies(struct dest *dest, uint32_t owed)
{
    static _Thread_local struct kernel_range given[RANGES_AT_A_TIME];
    uint32_t end = LOW_PAGE + dest->watch.pages;
    postmig_pages run;
    size_t count = 0;

    for (uint32_t first = LOW_PAGE; first < end; first += run.count) {
        node_do(postmig_destination_pages(&dest->node.handle, first, &run));
        if (run.state == POSTMIG_PAGE_UNMAPPED || run.prot != POSTMIG_PROT_READ_WRITE || run.count > end - first)
            return false;
        owed -= run.state == POSTMIG_PAGE_OWED ? run.count : 0;
        if (run.state != POSTMIG_PAGE_PRESENT) {
            sums_forget(first, run.count);
            given[count++] =
                (struct kernel_range){ copy_of(dest, (uint64_t)first * PAGE_BYTES), (size_t)run.count * PAGE_BYTES };
            if (dest->is_handed)
                handed_forget(&dest->handed, first - LOW_PAGE, run.count);
        }
        if (count == RANGES_AT_A_TIME || first + run.count == end) {
            kernel_give_back(given, count);
            count = 0;
        }
    }
    return !owed;
}

void dest_check_owed(struct dest *dest)
{
    uint32_t pages = dest->watch.pages, home;
    uint64_t *entries;

    while (!(entries = calloc(pages, sizeof *entries)))
        lack(0, "no memory for the entries of %u pages", pages);
    if (!dest->is_handed)
        kernel_pagemap(dest->watch.memory, pages, entries);
    for (uint32_t i = 0; i < pages; i++) {
        bool is_there = dest->is_handed ? dest->handed.kept[i] != NOT_KEPT : entry_is_present(entries[i]);

        if (is_there && postmig_destination_home(&dest->node.handle, LOW_PAGE + i, &home) == POSTMIG_OK)
            refuse("page 0x%x is owed, and the destination has it", LOW_PAGE + i);
    }
    free(entries);
}
