/* Messages of the kernel become commands of the node's processors, and its acts become calls of the kernel. */
#include "watch.h"

#include <errno.h>
#include <stdlib.h>
#include <string.h>

#include "kernel.h"
#include "log.h"

#define MOST_MESSAGES 16u
#define MOST_READS 64u

void watch_open(struct watch *watch, struct node *node, struct guest *guest, struct handed *handed)
{
    memset(watch, 0, sizeof *watch);
    watch->node = node;
    watch->guest = guest;
    watch->handed = handed;
    watch->userfault = handed ? handed->userfault : kernel_open_userfault();
    watch->places = plan_processors(&guest->plan);
    for (uint32_t i = 0; i < watch->places; i++)
        watch->place[i].thread = i;
    watch_slice(watch, 0, guest->plan.pages);
}

void watch_slice(struct watch *watch, uint32_t first, uint32_t pages)
{
    watch->memory = watch->handed ? NULL : watch->guest->memory + (size_t)first * PAGE_BYTES;
    watch->first = first;
    watch->pages = pages;
}

size_t watch_bytes(const struct watch *watch)
{
    return (size_t)watch->pages * PAGE_BYTES;
}

bool watch_shares(const struct watch *watch, uint32_t first, uint32_t count)
{
    return guest_shares(watch->guest, watch->first + first - LOW_PAGE, count);
}

void watch_keep_times(struct watch *watch)
{
    watch->asked_at = calloc(watch->pages, sizeof *watch->asked_at);
    if (!watch->asked_at)
        refuse("no memory for the times of requests");
}

/* When a page of the source was asked for. */
static uint64_t *time_of(struct watch *watch, uint64_t origin)
{
    uint64_t page = origin / PAGE_BYTES - LOW_PAGE;

    require(watch->asked_at && page < watch->pages);
    return &watch->asked_at[page];
}

uint64_t watch_asked_at(struct watch *watch, uint64_t origin)
{
    uint64_t *asked = time_of(watch, origin), then;

    if (!watch->unanswered)
        return 0; /* (the entry is far from all that is in the caches) */
    then = *asked;
    *asked = 0;
    watch->unanswered -= then != 0;
    return then;
}

/* When the first of those who wait for the page has begun its access. (In another process that is not known.) */
static uint64_t waited_since(const struct watch *watch, uint64_t address)
{
    uint64_t since = kernel_now();

    for (const struct place *it = watch->place; it < watch->place + watch->places && !watch->handed; it++)
        if (it->asleep == address && guest_access_begun(watch->guest, it->thread) < since)
            since = guest_access_begun(watch->guest, it->thread);
    return since;
}

static void note_request(struct watch *watch, uint64_t address, uint64_t origin)
{
    uint64_t *asked = time_of(watch, origin);

    if (*asked)
        return; /* another thread has asked for it */
    *asked = waited_since(watch, address);
    watch->unanswered++;
    watch->requests++;
}

void watch_go_first(const char *side, bool is_wanted)
{
    if (is_wanted)
        log_event("%s: priority over the guest's threads: %s", side, kernel_go_first());
}

char *watch_page(const struct watch *watch, uint64_t address)
{
    uint64_t page = address / PAGE_BYTES - LOW_PAGE;

    if (address / PAGE_BYTES < LOW_PAGE || page >= watch->pages)
        refuse("page 0x%llx is not the guest's", (unsigned long long)(address / PAGE_BYTES));
    return watch->handed ? handed_page(watch->handed, page) : watch->memory + page * PAGE_BYTES;
}

/* The node's address of the page at an address of the guest's process. */
static uint64_t address_of(const struct watch *watch, uint64_t at)
{
    uint64_t page = watch->handed ? handed_number(watch->handed, at) : (at - (uintptr_t)watch->memory) / PAGE_BYTES;

    return (page + LOW_PAGE) * PAGE_BYTES;
}

/* Of handed memory, what is known of the copy of the page at an address of the node. */
static enum kept kept_at(const struct watch *watch, uint64_t address)
{
    uint64_t page = address / PAGE_BYTES - LOW_PAGE;

    require(page < watch->pages);
    return watch->handed ? (enum kept)watch->handed->kept[page] : NOT_KEPT;
}

void watch_unexpected(int error, const char *call, uint64_t address)
{
    if (error == ESRCH)
        lose("the process of the guest has ended");
    refuse_errno(error, "%s of page 0x%llx: the node expects another answer", call,
                 (unsigned long long)(address / PAGE_BYTES));
}

void watch_add(struct watch *all, const struct watch *one)
{
    all->faults += one->faults;
    all->events += one->events;
    all->roused += one->roused;
    all->again += one->again;
    all->needless += one->needless;
    all->cleared += one->cleared;
    all->requests += one->requests;
}

bool watch_has_sleeper(const struct watch *watch)
{
    return watch_sleepers(watch) > 0;
}

uint32_t watch_sleepers(const struct watch *watch)
{
    uint32_t count = watch->lates;

    for (const struct place *it = watch->place; it < watch->place + watch->places; it++)
        count += it->asleep != 0;
    return count;
}

static bool is_within(const struct watch *watch, const struct uffd_msg *fault, uint64_t start, uint64_t end)
{
    uint64_t address = address_of(watch, fault->arg.pagefault.address);

    return start <= address && address < end;
}

/* Pages of this range were woken: threads that found no place fault again, if they must. */
static void forget_late(struct watch *watch, uint64_t start, uint64_t end)
{
    uint32_t left = 0;

    for (uint32_t i = 0; i < watch->lates; i++)
        if (!is_within(watch, &watch->late[i], start, end))
            watch->late[left++] = watch->late[i];
    watch->lates = left;
}

void watch_forget(struct watch *watch, uint32_t first, uint32_t count)
{
    forget_late(watch, (uint64_t)first * PAGE_BYTES, (uint64_t)(first + count) * PAGE_BYTES);
}

void watch_wake(struct watch *watch, uint64_t address)
{
    for (uint32_t i = 0; i < watch->places; i++) {
        postmig_effect effect;

        if (watch->place[i].asleep != address)
            continue;
        node_do(node_retry(watch->node, i, &effect));
        if (effect.kind != POSTMIG_DID_ANSWER)
            refuse("a processor sleeps again on page 0x%llx", (unsigned long long)(address / PAGE_BYTES));
        watch->place[i].asleep = 0;
    }
    forget_late(watch, address, address + PAGE_BYTES);
    watch->is_behind |= watch->lates > 0; /* a place may be free */
}

/* Wakes who waits for a page that the node calls present. The kernel is asked whether it is: a page of which the
   REMOVE was read may have been cleared since. */
static int wake_present(struct watch *watch, uint64_t address)
{
    char *at = watch_page(watch, address);
    int error;

    if (kept_at(watch, address) == KEPT)
        return handed_install(watch->handed, address / PAGE_BYTES - LOW_PAGE);
    error = kernel_zero(watch->userfault, at);
    if (!error)
        watch->cleared++;
    return error == EEXIST ? kernel_wake(watch->userfault, at) : error;
}

/* PLACES */

/* Places that are free. Where there are more threads than places one of these stays free: for events, and for the
   threads that run. */
static uint32_t free_places(const struct watch *watch)
{
    uint32_t count = 0;

    for (const struct place *it = watch->place; it < watch->place + watch->places; it++)
        count += !it->asleep;
    return watch->guest->plan.threads > watch->places && count ? count - 1 : count;
}

/* The place that this thread has, or had last; else the first one that is free. NULL: it must wait for one. */
static struct place *place_of_thread(struct watch *watch, uint32_t thread)
{
    struct place *empty = NULL;

    for (struct place *it = watch->place; it < watch->place + watch->places; it++) {
        if (it->thread == thread && (it->asleep || free_places(watch)))
            return it;
        if (!it->asleep && !empty)
            empty = it;
    }
    if (!empty || !free_places(watch))
        return NULL;
    *empty = (struct place){ .thread = thread };
    return empty;
}

/* Threads of another process are unknown: it may be who waits for this page, or any that does not wait. */
static struct place *place_of_page(struct watch *watch, uint64_t address)
{
    struct place *empty = NULL;

    for (struct place *it = watch->place; it < watch->place + watch->places; it++) {
        if (it->asleep == address)
            return it;
        if (!it->asleep && !empty)
            empty = it;
    }
    return free_places(watch) ? empty : NULL;
}

/* The processor of an event: any that does not wait. */
static uint32_t idle_processor(const struct watch *watch)
{
    for (uint32_t i = 0; i < watch->places; i++)
        if (!watch->place[i].asleep)
            return i;
    refuse("an event, while all %u processors wait", watch->places);
}

/* FAULTS */

/* A page that one thread gives back while another uses it: from the read of the event until the first one continues
   the kernel still has what was there, and its faults are those of that. */
static bool is_shared(const struct watch *watch, uint64_t address)
{
    return watch_shares(watch, (uint32_t)(address / PAGE_BYTES), 1);
}

/* Whether an event that was read by the same call, and after the fault, removes its page. */
static bool is_removed_after(const struct uffd_msg *fault, const struct uffd_msg *end)
{
    uint64_t at = fault->arg.pagefault.address;

    for (const struct uffd_msg *it = fault + 1; it < end; it++)
        if (it->event == UFFD_EVENT_REMOVE && it->arg.remove.start <= at && at < it->arg.remove.end)
            return true;
    return false;
}

static void read_fault(struct watch *watch, struct place *place, uint64_t address, bool is_protection)
{
    postmig_effect effect;

    node_do(node_read(watch->node, &effect));
    if (effect.kind != POSTMIG_DID_READ_FAULT || effect.addr != address ||
        (effect.number != is_protection && !is_shared(watch, address)))
        refuse("page 0x%llx: the kernel reports a fault of a %s page, and the node does not",
               (unsigned long long)(address / PAGE_BYTES), is_protection ? "protected" : "missing");
    place->asleep = address;
}

/* At the source a page that was cleared late is zeros now, and the copy that was sent of it is not: for the node a
   store has changed it. Its thread sleeps until that is done. */
static void take_cleared(struct watch *watch, struct place *place, uint64_t address)
{
    postmig_command store = { .kind = POSTMIG_STORE, .width = 8, .addr = address };
    postmig_effect effect;
    int error = kernel_zero_asleep(watch->userfault, watch_page(watch, address));
    bool is_cleared = !error;

    watch->cleared += is_cleared;
    if (is_cleared)
        node_do(node_issue(watch->node, (uint32_t)(place - watch->place), &store, &effect));
    if (is_cleared && effect.kind == POSTMIG_DID_SLEEP) {
        read_fault(watch, place, address, true);
        return;
    }
    if (!error || error == EEXIST || error == EAGAIN)
        error = kernel_wake(watch->userfault, watch_page(watch, address));
    if (error)
        watch_unexpected(error, "UFFDIO_ZEROPAGE", address);
    forget_late(watch, address, address + PAGE_BYTES);
}

/* A fault that the node does not have: by its table the page is there. With a REMOVE of it that was read too the
   kernel may have cleared it by now, and a page that were installed would be there when the node takes the REMOVE. */
static void take_needless_fault(struct watch *watch, struct place *place, uint64_t address, bool is_removed)
{
    int error;

    /* (two threads may wait for one copy) */
    watch->needless += kept_at(watch, address) == NOT_KEPT && place->woken != address;
    place->woken = 0;
    if (watch->node->is_source && is_shared(watch, address) && !is_removed) {
        take_cleared(watch, place, address);
        return;
    }
    error = is_removed ? EAGAIN : wake_present(watch, address);
    if (error == EAGAIN) /* the thread is woken, and faults again if the page is still missing */
        error = kernel_wake(watch->userfault, watch_page(watch, address));
    if (error)
        watch_unexpected(error, "UFFDIO_WAKE", address);
    forget_late(watch, address, address + PAGE_BYTES);
}

static struct place *place_of(struct watch *watch, const struct uffd_msg *message, uint64_t address)
{
    if (watch->handed || watch->has_own_threads)
        return place_of_page(watch, address);
    return place_of_thread(watch, guest_thread_of(watch->guest, message->arg.pagefault.feat.ptid));
}

/* The fault waits for a place. */
static void keep_late(struct watch *watch, const struct uffd_msg *message)
{
    if (watch->lates == MOST_THREADS)
        refuse("a message of one more thread, while %u wait", MOST_THREADS);
    watch->late[watch->lates++] = *message;
}

static void take_fault(struct watch *watch, const struct uffd_msg *message, const struct uffd_msg *end)
{
    uint64_t address = address_of(watch, message->arg.pagefault.address), flags = message->arg.pagefault.flags;
    struct place *place = place_of(watch, message, address);
    postmig_command command = { .kind = flags & UFFD_PAGEFAULT_FLAG_WRITE ? POSTMIG_STORE : POSTMIG_LOAD,
                                .width = 8,
                                .addr = address };
    postmig_effect effect;

    if (!place) {
        keep_late(watch, message);
        return;
    }
    if (place->asleep == address) /* it was woken for another reason, and waits again */
        return;
    if (place->asleep)
        refuse("thread %u waits for page 0x%llx, and faults at page 0x%llx", place->thread,
               (unsigned long long)(place->asleep / PAGE_BYTES), (unsigned long long)(address / PAGE_BYTES));
    node_do(node_issue(watch->node, (uint32_t)(place - watch->place), &command, &effect));
    if (effect.kind == POSTMIG_DID_SLEEP)
        read_fault(watch, place, address, flags & UFFD_PAGEFAULT_FLAG_WP);
    else
        take_needless_fault(watch, place, address, is_removed_after(message, end));
}

/* Faults get places that have become free. Returns whether any did. */
static bool take_late(struct watch *watch)
{
    bool is_any = false;

    while (watch->lates && free_places(watch)) {
        struct uffd_msg first = watch->late[0];

        memmove(watch->late, watch->late + 1, --watch->lates * sizeof first);
        take_fault(watch, &first, &first + 1);
        is_any = true;
    }
    return is_any;
}

/* EVENTS */

static void wake_page(struct watch *watch, uint64_t address)
{
    int error = kernel_wake(watch->userfault, watch_page(watch, address));

    if (error)
        watch_unexpected(error, "UFFDIO_WAKE", address);
}

/* At the node the event wakes all who wait for a page of the range; in the kernel it wakes no one. Each makes its
   access again, and sleeps again: what the node says of the page now is then done for it. */
static void wake_range(struct watch *watch, uint64_t start, uint64_t end)
{
    for (uint32_t i = 0; i < watch->places; i++) {
        struct place *place = &watch->place[i];
        uint64_t address = place->asleep;
        postmig_effect effect;

        if (address < start || address >= end || !address)
            continue;
        wake_page(watch, address);
        node_do(node_retry(watch->node, i, &effect));
        if (effect.kind != POSTMIG_DID_SLEEP)
            refuse("a processor does not sleep on page 0x%llx, which was given back",
                   (unsigned long long)(address / PAGE_BYTES));
        read_fault(watch, place, address, false);
        place->woken = address;
        watch->roused++;
    }
    for (uint32_t i = 0; i < watch->lates; i++)
        if (is_within(watch, &watch->late[i], start, end))
            wake_page(watch, address_of(watch, watch->late[i].arg.pagefault.address));
    forget_late(watch, start, end);
}

static void take_remove(struct watch *watch, const struct uffd_msg *message)
{
    uint64_t start = address_of(watch, message->arg.remove.start),
             end = start + message->arg.remove.end - message->arg.remove.start;
    postmig_command command = { .kind = POSTMIG_DONTNEED, .addr = start, .length = end - start };
    postmig_effect effect;

    node_do(node_issue(watch->node, idle_processor(watch), &command, &effect));
    if (effect.kind != POSTMIG_DID_ENTER_CALL || effect.count != 1)
        refuse("page 0x%llx: the kernel has an event, and the node has none", (unsigned long long)(start / PAGE_BYTES));
    node_do(node_read(watch->node, &effect));
    if (effect.kind != POSTMIG_DID_READ_LAST || effect.number != UFFD_EVENT_REMOVE || effect.addr != start ||
        effect.other != end)
        refuse("page 0x%llx: the node has another event than the kernel", (unsigned long long)(start / PAGE_BYTES));
    if (watch->handed)
        handed_forget(watch->handed, start / PAGE_BYTES - LOW_PAGE, (end - start) / PAGE_BYTES);
    watch->events++;
    wake_range(watch, start, end);
}

/* One of the messages that one call has read, up to `end`. */
static void take_message(struct watch *watch, const struct uffd_msg *message, const struct uffd_msg *end)
{
    watch->faults += message->event == UFFD_EVENT_PAGEFAULT;
    if (message->event == UFFD_EVENT_PAGEFAULT)
        take_fault(watch, message, end);
    else if (message->event == UFFD_EVENT_REMOVE)
        take_remove(watch, message);
    else
        refuse("event 0x%x: a guest that moves or unmaps its memory is not handled here", message->event);
}

/* ACTS */

/* Returns 0 or an errno: EAGAIN too where the thread that gives the page back has not cleared it yet. */
static int zero_missing(struct watch *watch, uint64_t address)
{
    int error = kernel_zero(watch->userfault, watch_page(watch, address));

    return error == EEXIST && is_shared(watch, address) ? EAGAIN : error;
}

/* Does what the node says. Returns 0 or an errno. */
static int carry_out(struct watch *watch, const postmig_effect *effect)
{
    char *at = watch_page(watch, effect->addr);

    switch (effect->kind) {
    case POSTMIG_DID_UNPROTECT:
        return kernel_unprotect(watch->userfault, at, PAGE_BYTES);
    case POSTMIG_DID_ZERO:
        return zero_missing(watch, effect->addr);
    case POSTMIG_DID_WAKE:
        return wake_present(watch, effect->addr);
    case POSTMIG_DID_FORGET:
        return kernel_wake(watch->userfault, at);
    case POSTMIG_DID_REQUEST:
        return 0; /* a frame waits in the node */
    default:
        refuse("the node acts by an effect of kind %u", effect->kind);
    }
}

static void note_again(struct watch *watch)
{
    watch->again++;
    kernel_yield(watch->again_in_a_row++);
}

/* The first fault. False if there is none, or the kernel has an event that must be read first. */
static bool act(struct watch *watch)
{
    postmig_effect next, effect;
    uint32_t status;
    int error;

    node_try(status, node_next_act(watch->node, &next));
    if (status == POSTMIG_REFUSED_NOTHING_THERE)
        return false;
    node_expect(status, "next_act");
    error = carry_out(watch, &next);
    if (error == EAGAIN) {
        note_again(watch);
        return false;
    }
    if (error)
        watch_unexpected(error, "a call for a fault", next.addr);
    watch->again_in_a_row = 0;
    node_do(node_act(watch->node, &effect));
    if (!is_same_effect(&next, &effect))
        refuse("the node acts by an effect of kind %u, and has announced kind %u", effect.kind, next.kind);
    if (next.kind == POSTMIG_DID_REQUEST)
        note_request(watch, next.addr, next.other);
    else
        watch_wake(watch, next.addr);
    return true;
}

/* Returns whether there may be more. */
static bool read_some(struct watch *watch)
{
    struct uffd_msg messages[MOST_MESSAGES];
    size_t count = kernel_read(watch->userfault, messages, MOST_MESSAGES);

    for (size_t i = 0; i < count; i++)
        take_message(watch, &messages[i], messages + count);
    return count == MOST_MESSAGES;
}

void watch_read(struct watch *watch)
{
    watch->is_behind = true;
    while (read_some(watch))
        continue;
}

/* Returns whether there may be more. */
static bool handle_some(struct watch *watch)
{
    uint64_t again = watch->again;
    bool has_more = read_some(watch);

    do
        while (act(watch))
            continue;
    while (take_late(watch));
    return has_more || watch->again != again;
}

void watch_handle(struct watch *watch)
{
    watch->is_behind = true;
    for (uint32_t reads = 0; watch->is_behind && reads < MOST_READS; reads++)
        watch->is_behind = handle_some(watch);
}

/* It is registered before the kernel is asked what is present: afterwards pages become present by the node
   alone. */
void watch_enter_memory(struct watch *watch)
{
    const uint64_t low = (uint64_t)LOW_PAGE * PAGE_BYTES, pages = watch->pages;
    postmig_command map = { .kind = POSTMIG_MMAP,
                            .length = pages * PAGE_BYTES,
                            .prot = POSTMIG_PROT_READ_WRITE,
                            .place = POSTMIG_FIXED,
                            .target = low };
    uint64_t *entries = calloc(pages, sizeof *entries);
    postmig_effect effect;

    if (!entries)
        refuse("no memory for the pages' entries");
    kernel_register(watch->userfault, watch->memory, pages * PAGE_BYTES, true);
    kernel_pagemap(watch->memory, pages, entries);
    node_do(node_issue(watch->node, 0, &map, &effect));
    for (uint64_t i = 0; i < pages; i++) {
        postmig_command store = { .kind = POSTMIG_STORE, .width = 8, .addr = low + i * PAGE_BYTES };

        if (entry_is_present(entries[i]))
            node_do(node_issue(watch->node, 0, &store, &effect));
    }
    free(entries);
}

void watch_take_over(struct watch *watch)
{
    for (uint32_t i = 0; i < watch->places; i++) {
        postmig_processor processor;
        postmig_effect effect;

        node_do(postmig_node_processor(&watch->node->handle, (uint8_t)i, &processor));
        if (processor.state != POSTMIG_PROCESSOR_WOKEN)
            continue;
        node_do(node_retry(watch->node, i, &effect));
        if (effect.kind == POSTMIG_DID_SLEEP)
            read_fault(watch, &watch->place[i], processor.command.addr / PAGE_BYTES * PAGE_BYTES, false);
    }
}

void watch_finish(struct watch *watch)
{
    do
        watch_handle(watch);
    while (watch->is_behind);
}

void watch_again(struct watch *watch)
{
    note_again(watch);
    watch_read(watch);
}

bool watch_install_kept(struct watch *watch, uint32_t most)
{
    uint64_t page;

    for (; most && handed_next(watch->handed, &page); most--) {
        int error = handed_install(watch->handed, page);

        if (error == EAGAIN) {
            watch_again(watch);
            return true;
        }
        if (error)
            watch_unexpected(error, "UFFDIO_COPY of a copy that is kept", (page + LOW_PAGE) * PAGE_BYTES);
        watch->again_in_a_row = 0;
    }
    return watch->handed->kept_pages > 0;
}
