/* What the guest is owed: a copy is installed where the node says, and then the node makes that step. */
#include "dest.h"

#include <errno.h>

#include "kernel.h"
#include "log.h"

/* Installs the copy where the node says. False where the kernel has an event that must be read first. */
static bool install_copy(struct dest *dest, const postmig_effect *effect, const struct frame *frame)
{
    char *at = watch_page(&dest->watch, effect->addr);
    int error = kernel_copy(dest->watch.userfault, at, frame->page_bytes ? frame->pages : NULL);

    if (!error) {
        dest->watch.again_in_a_row = 0;
        return true;
    }
    if (error != EAGAIN)
        watch_unexpected(error, frame->page_bytes ? "UFFDIO_COPY" : "UFFDIO_ZEROPAGE", effect->addr);
    watch_again(&dest->watch);
    return false;
}

/* Who waits for this page continues. */
static void wake(struct dest *dest, uint64_t address, uint64_t origin)
{
    uint64_t asked = watch_asked_at(&dest->watch, origin);

    if (asked)
        samples_add(&dest->waits, kernel_now() - asked);
    watch_wake(&dest->watch, address);
}

/* The node makes the step that it has announced. */
static void make_install(struct dest *dest, const postmig_effect *next)
{
    postmig_effect effect;

    node_do(postmig_destination_install(&dest->node.handle, &effect));
    if (!is_same_effect(next, &effect))
        refuse("the node has installed another page than it has announced");
    if (effect.kind == POSTMIG_DID_INSTALL)
        wake(dest, effect.addr, effect.other);
}

/* The same for contiguous pages that one call has installed. */
static void make_installs(struct dest *dest, const postmig_effect *first, const uint64_t *origin, uint32_t count)
{
    postmig_effect last = *first, effect;
    uint32_t made = 0;

    last.addr += (uint64_t)(count - 1) * PAGE_BYTES;
    last.other = origin[count - 1];
    node_do(postmig_destination_install_run(&dest->node.handle, count, &effect, &made));
    if (!is_same_effect(&last, &effect))
        refuse("the node has installed another page than it has announced");
    for (uint32_t i = 0; i < count; i++)
        wake(dest, first->addr + (uint64_t)i * PAGE_BYTES, origin[i]);
}

void dest_install(struct dest *dest, const struct frame *frame)
{
    postmig_effect next;

    do
        node_do(postmig_destination_next_install(&dest->node.handle, &next));
    while (next.kind == POSTMIG_DID_INSTALL && !install_copy(dest, &next, frame));
    make_install(dest, &next);
}

/* How many of these pages of the source are owed one after the other, from where the node says that the first of
   them goes. */
static uint32_t contiguous_from(struct dest *dest, const postmig_effect *next, const uint64_t *origin, uint32_t most)
{
    const char *at = watch_page(&dest->watch, next->addr);
    uint32_t count = 1, home = 0;

    while (count < most &&
           postmig_destination_home(&dest->node.handle, (uint32_t)(origin[count] / PAGE_BYTES), &home) == POSTMIG_OK &&
           home == next->addr / PAGE_BYTES + count &&
           watch_page(&dest->watch, (uint64_t)home * PAGE_BYTES) == at + (size_t)count * PAGE_BYTES)
        count++;
    return count;
}

/* Installs the first copy that waits, and by the same call the contiguous ones after it. Returns how many were
   installed or dropped; it may be none where the kernel has an event that must be read first. */
static uint32_t install_some(struct dest *dest, const uint8_t *pages, const uint64_t *origin, uint32_t most)
{
    postmig_effect next;
    size_t installed = 0;
    int error;

    node_do(postmig_destination_next_install(&dest->node.handle, &next));
    if (next.kind != POSTMIG_DID_INSTALL) {
        make_install(dest, &next);
        return 1;
    }
    error = kernel_copy_pages(dest->watch.userfault, watch_page(&dest->watch, next.addr), pages,
                              contiguous_from(dest, &next, origin, most), &installed);
    if (installed)
        make_installs(dest, &next, origin, (uint32_t)installed);
    if (error && error != EAGAIN)
        watch_unexpected(error, "UFFDIO_COPY", next.addr + installed * PAGE_BYTES);
    if (error)
        watch_again(&dest->watch);
    else
        dest->watch.again_in_a_row = 0;
    return (uint32_t)installed;
}

void dest_install_all(struct dest *dest, const uint8_t *pages, const uint64_t *origin, uint32_t count)
{
    uint32_t done = 0;

    while (done < count)
        done += install_some(dest, pages + (size_t)done * PAGE_BYTES, origin + done, count - done);
}
