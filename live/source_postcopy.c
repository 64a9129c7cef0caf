/* Post-copy: what is asked for, and the rest in the background. */
#include "source.h"

#include "kernel.h"

#define PUSHES_AT_A_TIME 16u

static uint32_t push_by_node(struct source *source, uint32_t page, bool is_urgent)
{
    postmig_effect effect;

    return is_urgent ? postmig_source_push_urgent(&source->node.handle, source->state.epoch, page, &effect)
                     : postmig_source_push(&source->node.handle, source->state.epoch, page, &effect);
}

static bool push(struct source *source, uint32_t page, bool is_urgent)
{
    uint32_t status;

    node_try(status, push_by_node(source, page, is_urgent));
    if (status == POSTMIG_REFUSED_NOT_REMAINING)
        return false;
    node_expect(status, "push of a page");
    source_put_page(source, is_urgent ? &source->urgent : &source->main, page,
                    source_has_zeros(source, page) ? NULL : source_page(source, page));
    source->cursor = page + 1;
    source->figures.pushed++;
    return true;
}

/* Pages that were asked for go first. They wait in the node while the other side does not take what is sent. */
static void serve(struct source *source)
{
    bool is_urgent = stream_is_open(&source->urgent);

    while (stream_unsent(is_urgent ? &source->urgent : &source->main) < MOST_UNSENT) {
        postmig_effect effect;
        uint32_t status;

        node_try(status, postmig_source_serve(&source->node.handle, &effect));
        if (status == POSTMIG_REFUSED_NOTHING_THERE)
            return;
        node_expect(status, "postmig_source_serve");
        if (push(source, (uint32_t)(effect.addr / PAGE_BYTES), is_urgent))
            source->figures.served++;
    }
}

/* How many pages may be pushed now without a request. */
static uint32_t pushes_now(const struct source *source)
{
    uint64_t rate = slices_share(source->slices, source->slices->push_rate),
             pushed = source->figures.pushed - source->figures.served, due;

    if (!source->package_is_sent)
        return 0;
    if (!rate)
        return PUSHES_AT_A_TIME;
    due = (kernel_now() - source->figures.stopped) / 1000 * rate / 1000000;
    return due <= pushed ? 0 : due - pushed < PUSHES_AT_A_TIME ? (uint32_t)(due - pushed) : PUSHES_AT_A_TIME;
}

/* The next page that remains, from the cursor on, and again from the first. Once a whole pass has met zeros alone,
   these are due. */
static bool next_page(struct source *source, uint32_t *page)
{
    uint32_t status = postmig_source_next_remaining(&source->node.handle, source->cursor, page);

    if (status == POSTMIG_NO_PAGE) {
        source->zeros_are_due = !source->has_pushed;
        source->has_pushed = false;
        status = postmig_source_next_remaining(&source->node.handle, LOW_PAGE, page);
    }
    if (status != POSTMIG_NO_PAGE)
        node_expect(status, "postmig_source_next_remaining");
    return status == POSTMIG_OK;
}

/* Pages of zeros come last, so that the others are contiguous. Returns the number of pages that were pushed,
   or left for later. */
static uint32_t push_in_background(struct source *source)
{
    uint32_t count = 0, page, most = pushes_now(source);

    for (; count < most && stream_unsent(&source->main) < MOST_UNSENT && next_page(source, &page); count++) {
        if (!source->zeros_are_due && source_has_zeros(source, page)) {
            source->cursor = page + 1;
            continue;
        }
        if (!push(source, page, false))
            refuse("page 0x%x remains, and is not to be pushed", page);
        source->has_pushed = true;
    }
    return count;
}

static bool end_epoch(struct source *source)
{
    postmig_effect effect;
    uint32_t status;

    if (source->end_is_sent)
        return false;
    node_try(status, postmig_source_end(&source->node.handle, &effect));
    if (status == POSTMIG_REFUSED_PAGES_LEFT || status == POSTMIG_REFUSED_PHASE)
        return false; /* pages are left, or End was sent in this epoch */
    node_expect(status, "postmig_source_end");
    source->end_is_sent = true;
    source->figures.sent = kernel_now();
    return true;
}

bool postcopy_work(struct source *source)
{
    uint32_t pushed;

    serve(source);
    if (!stream_unsent(&source->main))
        source->package_is_sent = true;
    pushed = push_in_background(source);
    return end_epoch(source) || (pushed && stream_unsent(&source->main) < MOST_UNSENT);
}
