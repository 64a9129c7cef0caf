/* Receives pages apart from their heads. */
#include "batch.h"

#include <stdlib.h>
#include <string.h>
#include <sys/uio.h>

#include "live.h"

#define FRAME_BYTES ((size_t)PAGE_HEAD_BYTES + PAGE_BYTES)

void batch_open(struct batch *batch)
{
    batch->heads = calloc(MOST_OF_BATCH, sizeof *batch->heads);
    batch->pages = aligned_alloc(PAGE_BYTES, (size_t)MOST_OF_BATCH * PAGE_BYTES);
    batch_clear(batch);
    if (!batch->heads || !batch->pages)
        refuse("no memory for %u pages", MOST_OF_BATCH);
}

void batch_clear(struct batch *batch)
{
    batch->first = 0;
    batch->length = 0;
}

static uint8_t *page_at(const struct batch *batch, uint32_t number)
{
    return batch->pages + (size_t)(batch->first + number) * PAGE_BYTES;
}

const uint8_t *batch_pages(const struct batch *batch)
{
    return page_at(batch, 0);
}

/* A part of a frame has room for the rest of it, if only `*there` bytes are there. */
static size_t add_rest(struct iovec *parts, size_t count, uint8_t *at, size_t bytes, size_t *there)
{
    size_t few = *there < bytes ? *there : bytes;

    *there -= few;
    if (few < bytes)
        parts[count++] = (struct iovec){ at + few, bytes - few };
    return count;
}

bool batch_receive(struct batch *batch, struct stream *stream, size_t missing, size_t *got)
{
    struct iovec parts[1 + 2 * MOST_OF_BATCH];
    size_t count = 0, there = batch->length, few = 0;
    bool is_whole;

    require(!batch->first && batch->length < FRAME_BYTES);
    if (!there && missing)
        parts[count++] = (struct iovec){ stream_space(stream, missing), few = missing };
    for (uint32_t i = 0; i < MOST_OF_BATCH; i++) {
        count = add_rest(parts, count, batch->heads[i], PAGE_HEAD_BYTES, &there);
        count = add_rest(parts, count, page_at(batch, i), PAGE_BYTES, &there);
    }
    is_whole = stream_receive_parts(stream, parts, count, got);
    few = *got < few ? *got : few;
    stream_fill(stream, few);
    batch->length += *got - few;
    return is_whole;
}

/* Whether the frame's head is there, and is that of a Page. */
static bool is_page(const struct batch *batch, uint32_t number)
{
    const uint8_t *head = batch->heads[batch->first + number];
    size_t head_bytes, page_bytes;

    return batch->length >= number * FRAME_BYTES + PAGE_HEAD_BYTES &&
        postmig_frame_lengths(head, PAGE_HEAD_BYTES, &head_bytes, &page_bytes) == POSTMIG_OK &&
        head_bytes == PAGE_HEAD_BYTES && page_bytes == PAGE_BYTES;
}

/* What has the header of the Page before it is a Page. */
static bool is_next_page(const struct batch *batch, uint32_t number)
{
    const uint8_t *head = batch->heads[batch->first + number];

    return number && !memcmp(head, head - PAGE_HEAD_BYTES, HEADER_BYTES);
}

bool batch_frame(const struct batch *batch, uint32_t number, struct frame *frame)
{
    if (batch->length < (number + 1) * FRAME_BYTES || !(is_next_page(batch, number) || is_page(batch, number)))
        return false;
    *frame = (struct frame){ batch->heads[batch->first + number], page_at(batch, number), PAGE_HEAD_BYTES, PAGE_BYTES };
    return true;
}

/* The part of a frame that is there goes to the front. */
static void move_part(struct batch *batch)
{
    memcpy(batch->heads[0], batch->heads[batch->first], PAGE_HEAD_BYTES);
    memcpy(batch->pages, page_at(batch, 0), batch->length - PAGE_HEAD_BYTES);
    batch->first = 0;
}

void batch_take(struct batch *batch, uint32_t count, struct stream *stream)
{
    require(count * FRAME_BYTES <= batch->length);
    batch->first += count;
    batch->length -= count * FRAME_BYTES;
    if (!is_page(batch, 0))
        batch_return(batch, stream);
    else if (batch->first && batch->length < FRAME_BYTES)
        move_part(batch);
}

/* Copies at most `length` bytes of a part. Returns how many are left. */
static size_t put_back(struct stream *stream, const uint8_t *part, size_t part_bytes, size_t length)
{
    size_t few = length < part_bytes ? length : part_bytes;

    memcpy(stream_space(stream, few), part, few);
    stream_fill(stream, few);
    return length - few;
}

void batch_return(struct batch *batch, struct stream *stream)
{
    size_t length = batch->length;

    for (uint32_t number = 0; length; number++) {
        length = put_back(stream, batch->heads[batch->first + number], PAGE_HEAD_BYTES, length);
        length = put_back(stream, page_at(batch, number), PAGE_BYTES, length);
    }
    batch_clear(batch);
}
