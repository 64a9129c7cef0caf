/* Pages of the guest become frames of a stream. */
#include "source.h"

#include <string.h>

#include "kernel.h"

char *source_page(const struct source *source, uint32_t page)
{
    return watch_page(&source->watch, (uint64_t)page * PAGE_BYTES);
}

bool source_is_zero(const char *page)
{
    uint64_t first;

    memcpy(&first, page, sizeof first);
    return !first && !memcmp(page, page + sizeof first, PAGE_BYTES - sizeof first);
}

enum contents { UNKNOWN, ZEROS, BYTES };

bool source_has_zeros(struct source *source, uint32_t page)
{
    uint8_t *contents = &source->contents[page - LOW_PAGE];

    if (*contents == UNKNOWN)
        *contents = source_is_zero(source_page(source, page)) ? ZEROS : BYTES;
    return *contents == ZEROS;
}

const char *source_bytes(const struct source *source, uint32_t first, uint32_t count)
{
    if (!watch_shares(&source->watch, first, count))
        return source_page(source, first);
    return kernel_peek(source_page(source, first), (size_t)count * PAGE_BYTES, source->run) ? source->run : NULL;
}

void source_put_page(struct source *source, struct stream *stream, uint32_t page, const char *bytes)
{
    node_put_page(stream, source->state.epoch, page, bytes);
    source->figures.zeros += !bytes;
}
