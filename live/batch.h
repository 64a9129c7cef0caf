/* Pages that arrive one after the other: their heads are received apart from their bytes, so that these are
   contiguous and several pages go to the kernel by one call. A page that has arrived in part stays here for the
   rest of it. */
#ifndef BATCH_H
#define BATCH_H

#include <stdbool.h>
#include <stddef.h>
#include <stdint.h>

#include "node.h"
#include "wire.h"

#define MOST_OF_BATCH 32u
#define PAGE_HEAD_BYTES 16u

struct batch {
    uint8_t (*heads)[PAGE_HEAD_BYTES];
    uint8_t *pages;
    uint32_t first; /* the frames before this one were taken */
    size_t length;  /* bytes that are there from it on, of a head and its page in turns */
};

void batch_open(struct batch *batch);

/* Once no whole Page is there: receives what follows the bytes that are. If there are none, the `missing` bytes of
   the stream's first frame go to the stream, and only what follows them comes here. `got`: how many bytes have
   arrived. False once the connection is broken. */
bool batch_receive(struct batch *batch, struct stream *stream, size_t missing, size_t *got);

/* The frame with this number; they are asked for from 0 on. False if it is not there whole, or is no Page: then
   neither are those after it. */
bool batch_frame(const struct batch *batch, uint32_t number, struct frame *frame);

/* The bytes of its pages, which are contiguous. */
const uint8_t *batch_pages(const struct batch *batch);

/* The first `count` of its frames were taken. What follows them stays if it is a Page, or a part of one; else it is
   returned. */
void batch_take(struct batch *batch, uint32_t count, struct stream *stream);

/* All goes to the end of what the stream has received. */
void batch_return(struct batch *batch, struct stream *stream);

/* Drops all. */
void batch_clear(struct batch *batch);

#endif
