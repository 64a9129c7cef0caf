/* What both nodes share: the calls of libpostmig by the kind of the node, and how their results are judged. */
#ifndef NODE_H
#define NODE_H

#include <postmig_node.h>
#include <stdbool.h>
#include <stdint.h>

#include "wire.h"

struct node {
    postmig_handle handle;
    bool is_source;
};

/* Makes a call of a node. Where there is no memory for it nothing was done, and it is made again later. */
#define node_try(status, call) \
    do                         \
        (status) = (call);     \
    while ((status) == POSTMIG_NO_MEMORY && node_lacks(#call))

/* The same for one that is expected to return POSTMIG_OK. */
#define node_do(call)                \
    do {                             \
        uint32_t status_;            \
                                     \
        node_try(status_, call);     \
        node_expect(status_, #call); \
    } while (0)

/* Has the program refuse a status that is not POSTMIG_OK, with the name of the call. */
void node_expect(uint32_t status, const char *call);

/* Waits until there may be memory for a call. Returns true. */
bool node_lacks(const char *call);

/* Bytes of a frame: its head, and those of its pages. The head begins with the header, which every frame has. */
#define HEADER_BYTES 12u
struct frame {
    const uint8_t *head, *pages;
    size_t head_bytes, page_bytes;
};

/* The frame at the front, once it is whole. Else `missing` bytes of it are still to be received. */
bool node_front(struct stream *stream, struct frame *frame, size_t *missing);

/* Whether it is a Resume, with which a new channel begins. */
bool node_is_resume(const struct frame *frame);

/* A frame without pages was sent, or taken: its sum is kept where sums are made. */
void node_sum_frame(bool is_sent, const struct frame *frame);

/* Why a frame was not taken, for such a status: the fault of its bytes by the decoder, or the node's refusal. */
const char *node_fault(uint32_t status, const struct frame *frame);

uint32_t node_issue(struct node *node, uint32_t cpu, const postmig_command *command, postmig_effect *effect);
uint32_t node_retry(struct node *node, uint32_t cpu, postmig_effect *effect);
uint32_t node_read(struct node *node, postmig_effect *effect);
uint32_t node_next_act(struct node *node, postmig_effect *effect);
uint32_t node_act(struct node *node, postmig_effect *effect);

/* Puts a Page into the stream, or a Zero where `bytes` is NULL; and a Run. What waits in the node goes before
   them. */
void node_put_page(struct stream *stream, uint32_t epoch, uint32_t page, const char *bytes);
void node_put_run(struct stream *stream, uint32_t epoch, uint32_t first, uint32_t count, const char *from);

/* Frames that wait in the node go into the stream. Returns their number. */
uint32_t node_send_frames(struct node *node, struct stream *stream);
/* They are lost with a channel. */
void node_drop_frames(struct node *node);

/* Whether a step has had the effect that was announced. */
bool is_same_effect(const postmig_effect *one, const postmig_effect *other);

#endif
