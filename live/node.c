/* Calls of either node. */
#include "node.h"

#include <stdio.h>
#include <string.h>

#include "live.h"
#include "sums.h"

#define TEXT_BYTES 64
#define TAG_RESUME 7u
#define MOST_OF_HEAD 64u /* bytes in front of those of pages */

/* The words for an answer of a call. */
static const char *answer_text(uint32_t status)
{
    static const char *const words[] = {
        [POSTMIG_NO_ROOM] = "no room",
        [POSTMIG_NOT_OPEN] = "no such node",
        [POSTMIG_NO_MEMORY] = "no memory for the node",
        [POSTMIG_NO_CPU] = "no such processor",
        [POSTMIG_NOT_A_FRAME] = "not the bytes of one frame that may come here",
        [POSTMIG_NOT_A_COMMAND] = "no command",
        [POSTMIG_NO_PAGE] = "no such page",
    };
    bool is_known = status < sizeof words / sizeof *words && words[status];
    static _Thread_local char text[TEXT_BYTES];
    uint8_t name[TEXT_BYTES / 2];
    size_t length = 0;

    if (status >= POSTMIG_REFUSED && postmig_refusal_name(status, name, sizeof name, &length) == POSTMIG_OK)
        (void)snprintf(text, sizeof text, "refused %.*s", (int)length, (const char *)name); /* it fits */
    else
        (void)snprintf(text, sizeof text, "%s", is_known ? words[status] : "no known answer"); /* it fits */
    return text;
}

/* Of a text that begins with its name, if it is that of a call. */
static int length_of_name(const char *call)
{
    return (int)strcspn(call, "(");
}

void node_expect(uint32_t status, const char *call)
{
    if (status != POSTMIG_OK)
        refuse("%.*s: %s", length_of_name(call), call, answer_text(status));
}

bool node_lacks(const char *call)
{
    lack(0, "%.*s: %s", length_of_name(call), call, answer_text(POSTMIG_NO_MEMORY));
    return true;
}

/* The frame in numbers, by the decoder of streams; or what that says of its bytes. */
static uint32_t decode(const struct frame *frame, postmig_frame *numbers)
{
    postmig_handle frames = POSTMIG_NONE;
    size_t written = 0;
    uint32_t status = postmig_frames_new(&frames);

    if (status == POSTMIG_OK)
        status = postmig_frames_feed(&frames, frame->head, frame->head_bytes);
    if (status == POSTMIG_OK && frame->page_bytes)
        status = postmig_frames_feed(&frames, frame->pages, frame->page_bytes);
    if (status == POSTMIG_OK)
        status = postmig_frames_next(&frames, numbers, NULL, 0, &written);
    postmig_free(&frames);
    return status == POSTMIG_NO_ROOM ? POSTMIG_OK : status;
}

void node_sum_frame(bool is_sent, const struct frame *frame)
{
    postmig_frame numbers = { 0 };
    uint32_t status;

    if (!sums_are_made())
        return;
    node_try(status, decode(frame, &numbers));
    node_expect(status, "the decoder");
    sums_frame(is_sent, numbers.epoch, frame->head, frame->head_bytes);
}

bool node_is_resume(const struct frame *frame)
{
    postmig_frame numbers = { 0 };

    return decode(frame, &numbers) == POSTMIG_OK && numbers.tag == TAG_RESUME;
}

const char *node_fault(uint32_t status, const struct frame *frame)
{
    static _Thread_local char text[2 * TEXT_BYTES];
    postmig_frame numbers = { 0 };
    uint32_t fault = status == POSTMIG_NOT_A_FRAME ? decode(frame, &numbers) : POSTMIG_OK;
    const char *name = fault == POSTMIG_BAD_TAG ? "stream fault BadTag"
        : fault == POSTMIG_BAD_LENGTH           ? "stream fault BadLength"
        : fault == POSTMIG_BAD_FIELD            ? "stream fault BadField"
                                                : answer_text(status);

    /* it fits */
    (void)snprintf(text, sizeof text, "a frame of the other side, with the tag 0x%02x: %s", frame->head[1], name);
    return text;
}

bool node_front(struct stream *stream, struct frame *frame, size_t *missing)
{
    size_t length = stream_length(stream), needed = HEADER_BYTES;

    frame->head = stream_front(stream);
    if (postmig_frame_lengths(frame->head, length, &frame->head_bytes, &frame->page_bytes) == POSTMIG_OK)
        needed = frame->head_bytes + frame->page_bytes;
    *missing = length < needed ? needed - length : 0;
    if (!*missing)
        frame->pages = frame->head + frame->head_bytes;
    return !*missing;
}

uint32_t node_issue(struct node *node, uint32_t cpu, const postmig_command *command, postmig_effect *effect)
{
    return node->is_source ? postmig_source_issue(&node->handle, (uint8_t)cpu, command, effect)
                           : postmig_destination_issue(&node->handle, (uint8_t)cpu, command, effect);
}

uint32_t node_retry(struct node *node, uint32_t cpu, postmig_effect *effect)
{
    return node->is_source ? postmig_source_retry(&node->handle, (uint8_t)cpu, effect)
                           : postmig_destination_retry(&node->handle, (uint8_t)cpu, effect);
}

uint32_t node_read(struct node *node, postmig_effect *effect)
{
    return node->is_source ? postmig_source_read(&node->handle, effect)
                           : postmig_destination_read(&node->handle, effect);
}

uint32_t node_next_act(struct node *node, postmig_effect *effect)
{
    return node->is_source ? postmig_source_next_act(&node->handle, effect)
                           : postmig_destination_next_act(&node->handle, effect);
}

uint32_t node_act(struct node *node, postmig_effect *effect)
{
    return node->is_source ? postmig_source_act(&node->handle, effect) : postmig_destination_act(&node->handle, effect);
}

void node_put_page(struct stream *stream, uint32_t epoch, uint32_t page, const char *bytes)
{
    const size_t room = PAGE_BYTES + MOST_OF_HEAD;
    uint8_t *out = stream_room(stream, room);
    size_t length = 0;

    if (!bytes) {
        node_do(postmig_zero_frame(epoch, page, out, room, &length));
        sums_sent(page, NULL, 1);
        stream->out.end += length;
        return;
    }
    node_do(postmig_page_head(epoch, page, out, room, &length));
    memcpy(out + length, bytes, PAGE_BYTES);
    sums_sent(page, out + length, 1); /* (a guest that runs may have changed the page since) */
    stream->out.end += length + PAGE_BYTES;
}

void node_put_run(struct stream *stream, uint32_t epoch, uint32_t first, uint32_t count, const char *from)
{
    const size_t bytes = (size_t)count * PAGE_BYTES, room = bytes + MOST_OF_HEAD;
    uint8_t *out = stream_room(stream, room);
    size_t length = 0;

    node_do(postmig_run_head(epoch, first, count, out, room, &length));
    memcpy(out + length, from, bytes);
    sums_sent(first, out + length, count);
    stream->out.end += length + bytes;
}

/* What waits in the node may be several frames. */
static void sum_sent(const uint8_t *at, size_t length)
{
    struct frame frame = { .head = at };

    for (; length && postmig_frame_lengths(frame.head, length, &frame.head_bytes, &frame.page_bytes) == POSTMIG_OK;
         frame.head += frame.head_bytes) {
        node_sum_frame(true, &frame);
        length -= frame.head_bytes;
    }
}

/* Takes what waits. False if nothing does. */
static bool send_frame(struct node *node, struct stream *stream)
{
    size_t room = PAGE_BYTES, written = 0;
    uint32_t status;

    for (;;) {
        uint8_t *at = stream_room(stream, room);

        node_try(status, postmig_node_frame(&node->handle, at, room, &written));
        if (status != POSTMIG_NO_ROOM)
            break;
        room = written;
    }
    if (status == POSTMIG_NO_FRAME)
        return false;
    node_expect(status, "postmig_node_frame");
    sum_sent(stream_room(stream, room), written);
    stream->out.end += written;
    return true;
}

uint32_t node_send_frames(struct node *node, struct stream *stream)
{
    uint32_t count = 0;

    while (send_frame(node, stream))
        count++;
    return count;
}

void node_drop_frames(struct node *node)
{
    struct stream nowhere = NO_STREAM;

    (void)node_send_frames(node, &nowhere); /* the count is not needed */
    stream_free(&nowhere);
}

bool is_same_effect(const postmig_effect *one, const postmig_effect *other)
{
    return one->kind == other->kind && one->addr == other->addr && one->other == other->other &&
        one->count == other->count;
}
