/* What comes of the source: frames are taken by the node, and what it says of them is done. */
#include "dest.h"

#include "beat.h"
#include "kernel.h"
#include "log.h"
#include "trace.h"

#define OTHER_MEMORY "a frame of the source speaks of other memory than its hello"

void dest_claim(struct dest *dest, enum claim claim)
{
    if (claim <= dest->claim)
        return;
    dest->claim = claim;
    if (claim < CLAIM_BOUND)
        return;
    (void)slice_binds(dest->slices, dest->slice, dest->source.instance); /* a promise was asked for before */
    live_keep(dest_bound);
}

void dest_renew_node(struct dest *dest)
{
    node_do(postmig_destination_new((uint8_t)dest->own.processors, &dest->node.handle));
    trace_begin_again(&dest->node, dest->own.processors);
    if (dest->claim < CLAIM_BOUND)
        dest->claim = CLAIM_NONE;
    dest_look(dest);
}

/* The memory is registered before the first thread runs: by a monitor, before it was handed over. The threads run
   once all slices have arrived here. */
static void run_guest(struct dest *dest)
{
    if (atomic_load(&dest->guest->is_started))
        refuse("the guest runs, and a slice of it has no Package yet");
    if (dest->options->checks_owed)
        dest_check_owed(dest);
    watch_take_over(&dest->watch);
    if (dest->is_handed) {
        handed_say(&dest->handed, HANDED_RUN);
    } else {
        kernel_register(dest->watch.userfault, dest->watch.memory, watch_bytes(&dest->watch), false);
        trace_moment("package", kernel_now());
        slice_has_package(dest->slices);
    }
    dest->figures.run = kernel_now();
    dest->figures.busy = kernel_thread_time();
}

/* What the memory and the guest need once the node has taken a frame. */
static void carry_out(struct dest *dest, const postmig_effect *effect, const struct frame *frame)
{
    switch (effect->kind) {
    case POSTMIG_DID_TAKE_ZERO: /* of a Page too */
    case POSTMIG_DID_TAKE_RUN:
        if (dest->state.has_run)
            dest_install(dest, frame);
        else
            dest_keep_copies(dest, effect, frame);
        break;
    case POSTMIG_DID_TAKE_DISCARD:
        dest->figures.discarded += effect->count;
        dest->figures.discard = kernel_now();
        break;
    case POSTMIG_DID_TAKE_PACKAGE:
        run_guest(dest);
        break;
    case POSTMIG_DID_TAKE_END:
        dest->figures.end = kernel_now();
        slice_completes(dest->slices, dest->slice);
        dest->figures.busy = kernel_thread_time() - dest->figures.busy;
        if (dest->main.cut.post != NEVER)
            dest->main.cut.out = dest->main.cut.post;
        break;
    default:
        break; /* Advise; Resume */
    }
}

/* A source that resumes has dropped the last channel, whether or not that was seen here. */
static void notice_if_resumed(struct dest *dest, const struct frame *frame)
{
    postmig_effect effect;

    if (dest->expects == FIRST_FRAME && dest->state.phase != POSTMIG_DESTINATION_PAUSED && node_is_resume(frame))
        node_do(postmig_destination_notice(&dest->node.handle, &effect));
}

/* Hostile bytes, or a source that is wrong: the channel is broken, and the node is as it was. The right source may
   still come. */
static bool refuse_frame(struct dest *dest, const char *reason)
{
    log_event("destination: %s, epoch %u: %s", dest_source(dest), dest->source.epoch, reason);
    dest->expects = NOTHING_MORE;
    return false;
}

/* False for an End that must wait until all urgent frames have been taken. */
static bool take(struct dest *dest, const struct frame *frame)
{
    postmig_effect effect;
    uint32_t status;

    notice_if_resumed(dest, frame);
    node_try(status, postmig_destination_take(&dest->node.handle, frame->head, frame->head_bytes, &effect));
    if (status == POSTMIG_REFUSED_URGENT_FIRST)
        return false;
    if (status != POSTMIG_OK)
        return refuse_frame(dest, node_fault(status, frame));
    if (!dest->state.has_run && !dest_is_of_guest(dest, &effect))
        return refuse_frame(dest, OTHER_MEMORY);
    if (effect.kind == POSTMIG_DID_TAKE_PACKAGE) {
        dest->figures.package = kernel_now();
        if (!dest_settle_copies(dest, effect.count)) { /* the guest has not run here, and what the node would run is not
                                                          this guest */
            dest_renew_node(dest);
            return refuse_frame(dest, OTHER_MEMORY);
        }
    }
    /* (with a Discard or a Package it has switched, whatever it has asked for) */
    dest_claim(dest,
               effect.kind == POSTMIG_DID_TAKE_DISCARD || effect.kind == POSTMIG_DID_TAKE_PACKAGE ? CLAIM_BOUND
                                                                                                  : CLAIM_SENDS);
    carry_out(dest, &effect, frame);
    dest->slices->last_frame = dest->last_turn;
    if (effect.kind != POSTMIG_DID_TAKE_ZERO && effect.kind != POSTMIG_DID_TAKE_RUN) {
        node_sum_frame(false, frame);
        dest_look(dest);
    }
    dest->expects = dest->state.has_run ? PAGES : WHOLE_FRAMES;
    if (effect.kind == POSTMIG_DID_TAKE_RESUME)
        trace_resumed(dest->state.epoch);
    return true;
}

static bool take_urgent(struct dest *dest, const struct frame *frame)
{
    postmig_effect effect;
    uint32_t status;

    node_try(status, postmig_destination_take_urgent(&dest->node.handle, frame->head, frame->head_bytes, &effect));
    if (status != POSTMIG_OK)
        return refuse_frame(dest, node_fault(status, frame));
    dest_install(dest, frame);
    return true;
}

/* Pages of the batch, a few at most: so that faults are handled in between. All of these are taken before the first
   one is installed. */
static void take_pages(struct dest *dest)
{
    uint64_t origin[FRAMES_AT_A_TIME] = { 0 };
    struct frame frame;
    uint32_t count = 0;

    for (; count < FRAMES_AT_A_TIME && batch_frame(&dest->batch, count, &frame); count++) {
        postmig_effect effect;
        uint32_t status;

        node_try(status, postmig_destination_take(&dest->node.handle, frame.head, frame.head_bytes, &effect));
        if (status != POSTMIG_OK) {
            (void)refuse_frame(dest, node_fault(status, &frame)); /* those before it are installed */
            break;
        }
        origin[count] = effect.addr;
    }
    dest_install_all(dest, batch_pages(&dest->batch), origin, count);
    batch_take(&dest->batch, count, &dest->main);
}

/* As it asks for before it switches. */
static void promise(struct dest *dest)
{
    if (!slice_binds(dest->slices, dest->slice, dest->source.instance)) /* another source serves the other slices */
        return;
    if (dest->claim < CLAIM_TOLD)
        beat_put(&dest->main, BINDS);
    dest_claim(dest, CLAIM_TOLD);
}

/* As node_front, and what is said between frames is heard. */
static bool front_frame(struct dest *dest, struct stream *stream, struct frame *frame, size_t *missing)
{
    if (beat_take(stream) && stream == &dest->main)
        promise(dest);
    return node_front(stream, frame, missing);
}

/* Into the batch where pages are expected. Of the frame at the front of the stream its header must be there: it
   says how much is `missing`. */
static bool receive_main(struct dest *dest, size_t missing)
{
    size_t length = stream_length(&dest->main), got;
    bool is_whole;

    if (dest->expects != PAGES || (length && length < HEADER_BYTES))
        return stream_receive(&dest->main, missing);
    is_whole = batch_receive(&dest->batch, &dest->main, length ? missing : 0, &got);
    dest_has_pending(dest, got ? PENDING_PAGES : PENDING_NOTHING);
    return is_whole;
}

/* Takes frames of the stream, a few at most. Returns whether more of them may be there that can be taken. */
static bool take_some(struct dest *dest, struct stream *stream)
{
    struct frame frame;
    size_t missing;

    for (uint32_t i = 0; i < FRAMES_AT_A_TIME; i++) {
        if (!front_frame(dest, stream, &frame, &missing) ||
            !(stream == &dest->urgent ? take_urgent : take)(dest, &frame))
            return false;
        stream_take(stream, frame.head_bytes + frame.page_bytes);
    }
    return true;
}

/* The frames of the stream are taken; more is received only where no whole one is at its front. */
static bool take_frames(struct dest *dest, struct stream *stream)
{
    struct frame frame;
    size_t missing = 0;
    bool is_whole = true;

    if (!front_frame(dest, stream, &frame, &missing) && stream->is_ready)
        is_whole = stream == &dest->urgent ? stream_receive(stream, missing) : receive_main(dest, missing);
    dest_has_pending(dest, take_some(dest, stream) ? PENDING_FRAMES : PENDING_NOTHING);
    return is_whole && dest->expects != NOTHING_MORE;
}

/* What the batch has follows what the stream has: its pages are taken once nothing is left there, and else go there
   too. */
static void take_batch(struct dest *dest)
{
    if (stream_length(&dest->main))
        batch_return(&dest->batch, &dest->main);
    else
        take_pages(dest);
}

bool dest_take_main(struct dest *dest)
{
    struct frame frame;
    size_t missing;
    bool is_whole = true;

    if (batch_frame(&dest->batch, 0, &frame))
        dest_has_pending(dest, PENDING_PAGES);
    else
        is_whole = take_frames(dest, &dest->main);
    if (dest->expects == PAGES)
        take_batch(dest);
    dest_has_pending(dest, front_frame(dest, &dest->main, &frame, &missing) ? PENDING_FRAMES : PENDING_NOTHING);
    return is_whole && dest->expects != NOTHING_MORE;
}

bool dest_take_urgent(struct dest *dest)
{
    return !stream_is_open(&dest->urgent) || take_frames(dest, &dest->urgent);
}
