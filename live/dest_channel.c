/* The channel of a destination: the source's two connections, who is let in at the door, and how a channel is
   lost. */
#include "dest.h"

#include "beat.h"
#include "kernel.h"
#include "log.h"

const char *dest_source(const struct dest *dest)
{
    return dest->options->feed ? "the command" : door_source(&dest->door);
}

/* Once the source may be gone for good the node does not notice that: a Resume says so, if it is not. */
static void lose_channel(struct dest *dest, const char *why)
{
    uint32_t phase = dest->state.phase;
    postmig_effect effect;

    if (kernel_now() - dest->opened > 4 * beat_limit(dest->options->silence, dest->silences))
        dest->silences = 0;
    stream_close(&dest->main);
    stream_close(&dest->urgent);
    batch_clear(&dest->batch);
    dest->pending = PENDING_NOTHING;
    dest->expects = FIRST_FRAME;
    if (dest->claim == CLAIM_TOLD)
        dest->claim = CLAIM_BOUND;
    node_drop_frames(&dest->node);
    if (dest->options->feed)
        dest->slices->is_over = true;
    log_event("destination: %s, epoch %u: %s", dest_source(dest), dest->source.epoch, why);
    dest->figures.breaks += phase != POSTMIG_DESTINATION_ENDED;
    dest->figures.late_breaks += phase == POSTMIG_DESTINATION_RUNNING;
    if (phase == POSTMIG_DESTINATION_ADVISED || phase == POSTMIG_DESTINATION_DISCARDING ||
        phase == POSTMIG_DESTINATION_RUNNING)
        node_do(postmig_destination_notice(&dest->node.handle, &effect));
    dest_look(dest);
}

/* Another source takes the place of one that has not switched: nothing is left of that. */
static void begin_anew(struct dest *dest)
{
    if (stream_is_open(&dest->main))
        lose_channel(dest, "another source takes the place of one that sends nothing");
    dest->claim = CLAIM_NONE;
    live_keep(dest_free);
    dest_renew_node(dest);
}

/* The connection of a source takes the place of the one that it had. */
static void take_channel(struct dest *dest, struct stream *fresh, const struct hello *source)
{
    const struct options *options = dest->options;
    struct hello own = dest->own;

    own.epoch = source->epoch;
    if (!dest->slice && !slices_serve(dest->slices, source->instance)) { /* the last slice was bound just now */
        stream_close(fresh);
        return;
    }
    if (dest->source.instance && source->instance != dest->source.instance)
        begin_anew(dest);
    else if (stream_is_open(&dest->main))
        lose_channel(dest, "the source has come again");
    stream_open(&dest->main, fresh->file, fresh->tls,
                dest->channels < options->cuts[dest->slice] ? &options->cut[dest->slice][dest->channels].main
                                                            : &fresh->cut);
    hello_write(&own, stream_room(&dest->main, HELLO_BYTES));
    dest->main.out.end += HELLO_BYTES;
    dest->main.beats = source->flags & HELLO_BEATS;
    dest->channels++;
    dest->opened = kernel_now();
    log_event("destination: %s, epoch %u: connected", dest_source(dest), source->epoch);
    dest->source = *source;
    dest->slices->last_frame = dest->last_turn;
    if (!dest->main.beats || !(source->flags & HELLO_BINDS))
        dest_claim(dest, CLAIM_BOUND); /* nothing says when it switches */
}

/* What becomes of other sources: the one that is served may have switched, or sends its pages; or it has sent
   nothing for a moment, or for longer. */
static enum others others_at_door(const struct dest *dest)
{
    uint64_t last = dest->slices->last_frame;
    /* (a turn may have been long) */
    bool is_idle = dest->last_turn > last && dest->last_turn - last > (uint64_t)dest->options->silence * 1000000000u;

    if (slices_are_bound(dest->slices))
        return OTHERS_GO;
    if (dest->slice) /* the first slice has decided */
        return OTHERS_COME;
    if (stream_is_open(&dest->main) && dest->claim >= CLAIM_SENDS && !is_idle)
        return OTHERS_GO;
    return is_idle ? OTHERS_COME : OTHERS_WAIT;
}

/* An urgent connection is of this epoch alone. One of a later epoch waits at the door. */
static void take_urgent_channel(struct dest *dest)
{
    const struct options *options = dest->options;
    uint32_t epoch = dest->state.epoch;
    struct wanted wanted = { URGENT, epoch, epoch, dest->source.instance, others_at_door(dest) };
    struct hello hello;

    if (stream_is_open(&dest->urgent) || dest->source.epoch != epoch || dest->expects == FIRST_FRAME)
        return;
    if (!door_take(&dest->door, &wanted, &dest->urgent, &hello))
        return;
    dest->urgent.beats = dest->main.beats;
    if (dest->channels <= options->cuts[dest->slice])
        dest->urgent.cut = options->cut[dest->slice][dest->channels - 1].urgent;
}

/* A source that comes again has a later epoch. */
void dest_look_at_door(struct dest *dest)
{
    uint32_t last = dest->source.epoch;
    struct wanted wanted = { MAIN, last < UINT32_MAX ? last + 1 : last, last < UINT32_MAX ? UINT32_MAX : 0,
                             dest->source.instance, others_at_door(dest) };
    struct stream fresh = NO_STREAM;
    struct hello hello;

    door_look(&dest->door);
    if (door_take(&dest->door, &wanted, &fresh, &hello))
        take_channel(dest, &fresh, &hello);
    door_pass(&dest->door, dest->source.instance);
    if (stream_is_open(&dest->main))
        take_urgent_channel(dest);
    else if (dest->options->feed && !door_has_newcomer(&dest->door)) {
        log_event("destination: the command has ended, or has said no hello that fits");
        dest->slices->is_over = true;
    }
}

/* Sends and receives. False once either connection is broken. */
static bool exchange(struct dest *dest)
{
    if (!dest_take_urgent(dest) || !dest_take_main(dest))
        return false;
    (void)node_send_frames(&dest->node, &dest->main); /* the count is not needed */
    return stream_send(&dest->main);
}

static bool is_silent(const struct dest *dest, struct stream *stream, uint64_t took)
{
    return stream_is_open(stream) && stream->beats && !dest->options->feed &&
        beat_listen(stream, took) > beat_limit(dest->options->silence, dest->silences);
}

void dest_use_channel(struct dest *dest)
{
    uint64_t now = kernel_now(), took = now - dest->last_turn;

    dest->last_turn = now;
    if (!stream_is_open(&dest->main))
        return;
    if (!exchange(dest)) {
        lose_channel(dest,
                     dest->state.phase == POSTMIG_DESTINATION_ENDED ? "the source has ended it"
                                                                    : "the connection is broken");
        return;
    }
    beat_send(&dest->main, now);
    if (is_silent(dest, &dest->main, took) || is_silent(dest, &dest->urgent, took)) {
        lose_channel(dest, "nothing was heard on a connection");
        dest->silences++;
    }
}
