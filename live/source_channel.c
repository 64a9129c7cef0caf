/* The channel of a source, which may break at any byte: its two connections, and what comes back. */
#include "source.h"

#include <errno.h>
#include <stdio.h>
#include <string.h>
#include <unistd.h>

#include "beat.h"
#include "feed.h"
#include "kernel.h"
#include "log.h"

#define RECEIVED_ENDED 2u /* of a Recv */
/* bytes of a frame of the destination: a Recv has a number for each run of pages */
#define MOST_OF_BACK (8u << 20)
#define UNHEARD_TURNS 16u         /* between two looks at the urgent connection */
#define RETRY_NS 2000000u         /* between two tries to connect: at first, */
#define MOST_RETRY_NS 1000000000u /* and twice as long each time up to this, */
/* unless the last channel has carried this number of bytes, or lived for a second */
#define CALM_BYTES (32u << 10)

/* Who the destination is, for people. */
static const char *destination_of(const struct source *source)
{
    return source->options->feed ? "the command" : source->options->address.text;
}

/* Why there is no connection. It is written once, until a destination replies. */
static void note_break(struct source *source, const char *why, int error)
{
    char text[sizeof source->why];

    if (error)
        /* what does not fit is left out */
        (void)snprintf(text, sizeof text, "%s: %s (%s)", why, strerrorname_np(error), strerror(error));
    else
        (void)snprintf(text, sizeof text, "%s", why);
    if (tls_last_fault() && error == EPROTO)
        (void)snprintf(text, sizeof text, "TLS: %s", tls_last_fault()); /* it fits */
    if (!strcmp(text, source->why))
        return;
    memcpy(source->why, text, sizeof text);
    log_event("source: %s, epoch %u: %s", destination_of(source), source->state.epoch, text);
}

/* What came is no destination's. Before the switch the migration ends. After it another one may come. */
static void reject(struct source *source, const char *why)
{
    note_break(source, why, 0);
    source->is_refused = true;
    (void)slices_give_up(source->slices); /* else it waits for another one */
}

static void say_hello(const struct source *source, struct stream *stream, enum channel channel)
{
    struct hello hello = source->own;

    hello.channel = channel;
    hello.epoch = source->state.epoch;
    hello_write(&hello, stream_room(stream, HELLO_BYTES));
    stream->out.end += HELLO_BYTES;
}

static bool open_stream(struct source *source, struct stream *stream, enum channel channel, const struct cut *cut)
{
    int file = wire_connect(&source->options->address, source->options->buffer);
    struct tls *tls;

    if (file < 0 || !tls_new(&tls, file, TLS_CONNECTS)) {
        note_break(source, "no connection", errno);
        if (file >= 0)
            (void)close(file); /* nothing was written */
        return false;
    }
    stream_open(stream, file, tls, cut);
    say_hello(source, stream, channel);
    return true;
}

void channel_switched(struct source *source)
{
    struct cut *main_cut = &source->main.cut, *urgent_cut = &source->urgent.cut;

    main_cut->out = main_cut->post != NEVER ? main_cut->post : main_cut->out;
    urgent_cut->out = urgent_cut->post != NEVER ? urgent_cut->post : urgent_cut->out;
}

/* The program that takes the part of the destination. */
static void open_feed(struct source *source)
{
    static const struct cut never = NO_CUT;

    stream_open(&source->main, feed_start(source->options->feed), NULL, &never);
    say_hello(source, &source->main, MAIN);
    source->channels++;
}

static void open_channel(struct source *source)
{
    static const struct cuts never = NO_CUTS;
    const struct options *options = source->options;
    const struct cuts *cuts =
        source->channels < options->cuts[source->slice] ? &options->cut[source->slice][source->channels] : &never;

    if (!open_stream(source, &source->main, MAIN, &cuts->main))
        return;
    if (options->has_urgent && !open_stream(source, &source->urgent, URGENT, &cuts->urgent))
        stream_close(&source->main);
    else
        source->channels++;
    if (source->state.switched)
        channel_switched(source);
}

void channel_lose(struct source *source, const char *why, int error)
{
    postmig_effect effect;

    if (source->is_answered && (source->main.sent > CALM_BYTES || kernel_now() - source->opened > SECOND_NS))
        source->retry = 0;
    if (kernel_now() - source->opened > 4 * beat_limit(source->options->silence, source->silences))
        source->silences = 0;
    if (!source->is_refused)
        note_break(source, why, error);
    source->is_refused = false;
    stream_close(&source->main);
    stream_close(&source->urgent);
    node_drop_frames(&source->node);
    source->figures.breaks++;
    source->has_to_resume = true;
    source->is_answered = source->does_bind = source->has_asked = source->is_bound = false;
    source->end_is_sent = false;
    if (source->state.phase == POSTMIG_SOURCE_PRECOPY || source->state.phase == POSTMIG_SOURCE_STOPPED)
        node_do(postmig_source_notice(&source->node.handle, &effect));
    source_look(source);
    (void)slice_ready(source->slices, source->slice, 0);
    if (source->options->feed)
        source->slices->is_over = true;
}

void channel_connect(struct source *source)
{
    postmig_effect effect;
    uint64_t now = kernel_now();

    if (now < source->next_try)
        return;
    source->retry = !source->retry ? RETRY_NS : 2 * source->retry < MOST_RETRY_NS ? 2 * source->retry : MOST_RETRY_NS;
    source->next_try = now + source->retry;
    if (source->has_to_resume)
        node_do(postmig_source_resume(&source->node.handle, &effect));
    source->has_to_resume = false;
    source->opened = now;
    source_look(source);
    if (source->options->feed)
        open_feed(source);
    else
        open_channel(source);
}

/* FRAMES THAT COME BACK */

/* A destination that was started again knows nothing of a guest that may have run on the old one. */
static void take_hello(struct source *source)
{
    char text[MOST_OF_REASON + 32], reason[MOST_OF_REASON + 1];
    size_t length = stream_length(&source->main);
    struct hello hello = { 0 };

    if (source->is_answered || source->is_refused || !length)
        return;
    if (!hello_read(&hello, stream_front(&source->main), length < HELLO_BYTES ? (uint32_t)length : HELLO_BYTES) ||
        (length >= HELLO_BYTES && hello.epoch != source->state.epoch)) {
        reject(source, "who listens there is no destination");
        return;
    }
    if (length < HELLO_BYTES)
        return;
    if (*hello.reason || hello_unlike(&source->own, &hello, reason)) {
        /* it fits */
        (void)snprintf(text, sizeof text, "the destination refuses: %s", *hello.reason ? hello.reason : reason);
        reject(source, text);
        return;
    }
    if (source->slices->is_due && source->destination != hello.instance) {
        reject(source, "another destination listens there than at the switch");
        return;
    }
    source->destination = hello.instance;
    source->is_answered = true;
    source->main.beats = source->urgent.beats = hello.flags & HELLO_BEATS;
    source->does_bind = source->main.beats && hello.flags & HELLO_BINDS;
    *source->why = 0;
    stream_take(&source->main, HELLO_BYTES);
    log_event("source: %s, epoch %u: connected", destination_of(source), source->state.epoch);
}

static void take_back(struct source *source, size_t length)
{
    postmig_effect effect;
    uint32_t status;

    node_try(status, postmig_source_back(&source->node.handle, stream_front(&source->main), length, &effect));
    if (status != POSTMIG_OK) {
        reject(source,
               node_fault(status, &(struct frame){ .head = stream_front(&source->main), .head_bytes = length }));
        return;
    }
    node_sum_frame(false, &(struct frame){ .head = stream_front(&source->main), .head_bytes = length });
    stream_take(&source->main, length);
    if (effect.kind == POSTMIG_DID_TAKE_REQUEST) {
        source->last_request = source->last_turn;
        return;
    }
    source_look(source);
    if (effect.kind != POSTMIG_DID_TAKE_RECV)
        return;
    source->waited = 0;
    source->figures.lost_dones += effect.number == RECEIVED_ENDED;
    source->rounds = 0;
    source->round_pages = 0;
    source->package_is_sent = false;
    source->cursor = LOW_PAGE;
    source->has_pushed = source->zeros_are_due = false;
}

/* Whether the other side sends more than a frame of its kind has. */
static bool is_flooded(struct source *source, size_t length)
{
    bool is_so = source->is_answered && stream_length(&source->main) >= HEADER_BYTES && length > MOST_OF_BACK;

    if (is_so)
        reject(source, "a frame of the other side is longer than any that may come back");
    return is_so;
}

static void take_signs(struct source *source)
{
    source->is_bound |= beat_take(&source->main) && source->has_asked;
}

bool channel_binds(struct source *source)
{
    if (!source->does_bind || source->is_bound)
        return true;
    if (!source->has_asked)
        beat_put(&source->main, BINDS);
    source->has_asked = true;
    return false;
}

/* What came before the end of a connection is taken too: Done, for one. */
static bool hear(struct source *source)
{
    bool is_whole = stream_receive(&source->main, 0);
    size_t length = 0, pages = 0;

    take_hello(source);
    take_signs(source);
    while (source->is_answered && !source->is_refused &&
           postmig_frame_lengths(stream_front(&source->main), stream_length(&source->main), &length, &pages) ==
               POSTMIG_OK &&
           stream_length(&source->main) >= length) {
        take_back(source, length);
        take_signs(source);
    }
    return is_whole && !source->is_refused && !is_flooded(source, length);
}

/* Nothing comes back there but its end, which is that of the main one too. So it is looked at now and then. */
static bool is_urgent_whole(struct source *source)
{
    if (!stream_is_open(&source->urgent))
        return true;
    if (!stream_send(&source->urgent) || (++source->turns % UNHEARD_TURNS == 0 && !stream_receive(&source->urgent, 0)))
        return false;
    if (stream_length(&source->urgent))
        reject(source, "bytes on the urgent connection, where none belong");
    return !source->is_refused;
}

/* Sends and receives. False once either connection is broken. */
static bool exchange(struct source *source)
{
    bool is_sent, is_whole;

    (void)node_send_frames(&source->node, &source->main); /* how many is of no interest */
    is_sent = stream_send(&source->main);
    is_whole = hear(source) && is_sent; /* (what waits to be sent may be a beat, and what has arrived the Done) */
    (void)node_send_frames(&source->node, &source->main); /* after a Recv: Discard and Package */
    return is_whole && is_urgent_whole(source);
}

/* Whether there is a destination that takes what is sent to it. After the last page Done is due from it. */
static void note_progress(struct source *source, uint64_t sent)
{
    if (!source->is_answered || source->state.phase == POSTMIG_SOURCE_PAUSED)
        return;
    if (source->main.sent != sent || (!stream_unsent(&source->main) && !source->end_is_sent))
        source->waited = 0;
}

void channel_use(struct source *source, uint64_t took)
{
    uint64_t sent = source->main.sent;
    bool is_whole = exchange(source);

    if (source->state.phase == POSTMIG_SOURCE_RELEASED)
        return;
    if (!is_whole) {
        channel_lose(source, "the connection is broken",
                     source->main.error ? source->main.error : source->urgent.error);
        return;
    }
    note_progress(source, sent);
    beat_send(&source->main, source->last_turn);
    beat_send(&source->urgent, source->last_turn);
    if (!source->options->feed && (source->main.beats || !source->is_answered) &&
        beat_listen(&source->main, took) > beat_limit(source->options->silence, source->silences)) {
        channel_lose(source, "nothing was heard on the connection", ETIMEDOUT);
        source->silences++;
    }
}
