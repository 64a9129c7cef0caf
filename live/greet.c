/* Hellos of a program of your own. */
#include "greet.h"

#include <poll.h>

#include "live.h"

void greet_begin(struct hello *own, uint32_t pages, uint32_t processors)
{
    *own = (struct hello){
        .channel = MAIN,
        .epoch = 1,
        .instance = 1,
        .pages = pages,
        .areas = 1,
        .processors = processors,
        .slices = 1,
        .most_pages = MOST_PAGES,
        .most_processors = MOST_PROCESSORS,
    };
}

static void say(struct stream *stream, const struct hello *own)
{
    hello_write(own, stream_room(stream, HELLO_BYTES));
    stream->out.end += HELLO_BYTES;
    while (stream_unsent(stream)) {
        struct pollfd file = stream_waits(stream);

        if (!stream_send(stream))
            lose("the other side has ended before its hello");
        if (stream_unsent(stream))
            (void)poll(&file, 1, -1); /* it is tried again */
    }
}

static void hear(struct stream *stream, struct hello *hello)
{
    size_t length = 0;

    while (length < HELLO_BYTES) {
        struct pollfd file = stream_waits(stream);

        (void)poll(&file, 1, -1); /* what is there is looked at in any case */
        if (!stream_receive(stream, 0))
            lose("the other side has ended before its hello");
        length = stream_length(stream);
        if (!hello_read(hello, stream_front(stream), length < HELLO_BYTES ? (uint32_t)length : HELLO_BYTES))
            refuse("the other side says no hello");
    }
    stream_take(stream, HELLO_BYTES);
}

void greet_destination(struct stream *stream, const struct hello *own)
{
    struct hello reply;
    char reason[MOST_OF_REASON + 1];

    say(stream, own);
    hear(stream, &reply);
    if (*reply.reason || hello_unlike(own, &reply, reason))
        refuse("the destination refuses: %s", *reply.reason ? reply.reason : reason);
}

void greet_source(struct stream *stream, struct hello *own)
{
    struct hello source;

    hear(stream, &source);
    own->epoch = source.epoch;
    (void)hello_unlike(&source, own, own->reason); /* the reason says so */
    say(stream, own);
    if (*own->reason)
        refuse("the source is refused: %s", own->reason);
}
