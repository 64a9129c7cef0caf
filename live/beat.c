/* When a beat is due, what signs are there, and for how long nothing was heard. */
#include "beat.h"

#define BEAT_NS 250000000u
#define MOST_DOUBLED 5u
/* a longer turn is one in which this process did not run: the other side is not silent by that */
#define MOST_OF_TURN_NS 200000000u

void beat_put(struct stream *stream, uint8_t sign)
{
    *stream_room(stream, 1) = sign;
    stream->out.end++;
}

void beat_send(struct stream *stream, uint64_t now)
{
    if (!stream->beats || stream_unsent(stream))
        return;
    if (stream->sent != stream->sent_before) {
        stream->sent_before = stream->sent;
        stream->next_beat = now + BEAT_NS;
    } else if (now >= stream->next_beat) {
        beat_put(stream, BEAT);
    }
}

uint64_t beat_listen(struct stream *stream, uint64_t took)
{
    if (stream->received != stream->received_before)
        stream->silent = 0;
    else
        stream->silent += took < MOST_OF_TURN_NS ? took : MOST_OF_TURN_NS;
    stream->received_before = stream->received;
    return stream->silent;
}

uint64_t beat_limit(uint32_t seconds, uint32_t broken)
{
    return (uint64_t)seconds * 1000000000u << (broken < MOST_DOUBLED ? broken : MOST_DOUBLED);
}

bool beat_take(struct stream *stream)
{
    bool binds = false;

    while (stream->beats && stream_length(stream) && *stream_front(stream) <= BINDS) {
        binds |= *stream_front(stream) == BINDS;
        stream_take(stream, 1);
    }
    return binds;
}
