/* Signs: single bytes in place of the first byte of a frame, which is never one of these. On a connection on which
   nothing was sent for a quarter of a second a beat is sent; who hears nothing for some seconds takes the
   connection for broken. A source that is about to switch says BINDS, and switches once it has heard it too: from
   then on the destination serves no other source. Both sides say in their hello which signs they know; of one that
   does not know a sign it is not expected. */
#ifndef BEAT_H
#define BEAT_H

#include "wire.h"

#define BEAT 0
#define BINDS 1

/* Puts a sign into the stream, after the frames that are there; and a beat if one is due. */
void beat_put(struct stream *stream, uint8_t sign);
void beat_send(struct stream *stream, uint64_t now);

/* Counts a turn of `took` ns of the caller's loop in which something was received, or nothing. Returns for how long
   nothing was. */
uint64_t beat_listen(struct stream *stream, uint64_t took);

/* Nanoseconds after which a connection counts as broken, where the last ones of this number were broken so, one
   after the other: each time twice as long, up to 32 times. Else two hosts that are too busy for their beats would
   never end. */
uint64_t beat_limit(uint32_t seconds, uint32_t broken);

/* Takes the signs away that are at the front of what was received: no part of a frame is. Returns whether BINDS was
   among them. */
bool beat_take(struct stream *stream);

#endif
