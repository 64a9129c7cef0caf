/* What a program of your own does before the first frame of a channel: the source says its hello, and the
   destination replies. So what does not fit is found before a page has moved. */
#ifndef GREET_H
#define GREET_H

#include "hello.h"
#include "wire.h"

/* The hello of a program with this guest, in one area, in the first epoch. It beats not, and asks for no
   promise. */
void greet_begin(struct hello *own, uint32_t pages, uint32_t processors);

/* Says it, and waits for the reply of the destination; of the source, the other way around. Where the two do not
   fit the program ends (refuse), and so does the other side, each with the reason. */
void greet_destination(struct stream *stream, const struct hello *own);
void greet_source(struct stream *stream, struct hello *own);

#endif
