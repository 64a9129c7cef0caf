/* A program of someone else that takes the part of the other side: frames go to its standard input and come from
   its standard output. */
#ifndef FEED_H
#define FEED_H

/* Starts a command of the shell. Returns the file of its connection. */
int feed_start(const char *command);

/* Waits for its end, a minute at most. Returns its status, 128 and the number of the signal that has ended it, or
   -1: it runs on. */
int feed_end(void);

/* In a program that is started so: its standard input, which is the channel, for frames in both directions. What is
   written to the standard output goes to the standard error from then on. */
int feed_channel(void);

#endif
