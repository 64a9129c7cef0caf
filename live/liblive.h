/* liblive: what live/ has for a monitor of your own. docs/MONITOR.md has three programs that use it.

   A function here that cannot continue writes why to the standard error, and ends the program (refuse, lose;
   live.h). All calls are made by one thread. */
#ifndef LIBLIVE_H
#define LIBLIVE_H

#include "feed.h"    /* a program as the other side: frames over its standard input and output */
#include "greet.h"   /* hellos, by which both sides know before the first page that they fit */
#include "handing.h" /* the monitor hands its memory over; and handed.h, the handler takes it, and keeps copies */
#include "kernel.h"  /* userfaultfd(2), ioctl_userfaultfd(2), pagemap, madvise(2) */
#include "node.h"    /* calls of either node, and the frames that wait in it; and wire.h, the bytes of a connection */
#include "watch.h"   /* faults and events of the guest become commands of the node, and its acts calls of the kernel */

#endif
