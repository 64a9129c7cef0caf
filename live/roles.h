/* What the program can be. Each returns a status of live.h. */
#ifndef ROLES_H
#define ROLES_H

#include "options.h"

int source_run(const struct options *options); /* the host that the guest leaves */
int dest_run(const struct options *options); /* the host that it moves to; with a monitor, the handler of its memory */
int monitor_run(const struct options *options); /* runs the guest of a handler */
int bare_run(const struct options *options);    /* what the connection and UFFDIO_COPY take without a node */

#endif
