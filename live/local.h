/* Sockets of this host alone, at a path of the file system. */
#ifndef LOCAL_H
#define LOCAL_H

#include <stdbool.h>

struct address;

/* Listens at a Unix address. A socket there whose program is gone is removed; any other file, a symbolic link too,
   is refused as in use. Only the user's own processes, and root's, may connect. */
int local_listen(const struct address *address, int waiting);

/* The removal alone, before bind(2). */
void local_remove_stale(const struct address *address);

/* Whether the process at the other end is the user's own, or root's. */
bool local_is_own(int file);

/* Closes the door, and removes its socket. */
void local_close(int door, const struct address *address);

#endif
