/* TLS 1.3 with a pre-shared key, by GnuTLS. A program that is built without it has no keys, and each session is
   NULL. */
#ifndef TLS_H
#define TLS_H

#include <stdbool.h>
#include <stddef.h>
#include <sys/types.h>

struct tls; /* the session of one connection */

enum tls_side { TLS_LISTENS, TLS_CONNECTS };

bool tls_is_built_in(void);

/* Reads the first line of the file, USER:HEXKEY as psktool(1) writes it: from now on each connection is encrypted
   by this key. A file that cannot be read, that others can read, or that has no such line is refused. */
void tls_read_key(const char *file);

/* Begins a session over a connection: NULL where no key was read, and the connection is plain. False, with errno,
   where there is no memory. */
bool tls_new(struct tls **made, int file, enum tls_side side);
void tls_free(struct tls *tls);

/* As send(2) and recv(2) of a socket that does not block: -1 with EAGAIN while the handshake is under way too, and
   with EPROTO where the other side has not the key or does not speak TLS. What tls_send could not finish the next
   call continues: it must have the same bytes at its front. */
ssize_t tls_send(struct tls *tls, const void *bytes, size_t length);
ssize_t tls_receive(struct tls *tls, void *bytes, size_t length);

/* Whether bytes are there that were read from the connection: poll(2) does not know of them. */
bool tls_has_bytes(const struct tls *tls);

/* For poll(2), what the handshake waits for. 0 once it is done. */
short tls_waits_for(const struct tls *tls);

/* The last reason for EPROTO in this process, or NULL. */
const char *tls_last_fault(void);

#endif
