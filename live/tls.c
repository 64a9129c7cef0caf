/* Sessions of GnuTLS over sockets that do not block. */
#include "tls.h"

#include "live.h"

#ifdef WITH_GNUTLS

#include <ctype.h>
#include <errno.h>
#include <gnutls/gnutls.h>
#include <poll.h>
#include <stdio.h>
#include <stdlib.h>
#include <string.h>
#include <sys/stat.h>

/* One version of the protocol, and the key with a fresh exchange of Diffie and Hellman: who learns the key later
   cannot read what was sent. A pre-shared key goes with suites of SHA-256 alone; of these AES is the fast one. */
#define PRIORITY "NORMAL:-VERS-ALL:+VERS-TLS1.3:-KX-ALL:+ECDHE-PSK:-CIPHER-ALL:+AES-128-GCM:+CHACHA20-POLY1305"
#define MOST_HANDSHAKE 16384u /* bytes of a message of a stranger */
#define MOST_LINE 1024u
#define MOST_USER 128u
#define LEAST_KEY 16u
#define MOST_KEY 64u

struct tls {
    gnutls_session_t session;
    bool is_made;        /* the handshake is done */
    bool is_interrupted; /* a record was not sent whole */
};

static struct {
    bool is_there;
    char user[MOST_USER + 1];
    uint8_t bytes[MOST_KEY];
    unsigned length;
    gnutls_psk_server_credentials_t of_listener;
    gnutls_psk_client_credentials_t of_client;
    gnutls_priority_t priority;
} key;

static _Thread_local const char *last_fault;

bool tls_is_built_in(void)
{
    return true;
}

const char *tls_last_fault(void)
{
    return last_fault;
}

static void expect(int result, const char *what)
{
    if (result < 0)
        refuse("%s: %s", what, gnutls_strerror(result));
}

/* THE KEY */

static unsigned digit_of(char letter)
{
    return isdigit((unsigned char)letter) ? (unsigned)(letter - '0')
                                          : (unsigned)(tolower((unsigned char)letter) - 'a') + 10;
}

/* An even number of hexadecimal digits up to the end of the line. */
static bool read_hex(const char *text)
{
    size_t digits = strspn(text, "0123456789abcdefABCDEF");

    if (text[digits + strspn(text + digits, "\r\n")] || digits % 2 || digits / 2 < LEAST_KEY || digits / 2 > MOST_KEY)
        return false;
    for (size_t i = 0; i < digits / 2; i++)
        key.bytes[i] = (uint8_t)(digit_of(text[2 * i]) << 4 | digit_of(text[2 * i + 1]));
    key.length = (unsigned)(digits / 2);
    return true;
}

static bool read_line(char *line)
{
    char *colon = strchr(line, ':');

    if (!colon || colon == line || (size_t)(colon - line) > MOST_USER)
        return false;
    memcpy(key.user, line, (size_t)(colon - line));
    return read_hex(colon + 1);
}

/* Of a user whom someone names at the door. */
static int find_key(gnutls_session_t session, const char *user, gnutls_datum_t *found)
{
    (void)session; /* all have the same key */
    if (strcmp(user, key.user))
        return -1;
    found->data = gnutls_malloc(key.length);
    if (!found->data)
        return -1;
    memcpy(found->data, key.bytes, key.length);
    found->size = key.length;
    return 0;
}

static void make_credentials(void)
{
    gnutls_datum_t bytes = { key.bytes, key.length };

    expect(gnutls_priority_init(&key.priority, PRIORITY, NULL), "the priorities of TLS");
    expect(gnutls_psk_allocate_server_credentials(&key.of_listener), "the key of TLS");
    gnutls_psk_set_server_credentials_function(key.of_listener, find_key);
    expect(gnutls_psk_allocate_client_credentials(&key.of_client), "the key of TLS");
    expect(gnutls_psk_set_client_credentials(key.of_client, key.user, &bytes, GNUTLS_PSK_KEY_RAW), "the key of TLS");
}

void tls_read_key(const char *file)
{
    FILE *lines = fopen(file, "re");
    struct stat status;
    char line[MOST_LINE] = "";

    if (!lines)
        refuse_errno(errno, "--psk %s", file);
    if (fstat(fileno(lines), &status))
        refuse_errno(errno, "--psk %s", file);
    if (status.st_mode & (S_IRWXG | S_IRWXO))
        refuse("--psk %s: others may read the key: chmod 600 %s", file, file);
    if (!fgets(line, sizeof line, lines) || !read_line(line))
        refuse("--psk %s: its first line is to be USER:HEXKEY, with a key of %u to %u bytes, as psktool writes it",
               file, LEAST_KEY, MOST_KEY);
    (void)fclose(lines); /* it was only read */
    gnutls_memset(line, 0, sizeof line);
    make_credentials();
    key.is_there = true;
}

/* SESSIONS */

/* A session of which only the memory is there. */
static bool set_up(struct tls *tls, int file, enum tls_side side)
{
    const unsigned flags =
        GNUTLS_NONBLOCK | GNUTLS_NO_SIGNAL | GNUTLS_NO_TICKETS | (side == TLS_LISTENS ? GNUTLS_SERVER : GNUTLS_CLIENT);

    if (gnutls_init(&tls->session, flags) < 0 || gnutls_priority_set(tls->session, key.priority) < 0 ||
        gnutls_credentials_set(tls->session, GNUTLS_CRD_PSK,
                               side == TLS_LISTENS ? (void *)key.of_listener : (void *)key.of_client) < 0)
        return false;
    gnutls_handshake_set_max_packet_length(tls->session, MOST_HANDSHAKE);
    gnutls_handshake_set_timeout(tls->session, 0); /* the caller has its own */
    gnutls_transport_set_int(tls->session, file);
    return true;
}

bool tls_new(struct tls **made, int file, enum tls_side side)
{
    struct tls *tls = key.is_there ? calloc(1, sizeof *tls) : NULL;

    *made = tls;
    if (!key.is_there || (tls && set_up(tls, file, side)))
        return true;
    tls_free(tls);
    *made = NULL;
    errno = ENOMEM;
    return false;
}

void tls_free(struct tls *tls)
{
    if (!tls)
        return;
    if (tls->session)
        gnutls_deinit(tls->session);
    free(tls);
}

/* -1, with the errno for a result. */
static ssize_t fail(int result)
{
    if (!gnutls_error_is_fatal(result)) {
        errno = EAGAIN; /* or the other side has warned, or wants what is not done here: then it ends the connection */
        return -1;
    }
    if (result == GNUTLS_E_PUSH_ERROR || result == GNUTLS_E_PULL_ERROR || result == GNUTLS_E_PREMATURE_TERMINATION ||
        result == GNUTLS_E_INVALID_SESSION) {
        errno = ECONNRESET;
        return -1;
    }
    last_fault = gnutls_strerror(result);
    errno = EPROTO;
    return -1;
}

/* False, with an errno, until the handshake is done. One that fails tells the other side why. */
static bool shake_hands(struct tls *tls)
{
    int result = tls->is_made ? GNUTLS_E_SUCCESS : gnutls_handshake(tls->session);

    if (result == GNUTLS_E_SUCCESS && gnutls_auth_get_type(tls->session) != GNUTLS_CRD_PSK)
        result = GNUTLS_E_INSUFFICIENT_CREDENTIALS;
    if (result == GNUTLS_E_SUCCESS) {
        tls->is_made = true;
        return true;
    }
    if (gnutls_error_is_fatal(result))
        /* who does not hear it sees the connection end */
        (void)gnutls_alert_send_appropriate(tls->session, result);
    (void)fail(result);
    return false;
}

ssize_t tls_send(struct tls *tls, const void *bytes, size_t length)
{
    ssize_t result;

    if (!shake_hands(tls))
        return -1;
    result = tls->is_interrupted ? gnutls_record_send(tls->session, NULL, 0)
                                 : gnutls_record_send(tls->session, bytes, length);
    tls->is_interrupted = result == GNUTLS_E_AGAIN || result == GNUTLS_E_INTERRUPTED;
    return result >= 0 ? result : fail((int)result);
}

ssize_t tls_receive(struct tls *tls, void *bytes, size_t length)
{
    ssize_t result;

    if (!shake_hands(tls))
        return -1;
    result = gnutls_record_recv(tls->session, bytes, length);
    return result >= 0 ? result : fail((int)result);
}

bool tls_has_bytes(const struct tls *tls)
{
    return tls && tls->is_made && gnutls_record_check_pending(tls->session) > 0;
}

short tls_waits_for(const struct tls *tls)
{
    if (!tls || tls->is_made)
        return 0;
    return gnutls_record_get_direction(tls->session) ? POLLOUT : POLLIN;
}

#else

#include <errno.h>

bool tls_is_built_in(void)
{
    return false;
}

void tls_read_key(const char *file)
{
    refuse("--psk %s: TLS is not built in: build live where pkg-config finds gnutls", file);
}

bool tls_new(struct tls **made, int file, enum tls_side side)
{
    (void)file; /* it stays plain, */
    (void)side; /* on both sides */
    *made = NULL;
    return true;
}

void tls_free(struct tls *tls)
{
    (void)tls; /* there is none */
}

static ssize_t no_session(void)
{
    errno = EPROTO;
    return -1;
}

ssize_t tls_send(struct tls *tls, const void *bytes, size_t length)
{
    (void)tls, (void)bytes, (void)length; /* there is none */
    return no_session();
}

ssize_t tls_receive(struct tls *tls, void *bytes, size_t length)
{
    (void)tls, (void)bytes, (void)length; /* there is none */
    return no_session();
}

bool tls_has_bytes(const struct tls *tls)
{
    (void)tls; /* there is none */
    return false;
}

short tls_waits_for(const struct tls *tls)
{
    (void)tls; /* there is none */
    return 0;
}

const char *tls_last_fault(void)
{
    return NULL;
}

#endif
