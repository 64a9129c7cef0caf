/* Unix sockets. */
#include "local.h"

#include <errno.h>
#include <stdio.h>
#include <sys/socket.h>
#include <sys/stat.h>
#include <sys/un.h>
#include <unistd.h>

#include "live.h"
#include "wire.h"

static const char *path_of(const struct address *address)
{
    return ((const struct sockaddr_un *)(const void *)&address->name)->sun_path;
}

/* A socket where no one listens refuses a connection. (What is not a socket does that too.) */
void local_remove_stale(const struct address *address)
{
    struct stat status;
    int file;

    if (lstat(path_of(address), &status) || !S_ISSOCK(status.st_mode))
        return; /* bind(2) says what is there */
    file = wire_connect(address, 0);
    if (file >= 0)
        (void)close(file); /* someone listens: bind(2) says so */
    else if (errno == ECONNREFUSED)
        (void)unlink(path_of(address)); /* if it stays, bind(2) says so */
}

int local_listen(const struct address *address, int waiting)
{
    int door = socket(AF_UNIX, SOCK_STREAM | SOCK_NONBLOCK | SOCK_CLOEXEC, 0);
    mode_t mask = umask(S_IRWXG | S_IRWXO);

    if (door < 0)
        refuse_errno(errno, "a socket");
    local_remove_stale(address);
    if (bind(door, (const struct sockaddr *)&address->name, address->length) || listen(door, waiting))
        refuse_errno(errno, errno == EADDRINUSE ? "%s is in use by another program, or is no socket" : "%s",
                     address->text);
    (void)umask(mask); /* it always succeeds */
    return door;
}

bool local_is_own(int file)
{
    struct ucred peer;
    socklen_t length = sizeof peer;

    return !getsockopt(file, SOL_SOCKET, SO_PEERCRED, &peer, &length) && (peer.uid == geteuid() || peer.uid == 0);
}

void local_close(int door, const struct address *address)
{
    (void)close(door);              /* it carried nothing */
    (void)unlink(path_of(address)); /* it may be gone already */
}
