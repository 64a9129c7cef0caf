/* Starts a program, and waits for it. */
#include "feed.h"

#include <errno.h>
#include <fcntl.h>
#include <poll.h>
#include <signal.h>
#include <spawn.h>
#include <stdint.h>
#include <sys/socket.h>
#include <sys/wait.h>
#include <unistd.h>

#include "live.h"

#define WAIT_MS 10
#define MOST_WAITS 6000u /* one that has closed its streams and lives on is left alone */

static pid_t program;

static void expect(int error)
{
    if (error)
        refuse_errno(error, "the program that is fed cannot be started");
}

/* (SIGPIPE is ignored here, and would be there too) */
static void spawn(const char *command, int file)
{
    char shell[] = "sh", option[] = "-c", *words[] = { shell, option, (char *)(uintptr_t)command, NULL };
    posix_spawn_file_actions_t actions;
    posix_spawnattr_t attributes;
    sigset_t usual, none;

    expect(sigemptyset(&none) || sigemptyset(&usual) || sigaddset(&usual, SIGPIPE) || sigaddset(&usual, SIGHUP) ? errno
                                                                                                                : 0);
    expect(posix_spawn_file_actions_init(&actions));
    expect(posix_spawn_file_actions_adddup2(&actions, file, STDIN_FILENO));
    expect(posix_spawn_file_actions_adddup2(&actions, file, STDOUT_FILENO));
    expect(posix_spawnattr_init(&attributes));
    expect(posix_spawnattr_setflags(&attributes, POSIX_SPAWN_SETSIGDEF | POSIX_SPAWN_SETSIGMASK));
    expect(posix_spawnattr_setsigmask(&attributes, &none));
    expect(posix_spawnattr_setsigdefault(&attributes, &usual));
    expect(posix_spawn(&program, "/bin/sh", &actions, &attributes, words, environ));
    (void)posix_spawn_file_actions_destroy(&actions); /* it always succeeds */
    (void)posix_spawnattr_destroy(&attributes);       /* and so does this */
}

int feed_start(const char *command)
{
    int files[2];

    if (socketpair(AF_UNIX, SOCK_STREAM | SOCK_CLOEXEC, 0, files))
        refuse_errno(errno, "a pair of sockets");
    spawn(command, files[1]);
    (void)close(files[1]); /* it is the program's now */
    if (fcntl(files[0], F_SETFL, O_NONBLOCK))
        refuse_errno(errno, "a pair of sockets");
    return files[0];
}

int feed_end(void)
{
    int status = 0;
    pid_t ended = 0;

    for (uint32_t waits = 0; !ended && waits < MOST_WAITS; waits++) {
        ended = waitpid(program, &status, WNOHANG);
        if (ended < 0 && errno != EINTR)
            refuse_errno(errno, "waitpid");
        if (!ended)
            (void)poll(NULL, 0, WAIT_MS); /* a shorter wait is as good */
    }
    if (ended <= 0)
        return -1;
    return WIFEXITED(status) ? WEXITSTATUS(status) : 128 + WTERMSIG(status);
}

int feed_channel(void)
{
    if (dup2(STDERR_FILENO, STDOUT_FILENO) < 0 || fcntl(STDIN_FILENO, F_SETFL, O_NONBLOCK))
        refuse_errno(errno, "the standard input and output");
    return STDIN_FILENO;
}
