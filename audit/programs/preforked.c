/*
 * Handlers in processes of their own, which inherit the object by fork(2) and wait in blocking reads. They are ended by
 * a signal.
 *
 *     pages threads touches   of the guest
 *     handlers                processes
 */
#include <errno.h>
#include <fcntl.h>
#include <signal.h>
#include <sys/wait.h>
#include <unistd.h>

#include "common.h"
#include "object.h"

#define MOST_HANDLERS 8

static long pages, threads, touches, handlers;
static int object;
static char *guest, *source;

static _Noreturn void handle(void)
{
    for (;;) {
        struct uffd_msg message;

        if (object_read(object, &message, 1))
            (void)put_copy(object, page_of(&message), source + (page_of(&message) - address(guest)));
    }
}

static void *touch(void *thread)
{
    struct random random = random_of((uint64_t)(long)thread + 1);

    for (long i = 0; i < touches; i++) {
        uint64_t number = random_below(&random, (uint64_t)pages);

        if (last_word(guest + number * PAGE) != word_of(number))
            fail("page %llu has wrong bytes", (unsigned long long)number);
        nap(&random, 20);
    }
    return NULL;
}

static void end_handler(pid_t child)
{
    int status = 0;

    if (kill(child, SIGTERM))
        fail("kill");
    while (waitpid(child, &status, 0) < 0)
        if (errno != EINTR)
            fail("waitpid");
    if (!WIFSIGNALED(status) || WTERMSIG(status) != SIGTERM)
        fail("a handler has status 0x%x", (unsigned)status);
}

int main(int argc, char **argv)
{
    pid_t children[MOST_HANDLERS];
    struct crew crew;

    options_begin(argc, argv);
    pages = option("pages", 256);
    threads = option("threads", 4);
    touches = option("touches", 300);
    handlers = option("handlers", 2);
    if (handlers < 1 || handlers > MOST_HANDLERS)
        fail("an option is too small or too large");
    guest = map_pages((size_t)pages);
    source = map_pages((size_t)pages);
    for (long i = 0; i < pages; i++)
        fill_page(source + i * PAGE, (uint64_t)i);
    object = object_open(0);
    if (fcntl(object, F_SETFL, 0))
        fail("F_SETFL");
    object_register(object, guest, (size_t)pages * PAGE, UFFDIO_REGISTER_MODE_MISSING);
    for (long i = 0; i < handlers; i++) {
        children[i] = fork_checked();
        if (children[i] == 0)
            handle();
    }
    options_end();
    crew_start(&crew, threads, touch);
    crew_join(&crew);
    for (long i = 0; i < handlers; i++)
        end_handler(children[i]);
    object_close(object);
    return 0;
}
