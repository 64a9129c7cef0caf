#include "common.h"

#include <errno.h>
#include <signal.h>
#include <stdarg.h>
#include <stdatomic.h>
#include <stdio.h>
#include <stdlib.h>
#include <string.h>
#include <sys/mman.h>
#include <sys/prctl.h>
#include <sys/wait.h>
#include <unistd.h>

#define MOST_WORDS 32
#define SECONDS 120
#define SECONDS_WRONG 2

static int word_count;
static char **words;
static bool was_asked[MOST_WORDS];
static const char *wrong_kind = "";
static long wrong_at, seed, seconds, ids;
static _Atomic long times_asked;

void fail(const char *format, ...)
{
    int error = errno;
    va_list arguments;

    va_start(arguments, format);
    fprintf(stderr, "%s: ", words ? words[0] : "program");
    vfprintf(stderr, format, arguments);
    fprintf(stderr, " (%s)\n", strerror(error));
    va_end(arguments);
    _exit(1);
}

void cannot(const char *what)
{
    fprintf(stderr, "%s: this machine has not what is needed: %s (%s)\n", words[0], what, strerror(errno));
    _exit(STATUS_CANNOT);
}

/* The text after NAME= of an option, the last of several, NULL where it was not given. */
static const char *option_text(const char *name)
{
    size_t length = strlen(name);
    const char *text = NULL;

    for (int i = 1; i < word_count; i++) {
        if (strncmp(words[i], name, length) != 0 || words[i][length] != '=')
            continue;
        was_asked[i] = true;
        text = words[i] + length + 1;
    }
    return text;
}

long option(const char *name, long otherwise)
{
    const char *text = option_text(name);
    char *end;
    long value;

    if (!text)
        return otherwise;
    errno = 0;
    value = strtol(text, &end, 10);
    if (errno || end == text || *end || value < 0)
        fail("%s=%s is no number", name, text);
    return value;
}

void options_begin(int argc, char **argv)
{
    const char *kind;

    words = argv;
    word_count = argc;
    if (argc > MOST_WORDS)
        fail("too many words");
    kind = option_text("wrong");
    wrong_kind = kind ? kind : "";
    seed = option("seed", 1);
    wrong_at = option("at", seed % 5);
    seconds = option("seconds", kind ? SECONDS_WRONG : SECONDS);
    ids = option("ids", 0);
}

void options_end(void)
{
    for (int i = 1; i < word_count; i++)
        if (!was_asked[i])
            fail("%s is no option of this program", words[i]);
    watchdog();
}

bool asks_for_threads(void)
{
    return ids;
}

bool is_wrong(const char *kind)
{
    return strcmp(kind, wrong_kind) == 0;
}

bool wrong_now(const char *kind, uint64_t page)
{
    if (!is_wrong(kind) || atomic_fetch_add(&times_asked, 1) != wrong_at)
        return false;
    fprintf(stderr, "planted at 0x%llx\n", (unsigned long long)page);
    return true;
}

static void *watch_time(void *unused)
{
    (void)unused;
    sleep((unsigned)seconds);
    fprintf(stderr, "%s: not done in %ld seconds\n", words[0], seconds);
    _exit(STATUS_LATE);
}

void watchdog(void)
{
    int error = pthread_detach(thread_start(watch_time, NULL));

    if (error)
        fail("pthread_detach: %s", strerror(error));
}

pid_t fork_checked(void)
{
    pid_t parent = getpid(), child = fork();

    if (child < 0)
        fail("fork");
    if (child == 0 && (prctl(PR_SET_PDEATHSIG, SIGKILL) || getppid() != parent))
        fail("prctl");
    return child;
}

void await_child(pid_t child)
{
    int status = 0;

    while (waitpid(child, &status, 0) < 0)
        if (errno != EINTR)
            fail("waitpid");
    if (WIFEXITED(status) && WEXITSTATUS(status))
        _exit(WEXITSTATUS(status));
    if (status)
        fail("a child has status 0x%x", (unsigned)status);
}

/* splitmix64 */
static uint64_t random_next(struct random *random)
{
    uint64_t mixed = random->state += 0x9e3779b97f4a7c15u;

    mixed = (mixed ^ mixed >> 30) * 0xbf58476d1ce4e5b9u;
    mixed = (mixed ^ mixed >> 27) * 0x94d049bb133111ebu;
    return mixed ^ mixed >> 31;
}

struct random random_of(uint64_t stream)
{
    struct random random = { (uint64_t)seed << 32 ^ stream };

    (void)random_next(&random);
    return random;
}

uint64_t random_below(struct random *random, uint64_t bound)
{
    return random_next(random) % bound;
}

void nap(struct random *random, unsigned most_microseconds)
{
    unsigned long microseconds = random_below(random, most_microseconds + 1u);

    if (microseconds && usleep((useconds_t)microseconds) && errno != EINTR)
        fail("usleep");
}

pthread_t thread_start(void *(*work)(void *), void *argument)
{
    pthread_t thread;
    int error = pthread_create(&thread, NULL, work, argument);

    if (error)
        fail("pthread_create: %s", strerror(error));
    return thread;
}

void thread_join(pthread_t thread)
{
    int error = pthread_join(thread, NULL);

    if (error)
        fail("pthread_join: %s", strerror(error));
}

void crew_start(struct crew *crew, long count, void *(*work)(void *number))
{
    if (count > MOST_THREADS)
        fail("more than %d threads", MOST_THREADS);
    crew->count = count;
    for (long i = 0; i < count; i++)
        crew->threads[i] = thread_start(work, (void *)i);
}

void crew_join(struct crew *crew)
{
    for (long i = 0; i < crew->count; i++)
        thread_join(crew->threads[i]);
}

char *map_pages(size_t pages)
{
    char *place = mmap(NULL, pages * PAGE, PROT_READ | PROT_WRITE, MAP_PRIVATE | MAP_ANONYMOUS, -1, 0);

    if (place == MAP_FAILED)
        fail("mmap of %zu pages", pages);
    /* (a huge page would come with one fault) */
    if (madvise(place, pages * PAGE, MADV_NOHUGEPAGE) && errno != EINVAL)
        fail("MADV_NOHUGEPAGE");
    return place;
}

uint64_t address(const void *place)
{
    return (uintptr_t)place;
}

uint64_t word_of(uint64_t number)
{
    return (number + 1) * 0x9e3779b97f4a7c15u;
}

void fill_page(void *page, uint64_t number)
{
    uint64_t *places = page;

    for (size_t i = 0; i < PAGE / sizeof *places; i++)
        places[i] = word_of(number);
}

uint64_t first_word(const void *page)
{
    return *(const volatile uint64_t *)page;
}

uint64_t last_word(const void *page)
{
    return ((const volatile uint64_t *)page)[PAGE / sizeof(uint64_t) - 1];
}
