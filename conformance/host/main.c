// host PROCESSORS: reads commands, one a line, and answers each. ../README.md has them.
#include "host.h"

#include <errno.h>
#include <signal.h>
#include <stdarg.h>
#include <stdio.h>
#include <stdlib.h>
#include <string.h>
#include <sys/prctl.h>
#include <sys/wait.h>
#include <time.h>
#include <unistd.h>

#define MOST_WORDS 12

int patience = 5000;

void die(const char *format, ...)
{
    va_list arguments;
    va_start(arguments, format);
    fprintf(stderr, "host: ");
    vfprintf(stderr, format, arguments);
    fputc('\n', stderr);
    va_end(arguments);
    exit(70);
}

void answer(const char *format, ...)
{
    va_list arguments;
    va_start(arguments, format);
    vprintf(format, arguments);
    va_end(arguments);
    putchar('\n');
}

void answer_result(int result)
{
    const char *name = result ? strerrorname_np(errno) : 0;
    if (!result)
        answer("ok");
    else if (name)
        answer("refused %s", name);
    else
        answer("refused %d", errno);
}

uint64_t number(const char *word)
{
    return strtoull(word, 0, 0);
}

double now(void)
{
    struct timespec time;
    clock_gettime(CLOCK_MONOTONIC, &time);
    return time.tv_sec * 1e3 + time.tv_nsec * 1e-6;
}

// A map call on a copy of this process, so that this one stays as it is. (A userfaultfd does not watch the copy.)
static void try_on_copy(const struct call *call)
{
    long value = 0;
    int ends[2];
    pid_t copy;
    if (pipe(ends))
        die("pipe");
    fflush(stdout);
    copy = fork();
    if (copy == 0) {
        value = map_call(call);
        _exit(write(ends[1], &value, sizeof value) != sizeof value);
    }
    close(ends[1]);
    if (copy < 0 || read(ends[0], &value, sizeof value) != sizeof value)
        die("a copy of the process gave no answer");
    close(ends[0]);
    waitpid(copy, 0, 0);
    answer("ret %ld", value);
}

// The commands of one processor.
static int take_processor_command(char **words, int count)
{
    struct call call;
    uint64_t k = count > 1 ? number(words[1]) : 0;
    if (count < 2 || k >= (uint64_t)processor_count)
        return 0;
    if (!strcmp(words[0], "await"))
        await_processor(k);
    else if (!strcmp(words[0], "kick"))
        kick_processor(k);
    else if (!strcmp(words[0], "asleep"))
        answer_asleep(k);
    else if (!strcmp(words[0], "cpu") && parse_call(words + 2, count - 2, &call))
        make_command(k, &call);
    else
        return 0;
    return 1;
}

// What the kernel says of the guest.
static int take_question(char **words, int count)
{
    if (!strcmp(words[0], "page") && count == 2)
        answer_page(number(words[1]));
    else if (!strcmp(words[0], "bits") && count == 2)
        answer("%d %d", is_present(number(words[1])), is_protected(number(words[1])));
    else if (!strcmp(words[0], "areas"))
        answer_areas(count > 1);
    else if (!strcmp(words[0], "present"))
        answer_present();
    else if (!strcmp(words[0], "states"))
        answer_states();
    else if (!strcmp(words[0], "threads"))
        answer_threads();
    else
        return 0;
    return 1;
}

// The commands of a handler.
static int take_handler_command(char **words, int count)
{
    static const char *const calls[] = { "register", "unregister", "writeprotect", "zeropage",
                                         "continue", "poison",     "wake" };
    struct call call;
    if (!strcmp(words[0], "read")) {
        answer_message();
        return 1;
    }
    if (!strcmp(words[0], "lend") && count == 2) {
        lend_userfault(words[1]);
        return 1;
    }
    if (!strcmp(words[0], "open") && count == 2) {
        open_userfault(number(words[1]));
        return 1;
    }
    if (!strcmp(words[0], "copy") && count == 4) {
        answer_copy(number(words[1]), number(words[2]), words[3]);
        return 1;
    }
    if (!strcmp(words[0], "move") && count == 5) {
        answer_move(number(words[1]), number(words[2]), number(words[3]), number(words[4]));
        return 1;
    }
    if (!strcmp(words[0], "try") && parse_call(words + 1, count - 1, &call) && call.kind > STORE) {
        try_on_copy(&call);
        return 1;
    }
    for (unsigned i = 0; i < sizeof calls / sizeof *calls; i++)
        if (!strcmp(words[0], calls[i]) && count >= 3) {
            answer_range_call(words[0], number(words[1]), number(words[2]), count > 3 ? number(words[3]) : 0);
            return 1;
        }
    return 0;
}

static void take_line(char *line)
{
    char *words[MOST_WORDS];
    int count = 0;
    for (char *word = strtok(line, " \n"); word && count < MOST_WORDS; word = strtok(0, " \n"))
        words[count++] = word;
    if (count && !strcmp(words[0], "quit"))
        _exit(0);
    if (count && !take_processor_command(words, count) && !take_question(words, count) &&
        !take_handler_command(words, count))
        answer("what");
    fflush(stdout);
}

int main(int count, char **words)
{
    static char line[1 << 16];
    int processors = count > 1 ? atoi(words[1]) : 2;
    if (getenv("HOST_PATIENCE"))
        patience = atoi(getenv("HOST_PATIENCE"));
    if (processors < 1 || processors > MOST_PROCESSORS)
        die("1 to %d processors", MOST_PROCESSORS);
    // (it ends with the program that started it, and has no huge pages)
    prctl(PR_SET_PDEATHSIG, SIGKILL);
    prctl(PR_SET_THP_DISABLE, 1, 0, 0, 0);
    setvbuf(stdout, 0, _IOFBF, 1 << 16);
    require_free_space();
    open_memory();
    start_processors(processors);
    while (fgets(line, sizeof line, stdin))
        take_line(line);
    _exit(0);
}
