// The guest's processors, each a thread that makes one command at a time.
#include "host.h"

#include <fcntl.h>
#include <linux/futex.h>
#include <poll.h>
#include <pthread.h>
#include <setjmp.h>
#include <signal.h>
#include <stdio.h>
#include <string.h>
#include <sys/eventfd.h>
#include <sys/mman.h>
#include <sys/syscall.h>
#include <unistd.h>

enum state { IDLE, RUNNING, DONE };
// How an access ends that the thread leaves by a jump.
enum end { UNMAPPED = 1, FORBIDDEN, KICKED, BUS };

struct processor {
    pthread_t thread;
    int id;
    unsigned commands; // how many it was given
    int state;
    struct call call;
    int slept; // the main thread has said that the access sleeps: once it is woken it does not take effect
    char reply[64];
    sigjmp_buf out;
    volatile int may_jump;
};

int processor_count;
static struct processor processors[MOST_PROCESSORS];
static __thread struct processor *self;
static int done_fd; // readable once a thread has ended its command

static int state_of(struct processor *processor)
{
    return __atomic_load_n(&processor->state, __ATOMIC_ACQUIRE);
}
static void set_state(struct processor *processor, int state)
{
    __atomic_store_n(&processor->state, state, __ATOMIC_RELEASE);
}

static void leave(enum end end)
{
    self->may_jump = 0;
    siglongjmp(self->out, end);
}

static void on_fault(int signal, siginfo_t *info, void *context)
{
    (void)context;
    if (!self || !self->may_jump) {
        static const char text[] = "host: unexpected SIGSEGV\n";
        (void)!write(2, text, sizeof text - 1);
        _exit(71);
    }
    leave(signal == SIGBUS ? BUS : info->si_code == SEGV_ACCERR ? FORBIDDEN : UNMAPPED);
}

static void on_kick(int signal)
{
    (void)signal;
    if (self && self->may_jump)
        leave(KICKED);
}

static uint64_t load(const struct call *call)
{
    switch (call->width) {
    case 1:
        return *(volatile uint8_t *)call->addr;
    case 2:
        return *(volatile uint16_t *)call->addr;
    case 4:
        return *(volatile uint32_t *)call->addr;
    default:
        return *(volatile uint64_t *)call->addr;
    }
}

// Needs the page as a store does, and leaves the memory as it is. So a store that slept and was woken has not been made
// yet, and is made when it is tried again. (A load can be made twice.)
#define TOUCH(suffix) \
    __asm__ volatile("lock or" suffix " $0, %0" : "+m"(*(volatile char *)call->addr) : : "memory", "cc")
static void touch(const struct call *call)
{
    switch (call->width) {
    case 1:
        TOUCH("b");
        break;
    case 2:
        TOUCH("w");
        break;
    case 4:
        TOUCH("l");
        break;
    default:
        TOUCH("q");
    }
}

static void store(const struct call *call)
{
    switch (call->width) {
    case 1:
        *(volatile uint8_t *)call->addr = call->value;
        break;
    case 2:
        *(volatile uint16_t *)call->addr = call->value;
        break;
    case 4:
        *(volatile uint32_t *)call->addr = call->value;
        break;
    default:
        *(volatile uint64_t *)call->addr = call->value;
    }
}

// The reply of an access that does not fault, or whose fault was resolved.
static void make_access(struct processor *processor)
{
    const struct call *call = &processor->call;
    uint64_t value = 0;
    if (call->kind == LOAD)
        value = load(call);
    else
        touch(call);
    if (__atomic_load_n(&processor->slept, __ATOMIC_ACQUIRE))
        strcpy(processor->reply, "woken");
    else if (call->kind == LOAD)
        sprintf(processor->reply, "value 0x%lx", value);
    else {
        store(call);
        strcpy(processor->reply, "done");
    }
}

static void perform(struct processor *processor)
{
    static const char *const ends[] = { "", "segv unmapped", "segv protected", "kicked", "sigbus" };
    int end;
    if (processor->call.kind > STORE) {
        sprintf(processor->reply, "ret %ld", map_call(&processor->call));
        return;
    }
    end = sigsetjmp(processor->out, 1);
    if (end) {
        strcpy(processor->reply, ends[end]);
        return;
    }
    processor->may_jump = 1;
    make_access(processor);
    processor->may_jump = 0;
}

static void *run_processor(void *argument)
{
    struct processor *processor = self = argument;
    unsigned seen = 0;
    processor->id = syscall(SYS_gettid);
    set_state(processor, DONE);
    for (;;) {
        unsigned commands;
        uint64_t one = 1;
        while ((commands = __atomic_load_n(&processor->commands, __ATOMIC_ACQUIRE)) == seen)
            syscall(SYS_futex, &processor->commands, FUTEX_WAIT_PRIVATE, seen, 0, 0, 0);
        seen = commands;
        perform(processor);
        set_state(processor, DONE);
        (void)!write(done_fd, &one, sizeof one);
    }
    return 0;
}

void start_processors(int count)
{
    struct sigaction action;
    memset(&action, 0, sizeof action);
    action.sa_sigaction = on_fault;
    action.sa_flags = SA_SIGINFO;
    sigaction(SIGSEGV, &action, 0);
    sigaction(SIGBUS, &action, 0);
    memset(&action, 0, sizeof action);
    action.sa_handler = on_kick;
    sigaction(SIGUSR1, &action, 0);
    done_fd = eventfd(0, EFD_NONBLOCK | EFD_CLOEXEC);
    if (done_fd < 0)
        die("eventfd");
    processor_count = count;
    for (int k = 0; k < count; k++) {
        if (pthread_create(&processors[k].thread, 0, run_processor, &processors[k]))
            die("a thread could not be started");
        while (state_of(&processors[k]) != DONE)
            usleep(10);
        set_state(&processors[k], IDLE);
    }
}

// What a file of /proc says of a thread.
static void read_of_thread(int id, const char *name, char *text, int size)
{
    char path[64];
    int fd, length = 0;
    snprintf(path, sizeof path, "/proc/self/task/%d/%s", id, name);
    fd = open(path, O_RDONLY | O_CLOEXEC);
    if (fd >= 0) {
        length = read(fd, text, size - 1);
        close(fd);
    }
    text[length < 0 ? 0 : length] = 0;
}

// Whether the kernel says that the thread sleeps in the userfault code.
static int is_in_userfault(struct processor *processor)
{
    char text[512], *behind_name;
    read_of_thread(processor->id, "stat", text, sizeof text);
    behind_name = strrchr(text, ')');
    if (!behind_name || (behind_name[2] != 'S' && behind_name[2] != 'D'))
        return 0;
    read_of_thread(processor->id, "wchan", text, sizeof text);
    return strstr(text, "userfault") != 0;
}

static void clear_done(void)
{
    uint64_t count;
    (void)!read(done_fd, &count, sizeof count);
}

// Waits until the processor is done, or sleeps in the userfault code; "stuck" if neither comes. Where no message was
// unread before it ran (quiet), the first one is its own; else the kernel is asked where the thread is.
static const char *outcome(struct processor *processor, int quiet)
{
    double end = now() + patience;
    for (;;) {
        struct pollfd files[2] = { { done_fd, POLLIN, 0 }, { quiet ? userfault_fd() : -1, POLLIN, 0 } };
        int left = end - now();
        if (state_of(processor) == DONE) {
            clear_done();
            set_state(processor, IDLE);
            return processor->reply;
        }
        if (left <= 0)
            return "stuck";
        if (!quiet && is_in_userfault(processor) && state_of(processor) == RUNNING)
            return "blocked";
        if (poll(files, 2, quiet ? left : 0) <= 0)
            continue;
        if (files[0].revents)
            clear_done(); // whose it was is seen at the top
        else if (files[1].revents & POLLIN && state_of(processor) == RUNNING)
            return "blocked";
    }
}

// A load of a missing page that no one watches makes the kernel's page of zeros present. The model leaves it missing.
static int has_zero_page(const struct call *call, int was_missing)
{
    if (!was_missing || !is_present(call->addr))
        return 0;
    madvise((void *)(call->addr & ~(PAGE - 1)), PAGE, MADV_DONTNEED);
    return 1;
}

void make_command(int k, const struct call *call)
{
    struct processor *processor = &processors[k];
    int was_missing = call->kind == LOAD && !is_present(call->addr), quiet = !is_readable();
    const char *reply;
    if (state_of(processor) != IDLE) {
        answer("busy");
        return;
    }
    processor->call = *call;
    processor->slept = 0;
    set_state(processor, RUNNING);
    __atomic_add_fetch(&processor->commands, 1, __ATOMIC_RELEASE);
    syscall(SYS_futex, &processor->commands, FUTEX_WAKE_PRIVATE, 1, 0, 0, 0);
    reply = outcome(processor, quiet);
    if (!strcmp(reply, "blocked"))
        __atomic_store_n(&processor->slept, 1, __ATOMIC_RELEASE);
    if (!strncmp(reply, "value", 5) && has_zero_page(call, was_missing))
        answer("%s zeropage", reply);
    else
        answer("%s", reply);
}

void await_processor(int k)
{
    if (state_of(&processors[k]) == IDLE)
        answer("idle");
    else
        answer("%s", outcome(&processors[k], !is_readable()));
}

// Whether messages wait does not matter here: the thread must leave the kernel.
void kick_processor(int k)
{
    struct processor *processor = &processors[k];
    double end = now() + patience;
    if (state_of(processor) == IDLE) {
        answer("idle");
        return;
    }
    pthread_kill(processor->thread, SIGUSR1);
    while (state_of(processor) != DONE && now() < end) {
        struct pollfd file = { done_fd, POLLIN, 0 };
        poll(&file, 1, 20);
    }
    answer("%s", state_of(processor) == DONE ? outcome(processor, 1) : "stuck");
}

// Whether a processor that was blocked sleeps still or again, or is done; messages of others do not matter here.
void answer_asleep(int k)
{
    double end = now() + patience;
    while (state_of(&processors[k]) == RUNNING && !is_in_userfault(&processors[k]) && now() < end)
        usleep(10);
    answer(state_of(&processors[k]) != RUNNING ? "done" : is_in_userfault(&processors[k]) ? "asleep" : "stuck");
}

void answer_states(void)
{
    char text[MOST_PROCESSORS + 1] = "";
    for (int k = 0; k < processor_count; k++)
        text[k] = "irD"[state_of(&processors[k])];
    answer("%s", text);
}

void answer_threads(void)
{
    char text[MOST_PROCESSORS * 12] = "";
    for (int k = 0, at = 0; k < processor_count; k++)
        at += sprintf(text + at, "%s%d", k ? " " : "", processors[k].id);
    answer("%s", text);
}
