/*
 * Uses a userfaultfd in every way that a log has a line for, in several threads and processes: what `audit/test`
 * records.
 *
 *     program          status 0; 77 where the kernel allows no userfaultfd, or not what is needed of it
 */
#include <errno.h>
#include <fcntl.h>
#include <linux/userfaultfd.h>
#include <poll.h>
#include <pthread.h>
#include <sched.h>
#include <signal.h>
#include <stdarg.h>
#include <stdatomic.h>
#include <stdbool.h>
#include <stddef.h>
#include <stdint.h>
#include <stdio.h>
#include <stdlib.h>
#include <string.h>
#include <sys/ioctl.h>
#include <sys/mman.h>
#include <sys/socket.h>
#include <sys/syscall.h>
#include <sys/time.h>
#include <sys/wait.h>
#include <unistd.h>

#define PAGE 4096u
#define PAGES 64u
#define WORKERS 2
#define STATUS_CANNOT 77
#define EVENTS \
    (UFFD_FEATURE_EVENT_FORK | UFFD_FEATURE_EVENT_REMAP | UFFD_FEATURE_EVENT_REMOVE | UFFD_FEATURE_EVENT_UNMAP)
#define FEATURES (UFFD_FEATURE_PAGEFAULT_FLAG_WP | UFFD_FEATURE_THREAD_ID | EVENTS)

static int object = -1;               /* the object under test */
static _Atomic int child_object = -1; /* that of a forked child, once its message was read */
static char *area;
static atomic_bool handler_stops;
static atomic_int signals_taken;
static _Alignas(4096) char page_of_sevens[PAGE];

static _Noreturn void fail(const char *format, ...) __attribute__((format(printf, 1, 2)));
static _Noreturn void fail(const char *format, ...)
{
    int error = errno;
    va_list arguments;

    va_start(arguments, format);
    fprintf(stderr, "program: ");
    vfprintf(stderr, format, arguments);
    fprintf(stderr, " (%s)\n", strerror(error));
    va_end(arguments);
    _exit(1);
}

static uint64_t address(const void *place)
{
    return (uintptr_t)place;
}

static _Noreturn void cannot(const char *what)
{
    fprintf(stderr, "program: this kernel does not allow %s: %s\n", what, strerror(errno));
    exit(STATUS_CANNOT);
}

/* Not everybody may watch the kernel's own faults. */
static int open_object(int flags)
{
    int fd = (int)syscall(SYS_userfaultfd, flags);

    if (fd < 0 && errno == EPERM)
        fd = (int)syscall(SYS_userfaultfd, flags | UFFD_USER_MODE_ONLY);
    if (fd < 0)
        cannot("userfaultfd");
    return fd;
}

static void handshake(int fd, uint64_t features)
{
    struct uffdio_api api = { .api = UFFD_API, .features = features };
    struct uffdio_api less = { .api = UFFD_API, .features = features & ~(uint64_t)UFFD_FEATURE_EVENT_FORK };

    /* Not everybody may have the message FORK. */
    if (ioctl(fd, UFFDIO_API, &api) && (errno != EPERM || ioctl(fd, UFFDIO_API, &less)))
        cannot("a userfaultfd with write protection and events");
}

static void watch(int fd, const char *start, size_t length, uint64_t mode)
{
    struct uffdio_register call = { .range = { address(start), length }, .mode = mode };

    if (ioctl(fd, UFFDIO_REGISTER, &call))
        fail("UFFDIO_REGISTER");
}

static void stop_watching(int fd, const char *start, size_t length)
{
    struct uffdio_range call = { address(start), length };

    if (ioctl(fd, UFFDIO_UNREGISTER, &call))
        fail("UFFDIO_UNREGISTER");
}

static void wake(int fd, uint64_t start, uint64_t length)
{
    struct uffdio_range call = { start, length };

    if (ioctl(fd, UFFDIO_WAKE, &call))
        fail("UFFDIO_WAKE");
}

static void protect(int fd, uint64_t start, uint64_t length)
{
    struct uffdio_writeprotect call = { { start, length }, UFFDIO_WRITEPROTECT_MODE_WP };

    if (ioctl(fd, UFFDIO_WRITEPROTECT, &call))
        fail("UFFDIO_WRITEPROTECT");
}

/* Allows stores to a page. While an event is unread the kernel says EAGAIN: the thread is woken, and faults again
   after it. */
static void unprotect(int fd, uint64_t page)
{
    struct uffdio_writeprotect call = { { page, PAGE }, 0 };

    if (!ioctl(fd, UFFDIO_WRITEPROTECT, &call))
        return;
    if (errno != EAGAIN && errno != ENOENT)
        fail("UFFDIO_WRITEPROTECT of one page");
    wake(fd, page, PAGE);
}

static void install(int fd, uint64_t page)
{
    struct uffdio_copy copy = { .dst = page, .src = address(page_of_sevens), .len = PAGE };
    struct uffdio_zeropage zero = { .range = { page, PAGE } };
    bool with_zeros = page / PAGE % 4 == 3;
    int result = with_zeros ? ioctl(fd, UFFDIO_ZEROPAGE, &zero) : ioctl(fd, UFFDIO_COPY, &copy);

    if (result && errno == EEXIST)
        wake(fd, page, PAGE);
    else if (result && errno != EAGAIN && errno != ENOENT && errno != ESRCH)
        fail("an install at 0x%llx", (unsigned long long)page);
    else if (result) /* an event of the same range comes first: the thread faults again, and so does its message */
        wake(fd, page, PAGE);
}

static void handle(int fd, const struct uffd_msg *message)
{
    uint64_t page;

    switch (message->event) {
    case UFFD_EVENT_PAGEFAULT:
        page = message->arg.pagefault.address & ~(uint64_t)(PAGE - 1);
        if (message->arg.pagefault.flags & UFFD_PAGEFAULT_FLAG_WP)
            unprotect(fd, page);
        else
            install(fd, page);
        break;
    case UFFD_EVENT_FORK:
        atomic_store(&child_object, (int)message->arg.fork.ufd);
        break;
    default: /* the kernel waits for the read alone */
        break;
    }
}

static void read_messages(int fd)
{
    struct uffd_msg messages[2];
    ssize_t got = read(fd, messages, sizeof messages);

    if (got < 0) {
        if (errno != EAGAIN)
            fail("read");
        return;
    }
    for (size_t i = 0; i < (size_t)got / sizeof *messages; i++)
        handle(fd, &messages[i]);
}

static void *handler(void *unused)
{
    (void)unused;
    while (!atomic_load(&handler_stops)) {
        struct pollfd fds[2] = { { object, POLLIN, 0 }, { atomic_load(&child_object), POLLIN, 0 } };
        int ready = poll(fds, 2, 10);

        if (ready < 0 && errno != EINTR)
            fail("poll");
        for (int i = 0; ready > 0 && i < 2; i++)
            if (fds[i].revents & POLLIN)
                read_messages(fds[i].fd);
    }
    return NULL;
}

/* Each worker touches all pages, in its own order: so both may sleep on one page. */
static void *toucher(void *argument)
{
    unsigned seed = (unsigned)(uintptr_t)argument, step = seed % 2 ? 5 : 7;

    for (unsigned i = 0; i < PAGES; i++) {
        volatile char *place = area + (i * step % PAGES) * PAGE + seed;

        if (i % 2)
            *place = 1;
        else if (*place != 7 && *place != 0 && *place != 1)
            fail("a byte that nobody stored: %d", *place);
    }
    return NULL;
}

static void run_workers(void)
{
    pthread_t workers[WORKERS];

    for (uintptr_t i = 0; i < WORKERS; i++)
        if (pthread_create(&workers[i], NULL, toucher, (void *)(i + 1)))
            fail("pthread_create");
    for (int i = 0; i < WORKERS; i++)
        if (pthread_join(workers[i], NULL))
            fail("pthread_join");
}

/* Pages leave, move and go while they are watched: REMOVE, REMAP, UNMAP. */
static void change_map(void)
{
    char *spare = mmap(NULL, 4 * PAGE, PROT_NONE, MAP_PRIVATE | MAP_ANONYMOUS, -1, 0);

    if (spare == MAP_FAILED)
        fail("mmap");
    if (madvise(area, 8 * PAGE, MADV_DONTNEED))
        fail("madvise");
    run_workers();
    if (mremap(area + 8 * PAGE, 4 * PAGE, 4 * PAGE, MREMAP_MAYMOVE | MREMAP_FIXED, spare) != spare)
        fail("mremap");
    *(volatile char *)spare = 1;
    if (munmap(spare, 4 * PAGE))
        fail("munmap");
    if (mmap(area + 8 * PAGE, 4 * PAGE, PROT_READ | PROT_WRITE, MAP_PRIVATE | MAP_ANONYMOUS | MAP_FIXED, -1, 0) !=
        area + 8 * PAGE)
        fail("mmap over a hole");
    run_workers();
}

static void copy_descriptors(void)
{
    int copies[3] = { dup(object), fcntl(object, F_DUPFD_CLOEXEC, 40), dup2(object, 60) };

    for (int i = 0; i < 3; i++) {
        if (copies[i] < 0)
            fail("a copy of the descriptor");
        wake(copies[i], address(area), PAGE);
    }
    if (close(copies[0]) || close(copies[1]) || close_range(60, 60, 0))
        fail("close of a copy");
}

static void await_child(pid_t child)
{
    int status = 0;

    while (waitpid(child, &status, 0) < 0)
        if (errno != EINTR)
            fail("waitpid");
    if (status)
        fail("a child has status 0x%x", (unsigned)status);
}

static int drop_a_page(void *unused)
{
    (void)unused;
    return madvise(area, PAGE, MADV_DONTNEED) != 0;
}

/* A child with this process's memory, whose call is one on it. */
static void share_memory(void)
{
    static _Alignas(16) char stack[1 << 16];
    pid_t child = clone(drop_a_page, stack + sizeof stack, CLONE_VM | CLONE_FILES | SIGCHLD, NULL);

    if (child < 0)
        fail("clone");
    await_child(child);
}

/* The child has an object of its own, by the message FORK, and the parent's descriptors too. */
static void fork_child(void)
{
    pid_t child;
    int made;

    if (madvise(area, 4 * PAGE, MADV_DONTNEED))
        fail("madvise");
    child = fork();
    if (child < 0)
        fail("fork");
    if (child == 0) {
        for (unsigned i = 0; i < 4; i++)
            *(volatile char *)(area + i * PAGE) = 2;
        wake(object, address(area), PAGE);
        _exit(0);
    }
    await_child(child);
    made = atomic_exchange(&child_object, -1);
    if (made >= 0 && close(made))
        fail("close of the child's object");
}

/* A handler in another process gets the descriptor by a socket. */
static void pass_descriptor(void)
{
    union {
        struct cmsghdr head;
        char bytes[CMSG_SPACE(sizeof(int))];
    } control = { .bytes = { 0 } };
    char byte = 0;
    struct iovec part = { &byte, 1 };
    struct msghdr message = {
        .msg_iov = &part, .msg_iovlen = 1, .msg_control = control.bytes, .msg_controllen = sizeof control.bytes
    };
    int ends[2], received;
    pid_t child;

    if (socketpair(AF_UNIX, SOCK_STREAM, 0, ends))
        fail("socketpair");
    child = fork();
    if (child < 0)
        fail("fork");
    if (child == 0) {
        if (close(object) || recvmsg(ends[1], &message, 0) != 1)
            fail("recvmsg");
        memcpy(&received, CMSG_DATA(CMSG_FIRSTHDR(&message)), sizeof received);
        wake(received, address(area), PAGE);
        _exit(close(received) != 0);
    }
    message.msg_control = control.bytes;
    control.head =
        (struct cmsghdr){ .cmsg_len = CMSG_LEN(sizeof(int)), .cmsg_level = SOL_SOCKET, .cmsg_type = SCM_RIGHTS };
    memcpy(CMSG_DATA(&control.head), &object, sizeof object);
    if (sendmsg(ends[0], &message, 0) != 1)
        fail("sendmsg");
    await_child(child);
    received = atomic_exchange(&child_object, -1);
    if (close(ends[0]) || close(ends[1]) || (received >= 0 && close(received)))
        fail("close");
}

/* A handler of signals that makes a recorded call, while others are made. */
static void on_signal(int signal)
{
    struct uffdio_range call = { address(area), PAGE };
    int error = errno;

    (void)signal;
    (void)ioctl(object, UFFDIO_WAKE, &call);
    atomic_fetch_add(&signals_taken, 1);
    errno = error;
}

static void take_signals(void)
{
    struct sigaction action = { .sa_handler = on_signal, .sa_flags = SA_RESTART };
    struct itimerval often = { { 0, 200 }, { 0, 200 } }, never = { { 0, 0 }, { 0, 0 } };

    if (sigaction(SIGALRM, &action, NULL) || setitimer(ITIMER_REAL, &often, NULL))
        fail("setitimer");
    for (int i = 0; i < 2000 || (atomic_load(&signals_taken) < 20 && i < 2000000); i++)
        wake(object, address(area) + PAGE, PAGE);
    if (setitimer(ITIMER_REAL, &never, NULL) || !atomic_load(&signals_taken))
        fail("no signal came");
}

/* What is refused, a bad address among it. */
static void make_mistakes(void)
{
    struct uffdio_copy copy = { .dst = address(area) + 1, .src = address(page_of_sevens), .len = PAGE };
    struct uffdio_range outside = { 16 * PAGE, PAGE };

    if (!ioctl(object, UFFDIO_COPY, (void *)8) || errno != EFAULT)
        fail("an ioctl with a bad address");
    if (!ioctl(object, UFFDIO_COPY, &copy) || errno != EINVAL)
        fail("a copy inside a page");
    (void)ioctl(object, UFFDIO_UNREGISTER, &outside);
    if (fcntl(object, F_SETFL, O_NONBLOCK) || close(-1) == 0)
        fail("F_SETFL");
}

/* Objects that end in other ways: closed with a whole range, and by another file that takes the number. */
static void end_others(void)
{
    int first = open_object(O_CLOEXEC), second = open_object(O_CLOEXEC),
        other = open("/dev/null", O_RDONLY | O_CLOEXEC);

    handshake(first, 0);
    handshake(second, 0);
    if (other < 0 || dup2(other, first) != first || close_range((unsigned)second, (unsigned)second, 0) ||
        close(other) || close(first))
        fail("the end of other objects");
}

int main(void)
{
    pthread_t thread;

    memset(page_of_sevens, 7, PAGE);
    area = mmap(NULL, PAGES * PAGE, PROT_READ | PROT_WRITE, MAP_PRIVATE | MAP_ANONYMOUS, -1, 0);
    if (area == MAP_FAILED)
        fail("mmap");
    area[3 * PAGE] = 7; /* present when it is registered */
    object = open_object(O_CLOEXEC | O_NONBLOCK);
    handshake(object, FEATURES);
    watch(object, area, PAGES * PAGE, UFFDIO_REGISTER_MODE_MISSING | UFFDIO_REGISTER_MODE_WP);
    if (pthread_create(&thread, NULL, handler, NULL))
        fail("pthread_create");
    run_workers();
    protect(object, address(area), PAGES * PAGE);
    run_workers();
    change_map();
    copy_descriptors();
    share_memory();
    fork_child();
    pass_descriptor();
    take_signals();
    make_mistakes();
    end_others();
    atomic_store(&handler_stops, true);
    if (pthread_join(thread, NULL))
        fail("pthread_join");
    stop_watching(object, area, PAGES * PAGE);
    if (close(object))
        fail("close");
    puts("ok");
    return 0;
}
