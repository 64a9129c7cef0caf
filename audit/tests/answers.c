/*
 * Asks this machine's kernel for the answers that `kernel_rules` allows and forbids, each by one call: its log is then
 * judged too.
 *
 *     answers
 *
 * Prints each question whose answer is another one, and has status 1 then; 77 where the kernel has no userfaultfd for
 * it.
 */
#include <errno.h>
#include <fcntl.h>
#include <linux/userfaultfd.h>
#include <poll.h>
#include <pthread.h>
#include <stdbool.h>
#include <stdint.h>
#include <stdio.h>
#include <stdlib.h>
#include <string.h>
#include <sys/ioctl.h>
#include <sys/mman.h>
#include <sys/syscall.h>
#include <unistd.h>

#ifndef MREMAP_DONTUNMAP
#define MREMAP_DONTUNMAP 4
#endif

#define PAGE 4096ull
#define ABOVE (1ull << 63) /* no process has this address */
#define CANNOT 77

static int object;
static int failed;
static char *memory;
static char source[2 * PAGE] __attribute__((aligned(4096)));

static void expect(const char *question, long long wanted, long long found)
{
    if (wanted == found)
        return;
    printf("%s: %lld, and not %lld\n", question, found, wanted);
    failed = 1;
}

static void die(const char *what)
{
    perror(what);
    exit(2);
}

/* What a call returns: 0, or its error. */
static long long result(int done)
{
    return done < 0 ? errno : 0;
}

static long long copy_to(int fd, uint64_t to, uint64_t from, uint64_t len, long long *bytes)
{
    struct uffdio_copy copy = { .dst = to, .src = from, .len = len };
    long long answer = result(ioctl(fd, UFFDIO_COPY, &copy));

    *bytes = copy.copy;
    return answer;
}

static long long register_in(int fd, void *start, uint64_t len, uint64_t mode, uint64_t *ioctls)
{
    struct uffdio_register registration = { .range = { (uintptr_t)start, len }, .mode = mode };
    long long answer = result(ioctl(fd, UFFDIO_REGISTER, &registration));

    *ioctls = registration.ioctls;
    return answer;
}

static char *mapped(uint64_t len)
{
    char *start = mmap(NULL, len, PROT_READ | PROT_WRITE, MAP_PRIVATE | MAP_ANONYMOUS, -1, 0);

    if (start == MAP_FAILED)
        die("mmap");
    return start;
}

/* Before its handshake an object refuses all but UFFDIO_API. */
static void ask_early(void)
{
    struct uffd_msg message;
    struct pollfd polled = { .fd = object, .events = POLLIN | POLLOUT };
    uint64_t ioctls;
    long long bytes;

    expect("open, an unknown flag", EINVAL, result((int)syscall(SYS_userfaultfd, O_NONBLOCK | 0x40)));
    expect("register before the handshake", EINVAL,
           register_in(object, memory, PAGE, UFFDIO_REGISTER_MODE_MISSING, &ioctls));
    expect("copy before the handshake", EINVAL, copy_to(object, (uintptr_t)memory, (uintptr_t)source, PAGE, &bytes));
    expect("read before the handshake", EINVAL, result((int)read(object, &message, sizeof message)));
    expect("poll before the handshake", 1, poll(&polled, 1, 0));
    expect("its events", POLLERR, polled.revents);
}

static void ask_handshake(void)
{
    struct uffdio_api api = { .api = UFFD_API, .features = UFFD_FEATURE_EVENT_REMAP };

    expect("api", 0, result(ioctl(object, UFFDIO_API, &api)));
    expect("features are offered", 1, api.features != 0);
    expect("its ioctls", 1, (api.ioctls & 1) && (api.ioctls >> 1 & 1) && api.ioctls >> 63);
    expect("a second api", EINVAL, result(ioctl(object, UFFDIO_API, &(struct uffdio_api){ .api = UFFD_API })));
}

static void ask_registration(void)
{
    uint64_t ioctls;

    expect("register", 0, register_in(object, memory, 4 * PAGE, UFFDIO_REGISTER_MODE_MISSING, &ioctls));
    expect("UFFDIO_WAKE and UFFDIO_COPY", 1, (ioctls >> _UFFDIO_WAKE & 1) && (ioctls >> _UFFDIO_COPY & 1));
    expect("register above the user's half", EINVAL,
           register_in(object, (void *)ABOVE, PAGE, UFFDIO_REGISTER_MODE_MISSING, &ioctls));
}

static void ask_poll(void)
{
    struct pollfd polled = { .fd = object, .events = POLLIN | POLLOUT | POLLRDHUP };

    expect("poll, and nothing waits", 0, poll(&polled, 1, 0));
    expect("its events", 0, polled.revents);
}

/* What is wrong with the addresses of a call, and a copy that stops at a source that cannot be read. */
static void ask_copies(void)
{
    struct uffdio_range above = { ABOVE, PAGE };
    struct uffdio_writeprotect protect = { .range = above, .mode = UFFDIO_WRITEPROTECT_MODE_WP };
    uint64_t at = (uintptr_t)memory;
    char *hole = mapped(2 * PAGE);
    long long bytes;

    expect("copy from a source that wraps", EINVAL, copy_to(object, at, -PAGE, 2 * PAGE, &bytes));
    expect("copy from above the user's half", EINVAL, copy_to(object, at, ABOVE, PAGE, &bytes));
    expect("copy to above the user's half", EINVAL, copy_to(object, ABOVE, (uintptr_t)source, PAGE, &bytes));
    expect("wake above the user's half", EINVAL, result(ioctl(object, UFFDIO_WAKE, &above)));
    expect("writeprotect above the user's half", EINVAL, result(ioctl(object, UFFDIO_WRITEPROTECT, &protect)));
    if (munmap(hole + PAGE, PAGE))
        die("munmap");
    memset(hole, 1, PAGE);
    expect("copy of two pages, the second unreadable", EAGAIN, copy_to(object, at, (uintptr_t)hole, 2 * PAGE, &bytes));
    expect("its bytes", PAGE, bytes);
    expect("copy of the second page", 0, copy_to(object, at + PAGE, (uintptr_t)source, PAGE, &bytes));
    expect("copy to a present page", EEXIST, copy_to(object, at, (uintptr_t)source, PAGE, &bytes));
    expect("its bytes", -EEXIST, bytes);
}

/* MADV_DONTNEED stops at pages that are locked, and has cleared those before them. */
static void ask_madvise(void)
{
    uint64_t at = (uintptr_t)memory;
    long long bytes;

    if (mlock(memory + PAGE, PAGE)) {
        printf("left out: no page can be locked\n");
        return;
    }
    expect("MADV_DONTNEED over a locked page", EINVAL, result(madvise(memory, 2 * PAGE, MADV_DONTNEED)));
    expect("copy to the page before it", 0, copy_to(object, at, (uintptr_t)source, PAGE, &bytes));
    expect("copy to the locked page", EEXIST, copy_to(object, at + PAGE, (uintptr_t)source, PAGE, &bytes));
    if (munlock(memory + PAGE, PAGE))
        die("munlock");
    expect("madvise, an unknown advice", EINVAL, result(madvise(memory, PAGE, 12345)));
}

static void ask_map_calls(void)
{
    char *place = mapped(PAGE);
    void *none = mmap(NULL, 0, PROT_READ, MAP_PRIVATE | MAP_ANONYMOUS, -1, 0);

    expect("mmap of no byte", EINVAL, none == MAP_FAILED ? errno : 0);
    expect("munmap of no byte", EINVAL, result(munmap(memory, 0)));
    expect("MAP_FIXED", 1, mmap(place, PAGE, PROT_READ, MAP_PRIVATE | MAP_ANONYMOUS | MAP_FIXED, -1, 0) == place);
}

static void *touch(void *at)
{
    *(volatile char *)at = 1;
    return NULL;
}

/* Without UFFD_FEATURE_EXACT_ADDRESS a message has the address of the page. */
static void ask_fault(void)
{
    struct pollfd polled = { .fd = object, .events = POLLIN };
    struct uffd_msg message;
    char *at = memory + 2 * PAGE;
    pthread_t thread;
    long long bytes;

    if (pthread_create(&thread, NULL, touch, at + 0x123))
        die("pthread_create");
    expect("poll for a fault", 1, poll(&polled, 1, 10000));
    expect("its events", POLLIN, polled.revents);
    expect("read", sizeof message, read(object, &message, sizeof message));
    expect("its address", (long long)(uintptr_t)at, (long long)message.arg.pagefault.address);
    expect("its flags", UFFD_PAGEFAULT_FLAG_WRITE, (long long)message.arg.pagefault.flags);
    expect("copy to its page", 0, copy_to(object, (uintptr_t)at, (uintptr_t)source, PAGE, &bytes));
    if (pthread_join(thread, NULL))
        die("pthread_join");
}

struct move {
    char *from, *to;
};

static void *move_away(void *argument)
{
    struct move *move = argument;

    move->to = mremap(move->from, PAGE, PAGE, MREMAP_MAYMOVE | MREMAP_DONTUNMAP);
    return NULL;
}

/* MREMAP_DONTUNMAP sends UFFD_EVENT_REMAP alone, and both ranges stay registered. */
static void ask_remap(void)
{
    struct pollfd polled = { .fd = object, .events = POLLIN };
    struct move move = { .from = memory + 3 * PAGE };
    struct uffd_msg message;
    pthread_t thread;
    long long bytes;

    if (pthread_create(&thread, NULL, move_away, &move))
        die("pthread_create");
    expect("poll for a remap", 1, poll(&polled, 1, 10000));
    expect("read", sizeof message, read(object, &message, sizeof message));
    expect("its event", UFFD_EVENT_REMAP, message.event);
    if (pthread_join(thread, NULL))
        die("pthread_join");
    if (move.to == MAP_FAILED)
        die("mremap");
    expect("no event is left", EAGAIN, result((int)read(object, &message, sizeof message)));
    expect("copy to the old place", 0, copy_to(object, (uintptr_t)move.from, (uintptr_t)source, PAGE, &bytes));
    expect("copy to the new place", 0, copy_to(object, (uintptr_t)move.to, (uintptr_t)source, PAGE, &bytes));
}

int main(void)
{
    object = (int)syscall(SYS_userfaultfd, O_CLOEXEC | O_NONBLOCK);
    if (object < 0) {
        fprintf(stderr, "no userfaultfd: %s\n", strerror(errno));
        return CANNOT;
    }
    memory = mapped(4 * PAGE);
    memset(source, 2, sizeof source);
    ask_early();
    ask_handshake();
    ask_registration();
    ask_poll();
    ask_copies();
    ask_madvise();
    ask_map_calls();
    ask_fault();
    ask_remap();
    if (!failed)
        printf("ok\n");
    return failed;
}
