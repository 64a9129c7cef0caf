/*
 * Calls whose answers are in a log before the end of the call that they need: a page is copied while munmap unmaps it,
 * and pages fault and are copied while UFFDIO_REGISTER registers them.
 *
 *     races [CHUNKS]
 *
 * The status is 77 where the kernel has no userfaultfd for it.
 */
#include <errno.h>
#include <fcntl.h>
#include <linux/userfaultfd.h>
#include <poll.h>
#include <pthread.h>
#include <stdatomic.h>
#include <stdint.h>
#include <stdio.h>
#include <stdlib.h>
#include <string.h>
#include <sys/ioctl.h>
#include <sys/mman.h>
#include <sys/syscall.h>
#include <unistd.h>

#define PAGE 4096ull
#define MAPPED (64ull << 20)
#define CHUNK (64 * PAGE)
#define STORERS 2
#define CANNOT 77

static int object;
static char source[PAGE] __attribute__((aligned(4096)));
static char *memory;
static uint64_t bytes;           /* of memory */
static _Atomic uint64_t allowed; /* of these: those that the threads may store to */
static _Atomic int is_over;

static void die(const char *what)
{
    perror(what);
    exit(2);
}

static int copy_to(char *to)
{
    struct uffdio_copy copy = { .dst = (uintptr_t)to, .src = (uintptr_t)source, .len = PAGE };

    return ioctl(object, UFFDIO_COPY, &copy) ? errno : 0;
}

static void register_in(char *start, uint64_t len)
{
    struct uffdio_register registration = { .range = { (uintptr_t)start, len }, .mode = UFFDIO_REGISTER_MODE_MISSING };

    if (ioctl(object, UFFDIO_REGISTER, &registration))
        die("UFFDIO_REGISTER");
}

static char *mapped(uint64_t len)
{
    char *start = mmap(NULL, len, PROT_READ | PROT_WRITE, MAP_PRIVATE | MAP_ANONYMOUS, -1, 0);

    if (start == MAP_FAILED)
        die("mmap");
    if (madvise(start, len, MADV_NOHUGEPAGE) && errno != EINVAL)
        die("madvise");
    return start;
}

static void *copy_until_gone(void *at)
{
    while (copy_to(at) != ENOENT)
        ;
    return NULL;
}

static void unmap_beside_copies(void)
{
    char *start = mapped(MAPPED);
    pthread_t thread;

    memset(start, 1, MAPPED);
    register_in(start, MAPPED);
    if (pthread_create(&thread, NULL, copy_until_gone, start))
        die("pthread_create");
    usleep(300);
    if (munmap(start, MAPPED))
        die("munmap");
    if (pthread_join(thread, NULL))
        die("pthread_join");
}

static void *store(void *argument)
{
    uint64_t at = (uint64_t)(uintptr_t)argument * PAGE;

    while (at < bytes) {
        if (at < atomic_load(&allowed)) {
            memory[at] = 1;
            at += STORERS * PAGE;
        }
    }
    return NULL;
}

static void *resolve(void *argument)
{
    struct pollfd polled = { .fd = object, .events = POLLIN };
    struct uffd_msg message;

    while (!atomic_load(&is_over)) {
        if (poll(&polled, 1, 10) == 1 && read(object, &message, sizeof message) == sizeof message &&
            message.event == UFFD_EVENT_PAGEFAULT)
            copy_to((char *)(uintptr_t)(message.arg.pagefault.address & ~(PAGE - 1)));
    }
    return argument;
}

static void register_beside_stores(unsigned chunks)
{
    pthread_t threads[STORERS + 1];

    bytes = chunks * CHUNK;
    memory = mapped(bytes);
    for (uintptr_t i = 0; i < STORERS; i++)
        if (pthread_create(&threads[i], NULL, store, (void *)i))
            die("pthread_create");
    if (pthread_create(&threads[STORERS], NULL, resolve, NULL))
        die("pthread_create");
    for (unsigned i = 0; i < chunks; i++) {
        atomic_store(&allowed, (i + 1) * CHUNK);
        register_in(memory + i * CHUNK, CHUNK);
        usleep(200);
    }
    for (unsigned i = 0; i <= STORERS; i++) {
        if (i == STORERS)
            atomic_store(&is_over, 1);
        if (pthread_join(threads[i], NULL))
            die("pthread_join");
    }
}

int main(int count, char **words)
{
    struct uffdio_api api = { .api = UFFD_API };
    int chunks = count > 1 ? atoi(words[1]) : 50;

    object = (int)syscall(SYS_userfaultfd, O_CLOEXEC | O_NONBLOCK);
    if (object < 0) {
        fprintf(stderr, "no userfaultfd: %s\n", strerror(errno));
        return CANNOT;
    }
    if (ioctl(object, UFFDIO_API, &api))
        die("UFFDIO_API");
    unmap_beside_copies();
    register_beside_stores(chunks > 0 ? (unsigned)chunks : 1);
    return 0;
}
