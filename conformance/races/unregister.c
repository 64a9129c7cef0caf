// unregister [N]: does UFFDIO_UNREGISTER leave a thread asleep?
//
// A thread makes its first access to the last page of a range while the range is unregistered, N times for each way to
// register it. Then it has gone on, or it sleeps until UFFDIO_WAKE is called for the range. The status is 3 where it
// sleeps after that too.
#include <fcntl.h>
#include <linux/userfaultfd.h>
#include <pthread.h>
#include <stdatomic.h>
#include <stdint.h>
#include <stdio.h>
#include <stdlib.h>
#include <sys/ioctl.h>
#include <sys/mman.h>
#include <sys/syscall.h>
#include <unistd.h>

#define PAGE ((size_t)4096)
#define FLAGS (O_CLOEXEC | O_NONBLOCK)
#define BOTH (UFFDIO_REGISTER_MODE_MISSING | UFFDIO_REGISTER_MODE_WP)
#define MOMENT_US 200000
#define PATIENCE_US 20000000

static volatile char *last; // the last page
static _Atomic int is_begun, is_done;

static void fail(const char *what)
{
    perror(what);
    exit(70);
}

static void *store(void *argument)
{
    while (!is_begun)
        continue;
    *last = 1;
    is_done = 1;
    return argument;
}

static int open_userfault(struct uffdio_range range, uint64_t mode)
{
    struct uffdio_api api = { UFFD_API, UFFD_FEATURE_PAGEFAULT_FLAG_WP, 0 };
    struct uffdio_register registered = { range, mode, 0 };
    int fd = syscall(SYS_userfaultfd, FLAGS);
    if (fd < 0)
        fd = syscall(SYS_userfaultfd, FLAGS | UFFD_USER_MODE_ONLY);
    if (fd < 0 || ioctl(fd, UFFDIO_API, &api) || ioctl(fd, UFFDIO_REGISTER, &registered))
        fail("userfaultfd");
    return fd;
}

static int is_done_within(useconds_t microseconds)
{
    for (useconds_t i = 0; i < microseconds && !is_done; i += 1000)
        usleep(1000);
    return is_done;
}

// All pages but the last are there. Returns 0 where the thread has gone on, 1 where it sleeps until it is woken, and
// else 2.
static int unregister(size_t pages, uint64_t mode)
{
    char *memory = mmap(0, pages * PAGE, PROT_READ | PROT_WRITE, MAP_PRIVATE | MAP_ANONYMOUS, -1, 0);
    struct uffdio_range range = { (uintptr_t)memory, pages * PAGE };
    struct uffdio_writeprotect protect = { range, UFFDIO_WRITEPROTECT_MODE_WP };
    pthread_t thread;
    int fd, sleeps;
    if (memory == MAP_FAILED || madvise(memory, pages * PAGE, MADV_NOHUGEPAGE))
        fail("mmap");
    for (size_t i = 0; i + 1 < pages; i++)
        memory[i * PAGE] = 1;
    last = memory + (pages - 1) * PAGE;
    is_begun = is_done = 0;
    fd = open_userfault(range, mode);
    if (mode == BOTH && ioctl(fd, UFFDIO_WRITEPROTECT, &protect))
        fail("UFFDIO_WRITEPROTECT");
    if (pthread_create(&thread, 0, store, 0))
        fail("a thread");
    usleep(1000); // (it runs by then, for the most part)
    is_begun = 1;
    if (ioctl(fd, UFFDIO_UNREGISTER, &range))
        fail("UFFDIO_UNREGISTER");
    sleeps = !is_done_within(MOMENT_US);
    if (ioctl(fd, UFFDIO_WAKE, &range))
        fail("UFFDIO_WAKE");
    if (!is_done_within(PATIENCE_US))
        return 2;
    pthread_join(thread, 0);
    munmap(memory, pages * PAGE);
    close(fd);
    return sleeps;
}

int main(int count, char **words)
{
    int times = count > 1 ? atoi(words[1]) : 20;
    for (int is_large = 0; is_large < 2; is_large++) {
        int asleep = 0;
        for (int i = 0; i < times; i++) {
            int sleeps = unregister(is_large ? 16384 : 1, is_large ? BOTH : UFFDIO_REGISTER_MODE_MISSING);
            if (sleeps == 2) {
                printf("asleep after UFFDIO_WAKE\n");
                return 3;
            }
            asleep += sleeps;
        }
        printf("%s: %d of %d asleep until UFFDIO_WAKE%s\n",
               is_large ? "64 MiB in both modes" : "a page for missing faults", asleep, times,
               asleep ? "" : ": the race was not seen in this run");
    }
    return 0;
}
