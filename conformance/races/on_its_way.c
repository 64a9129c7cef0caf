// on_its_way [N]: is a fault read whose page is there already? [fault-on-its-way]
//
// One thread loads N pages in turn, another copies them in the same order, and a third reads messages. A fault of a
// page that was copied before its read began is of a thread that did not sleep: the copy has removed the faults of
// those that did. On a busy machine it is seen under chrt -f 1.
#include <errno.h>
#include <fcntl.h>
#include <linux/userfaultfd.h>
#include <pthread.h>
#include <stdatomic.h>
#include <stdint.h>
#include <stdio.h>
#include <stdlib.h>
#include <sys/ioctl.h>
#include <sys/mman.h>
#include <sys/syscall.h>
#include <unistd.h>

#define PAGE ((size_t)4096)
#define FLAGS (O_CLOEXEC | O_NONBLOCK)

static volatile char *memory;
static size_t pages;
static int fd;
static _Atomic size_t copied; // the pages before this one are there
static _Atomic int is_over;

static void fail(const char *what)
{
    perror(what);
    exit(70);
}

static void *load(void *argument)
{
    for (size_t i = 0; i < pages; i++)
        (void)memory[i * PAGE];
    return argument;
}

static void *copy(void *argument)
{
    static char page[PAGE] __attribute__((aligned(PAGE))) = { 1 };
    for (size_t i = 0; i < pages; i++) {
        struct uffdio_copy one = { (uintptr_t)memory + i * PAGE, (uintptr_t)page, PAGE, 0, 0 };
        if (ioctl(fd, UFFDIO_COPY, &one))
            fail("UFFDIO_COPY");
        copied = i + 1;
    }
    return argument;
}

static void *read_messages(void *argument)
{
    size_t *late = argument;
    while (!is_over) {
        size_t before = copied;
        struct uffd_msg message;
        ssize_t length = read(fd, &message, sizeof message);
        if (length < 0 && errno != EAGAIN)
            fail("read");
        if (length > 0)
            *late += (message.arg.pagefault.address - (uintptr_t)memory) / PAGE < before;
    }
    return argument;
}

static void open_userfault(void)
{
    struct uffdio_api api = { UFFD_API, 0, 0 };
    struct uffdio_register registered = { { (uintptr_t)memory, pages * PAGE }, UFFDIO_REGISTER_MODE_MISSING, 0 };
    fd = syscall(SYS_userfaultfd, FLAGS);
    if (fd < 0)
        fd = syscall(SYS_userfaultfd, FLAGS | UFFD_USER_MODE_ONLY);
    if (fd < 0 || ioctl(fd, UFFDIO_API, &api) || ioctl(fd, UFFDIO_REGISTER, &registered))
        fail("userfaultfd");
}

int main(int count, char **words)
{
    pthread_t threads[3];
    size_t late = 0;
    pages = count > 1 ? strtoul(words[1], 0, 10) : 200000;
    memory = mmap(0, pages * PAGE, PROT_READ | PROT_WRITE, MAP_PRIVATE | MAP_ANONYMOUS, -1, 0);
    if (memory == MAP_FAILED || madvise((void *)memory, pages * PAGE, MADV_NOHUGEPAGE))
        fail("mmap");
    open_userfault();
    if (pthread_create(&threads[0], 0, read_messages, &late) || pthread_create(&threads[1], 0, load, 0) ||
        pthread_create(&threads[2], 0, copy, 0))
        fail("a thread");
    pthread_join(threads[2], 0);
    pthread_join(threads[1], 0);
    is_over = 1;
    pthread_join(threads[0], 0);
    printf("%zu pages: %zu faults read whose page was there%s\n", pages, late,
           late ? "" : ": the race was not seen in this run");
    return 0;
}
