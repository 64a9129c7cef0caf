// protect_order [N]: does it matter whether a source protects a page and then reads it, or the other way round?
//
// A processor stores rising numbers to one page without a pause, and the page is sent N times in each order. The copy
// is lost where the page holds something else than the copy once the processor sleeps in its next store: a store
// between was neither sent nor seen. The status is 3 where protecting first loses a copy.
#include <fcntl.h>
#include <linux/userfaultfd.h>
#include <poll.h>
#include <pthread.h>
#include <stdint.h>
#include <stdio.h>
#include <stdlib.h>
#include <sys/ioctl.h>
#include <sys/mman.h>
#include <sys/syscall.h>
#include <unistd.h>

#define PAGE 4096
#define FLAGS (O_CLOEXEC | O_NONBLOCK)

static volatile uint64_t *page;
static volatile int has_ended;
static int fd;

static void *run_guest(void *argument)
{
    for (uint64_t i = 1; !has_ended; i++)
        *page = i;
    return argument;
}

static void fail(const char *what)
{
    perror(what);
    exit(70);
}

static void open_userfault(void)
{
    struct uffdio_api api = { UFFD_API, UFFD_FEATURE_PAGEFAULT_FLAG_WP, 0 };
    struct uffdio_register registered;
    fd = syscall(SYS_userfaultfd, FLAGS);
    if (fd < 0)
        fd = syscall(SYS_userfaultfd, FLAGS | UFFD_USER_MODE_ONLY);
    page = mmap(0, PAGE, PROT_READ | PROT_WRITE, MAP_PRIVATE | MAP_ANONYMOUS, -1, 0);
    *page = 0;
    registered = (struct uffdio_register){ { (uintptr_t)page, PAGE }, UFFDIO_REGISTER_MODE_WP, 0 };
    if (fd < 0 || ioctl(fd, UFFDIO_API, &api) || ioctl(fd, UFFDIO_REGISTER, &registered))
        fail("userfaultfd");
}

static void set_protection(uint64_t mode)
{
    struct uffdio_writeprotect call = { { (uintptr_t)page, PAGE }, mode };
    if (ioctl(fd, UFFDIO_WRITEPROTECT, &call))
        fail("UFFDIO_WRITEPROTECT");
}

static void await_store(void)
{
    struct pollfd file = { fd, POLLIN, 0 };
    struct uffd_msg message;
    if (poll(&file, 1, 5000) != 1 || read(fd, &message, sizeof message) != sizeof message)
        fail("no fault of a store");
}

// Sends the page once: whether a store was lost.
static int send(int reads_first)
{
    uint64_t copy = 0;
    int is_lost;
    if (reads_first)
        copy = *page;
    set_protection(UFFDIO_WRITEPROTECT_MODE_WP);
    if (!reads_first)
        copy = *page;
    await_store();
    is_lost = *page != copy;
    set_protection(0);
    return is_lost;
}

int main(int count, char **words)
{
    int sends = count > 1 ? atoi(words[1]) : 20000, status = 0;
    pthread_t guest;
    open_userfault();
    if (pthread_create(&guest, 0, run_guest, 0))
        fail("a thread");
    for (int reads_first = 0; reads_first < 2; reads_first++) {
        int lost = 0;
        for (int i = 0; i < sends; i++)
            lost += send(reads_first);
        printf("%s: %d of %d copies lost a store%s\n", reads_first ? "read, then protected" : "protected, then read",
               lost, sends, reads_first && !lost ? ": the race was not seen in this run" : "");
        if (!reads_first && lost)
            status = 3;
    }
    has_ended = 1;
    pthread_join(guest, 0);
    return status;
}
