/*
 * How many installs a second a thread makes: `cost [SECONDS]` prints "INSTALLS copies a second". Each round installs
 * all pages of a range, one UFFDIO_COPY a page, and takes them away by one MADV_DONTNEED, which is not counted.
 */
#include <errno.h>
#include <fcntl.h>
#include <linux/userfaultfd.h>
#include <stddef.h>
#include <stdint.h>
#include <stdio.h>
#include <stdlib.h>
#include <string.h>
#include <sys/ioctl.h>
#include <sys/mman.h>
#include <sys/syscall.h>
#include <time.h>
#include <unistd.h>

#define PAGE 4096u
#define PAGES 1024u
#define STATUS_CANNOT 77

static _Alignas(4096) char source[PAGE];

static double now(void)
{
    struct timespec time;

    if (clock_gettime(CLOCK_MONOTONIC, &time)) {
        perror("clock_gettime");
        exit(1);
    }
    return (double)time.tv_sec + (double)time.tv_nsec * 1e-9;
}

static int open_object(void)
{
    struct uffdio_api api = { .api = UFFD_API };
    int fd = (int)syscall(SYS_userfaultfd, O_CLOEXEC);

    if (fd < 0)
        fd = (int)syscall(SYS_userfaultfd, O_CLOEXEC | UFFD_USER_MODE_ONLY);
    if (fd < 0 || ioctl(fd, UFFDIO_API, &api)) {
        perror("userfaultfd");
        exit(STATUS_CANNOT);
    }
    return fd;
}

static void install_all(int fd, const char *area)
{
    for (unsigned i = 0; i < PAGES; i++) {
        struct uffdio_copy copy = { .dst = (uintptr_t)area + i * PAGE, .src = (uintptr_t)source, .len = PAGE };

        if (ioctl(fd, UFFDIO_COPY, &copy)) {
            perror("UFFDIO_COPY");
            exit(1);
        }
    }
}

int main(int count, char **words)
{
    double least = count > 1 ? atof(words[1]) : 1, spent = 0;
    char *area = mmap(NULL, PAGES * PAGE, PROT_READ | PROT_WRITE, MAP_PRIVATE | MAP_ANONYMOUS, -1, 0);
    struct uffdio_register watch = { .range = { (uintptr_t)area, PAGES * PAGE }, .mode = UFFDIO_REGISTER_MODE_MISSING };
    int fd = open_object();
    uint64_t installs = 0;

    memset(source, 7, sizeof source);
    if (area == MAP_FAILED || ioctl(fd, UFFDIO_REGISTER, &watch)) {
        perror("UFFDIO_REGISTER");
        return 1;
    }
    while (spent < least) {
        double begin = now();

        install_all(fd, area);
        spent += now() - begin;
        installs += PAGES;
        if (madvise(area, PAGES * PAGE, MADV_DONTNEED)) {
            perror("madvise");
            return 1;
        }
    }
    printf("%.0f copies a second\n", (double)installs / spent);
    return close(fd);
}
