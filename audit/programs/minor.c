/*
 * Guest memory that two mappings share: the guest's is watched, and the other one gets the bytes. Minor faults are
 * ended by UFFDIO_CONTINUE.
 *
 *     pages threads touches   of the guest; with `huge` each page has two MiB
 *     missing                 whether missing pages are watched too: if not, all pages are put before
 *     copies                  with `missing` alone: UFFDIO_COPY in place of the other mapping, and no minor faults
 *     huge                    memory of hugetlbfs, which needs free huge pages
 */
#include <errno.h>
#include <stdatomic.h>
#include <sys/ioctl.h>
#include <sys/mman.h>
#include <unistd.h>

#include "common.h"
#include "object.h"

#define HUGE_PAGE (2u << 20)

static long pages, threads, touches, missing, copies, huge;
static size_t page_bytes;
static int object;
static char *guest, *other, *source;
static atomic_bool is_done;

static void put_by_copy(uint64_t page, uint64_t number)
{
    struct uffdio_copy call = { .dst = page, .src = address(source) + number * page_bytes, .len = page_bytes };

    (void)put_of(object, page, ioctl(object, UFFDIO_COPY, &call));
}

static void put_by_mapping(uint64_t page, uint64_t number, bool is_missing)
{
    struct uffdio_continue call = { .range = { page, page_bytes } };

    if (is_missing)
        fill_page(other + number * page_bytes, number);
    (void)put_of(object, page, ioctl(object, UFFDIO_CONTINUE, &call));
}

static void *serve(void *unused)
{
    (void)unused;
    while (!atomic_load(&is_done)) {
        struct uffd_msg message;
        uint64_t page, number;

        if (!object_poll(object, -1, 20).object || !object_read(object, &message, 1))
            continue;
        page = message.arg.pagefault.address & ~(uint64_t)(page_bytes - 1);
        number = (page - address(guest)) / page_bytes;
        if (copies)
            put_by_copy(page, number);
        else
            put_by_mapping(page, number, !(message.arg.pagefault.flags & UFFD_PAGEFAULT_FLAG_MINOR));
    }
    return NULL;
}

static void *touch(void *thread)
{
    struct random random = random_of((uint64_t)(long)thread + 1);

    for (long i = 0; i < touches; i++) {
        uint64_t number = random_below(&random, (uint64_t)pages);

        if (first_word(guest + number * page_bytes) != word_of(number))
            fail("page %llu has wrong bytes", (unsigned long long)number);
        nap(&random, 20);
    }
    return NULL;
}

static char *map_shared(int file)
{
    void *place = mmap(NULL, (size_t)pages * page_bytes, PROT_READ | PROT_WRITE, MAP_SHARED, file, 0);

    if (place == MAP_FAILED && huge)
        cannot("free huge pages");
    if (place == MAP_FAILED)
        fail("mmap of shared memory");
    return place;
}

static void make_memory(void)
{
    int file = memfd_create("guest", MFD_CLOEXEC | (huge ? MFD_HUGETLB : 0u));

    if (file < 0)
        cannot("memfd_create");
    if (ftruncate(file, pages * (long)page_bytes))
        fail("ftruncate");
    guest = map_shared(file);
    other = map_shared(file);
    if (close(file))
        fail("close");
    source = map_pages((size_t)pages * page_bytes / PAGE);
    for (long i = 0; i < pages; i++) {
        fill_page(source + (size_t)i * page_bytes, (uint64_t)i);
        if (!missing)
            fill_page(other + (size_t)i * page_bytes, (uint64_t)i);
    }
}

int main(int argc, char **argv)
{
    uint64_t minor_feature, missing_feature, mode;
    struct crew crew;
    pthread_t server;

    options_begin(argc, argv);
    huge = option("huge", 0);
    pages = option("pages", huge ? 4 : 256);
    threads = option("threads", 3);
    touches = option("touches", 300);
    copies = option("copies", 0);
    missing = option("missing", copies);
    options_end();
    page_bytes = huge ? HUGE_PAGE : PAGE;
    minor_feature = huge ? UFFD_FEATURE_MINOR_HUGETLBFS : UFFD_FEATURE_MINOR_SHMEM;
    missing_feature = huge ? UFFD_FEATURE_MISSING_HUGETLBFS : UFFD_FEATURE_MISSING_SHMEM;
    make_memory();
    object = object_open((copies ? 0 : minor_feature) | (missing ? missing_feature : 0));
    mode = (copies ? 0 : UFFDIO_REGISTER_MODE_MINOR) | (missing ? UFFDIO_REGISTER_MODE_MISSING : 0);
    object_register(object, guest, (size_t)pages * page_bytes, mode);
    server = thread_start(serve, NULL);
    crew_start(&crew, threads, touch);
    crew_join(&crew);
    atomic_store(&is_done, true);
    thread_join(server);
    object_close(object);
    return 0;
}
