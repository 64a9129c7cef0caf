#define _GNU_SOURCE
#include "run.h"
#include "plant.h"

#include <pthread.h>
#include <sched.h>
#include <stdlib.h>
#include <sys/mman.h>

// A page's lock: the number of threads that access it, or a great negative number where one calls the map.
#define CALLED (-1000000)

static _Alignas(64) atomic_ulong counter = 1;
static atomic_int *locks;
static pthread_barrier_t all_done;

struct worker {
    const struct settings *settings;
    struct records *records;
    uint64_t random;
    unsigned thread;
};

uint64_t tick(void)
{
    return atomic_fetch_add(&counter, 1);
}

uint64_t word_at(const struct settings *settings, unsigned long page, unsigned word)
{
    return BASE + page * PAGE + word * (PAGE / settings->words) / 8 * 8;
}

// Marsaglia's xorshift.
static uint64_t drawn(struct worker *worker)
{
    uint64_t x = worker->random;
    x ^= x << 13;
    x ^= x >> 7;
    x ^= x << 17;
    return worker->random = x;
}

static void pause_some(const struct worker *worker, uint64_t random)
{
    if (!worker->settings->pauses)
        return;
    for (uint64_t i = random % worker->settings->pauses; i; i--)
        __builtin_ia32_pause();
}

void enter_page(unsigned long page)
{
    for (unsigned tries = 0; atomic_fetch_add(&locks[page], 1) < 0; tries++) {
        atomic_fetch_sub(&locks[page], 1);
        if (tries > 200)
            sched_yield();
    }
}

void leave_page(unsigned long page)
{
    atomic_fetch_sub(&locks[page], 1);
}

static void close_page(unsigned long page)
{
    for (unsigned tries = 0;; tries++) {
        int free = 0;
        if (atomic_compare_exchange_weak(&locks[page], &free, CALLED))
            return;
        if (tries > 200)
            sched_yield();
    }
}

static void open_page(unsigned long page)
{
    atomic_fetch_sub(&locks[page], CALLED);
}

static void require(int holds, const char *call)
{
    if (holds)
        return;
    perror(call);
    exit(2);
}

static void map(struct records *records, uint64_t addr, uint64_t length, int flags)
{
    struct record *record = next_record(records);
    record->kind = MAP;
    record->addr = addr;
    record->value = length;
    record->begin = tick();
    void *at = mmap((void *)addr, length, PROT_READ | PROT_WRITE, MAP_PRIVATE | MAP_ANONYMOUS | flags, -1, 0);
    record->end = tick();
    require(at == (void *)addr, "mmap");
    seal(record);
}

static void discard(struct records *records, uint64_t addr, uint64_t length)
{
    struct record *record = next_record(records);
    record->kind = DISCARD;
    record->addr = addr;
    record->value = length;
    record->begin = tick();
    int failed = madvise((void *)addr, length, MADV_DONTNEED);
    record->end = tick();
    require(!failed, "madvise");
    seal(record);
}

static void unmap(struct records *records, uint64_t addr, uint64_t length)
{
    struct record *record = next_record(records);
    record->kind = UNMAP;
    record->addr = addr;
    record->value = length;
    record->begin = tick();
    int failed = munmap((void *)addr, length);
    record->end = tick();
    require(!failed, "munmap");
    seal(record);
}

// A map call on one to three pages, which no one accesses meanwhile.
static void call_map(struct worker *worker, uint64_t random, unsigned long page)
{
    unsigned long count = 1 + (random >> 4) % 3;
    if (count > worker->settings->pages - page)
        count = worker->settings->pages - page;
    for (unsigned long i = 0; i < count; i++)
        close_page(page + i);
    uint64_t addr = BASE + page * PAGE;
    if (random & 1) {
        discard(worker->records, addr, count * PAGE);
    } else {
        unmap(worker->records, addr, count * PAGE);
        map(worker->records, addr, count * PAGE, MAP_FIXED);
    }
    for (unsigned long i = 0; i < count; i++)
        open_page(page + i);
}

// The value is unlike every other, and not 0: it has the thread and the count.
static void store(struct worker *worker, uint64_t random, uint64_t addr, uint64_t value)
{
    struct record *record = next_record(worker->records);
    _Atomic uint64_t *word = (_Atomic uint64_t *)addr;
    int lost = loses_store(worker->thread, addr);
    record->kind = worker->settings->swaps ? SWAP : STORE;
    record->addr = addr;
    record->value = value;
    record->begin = tick();
    pause_some(worker, random);
    if (worker->settings->swaps)
        record->found = lost ? atomic_load(word) : atomic_exchange(word, value);
    else if (!lost)
        atomic_store_explicit(word, value, memory_order_relaxed);
    pause_some(worker, random >> 8);
    record->end = tick();
    seal(record);
}

static void load(struct worker *worker, uint64_t random, uint64_t addr)
{
    struct record *record = next_record(worker->records);
    record->kind = LOAD;
    record->addr = addr;
    record->begin = tick();
    pause_some(worker, random);
    record->value = atomic_load_explicit((_Atomic uint64_t *)addr, memory_order_relaxed);
    pause_some(worker, random >> 8);
    record->end = tick();
    seal(record);
}

static void access_word(struct worker *worker, uint64_t random, unsigned long page, uint64_t value)
{
    uint64_t addr = word_at(worker->settings, page, (random >> 40) % worker->settings->words);
    enter_page(page);
    if (random & 1)
        store(worker, random >> 20, addr, value);
    else
        load(worker, random >> 20, addr);
    leave_page(page);
}

static void *work(void *given)
{
    struct worker *worker = given;
    const struct settings *settings = worker->settings;
    const unsigned long count = settings->count / settings->threads;
    for (unsigned long i = 0; i < count; i++) {
        uint64_t random = drawn(worker);
        unsigned long page = (random >> 8) % settings->pages;
        if (settings->plant && !worker->thread)
            plant_due(settings, i, count);
        if ((random >> 48) % 10000 < settings->calls)
            call_map(worker, random, page);
        else
            access_word(worker, random, page, (uint64_t)(worker->thread + 1) << 40 | (i + 1));
    }
    pthread_barrier_wait(&all_done);
    for (unsigned long page = worker->thread; page < settings->pages; page += settings->threads)
        for (unsigned word = 0; word < settings->words; word++)
            load(worker, 0, word_at(settings, page, word));
    return NULL;
}

void make_run(const struct settings *settings, struct records *records, struct records *first)
{
    struct worker workers[MOST_THREADS];
    pthread_t threads[MOST_THREADS];
    locks = calloc(settings->pages, sizeof *locks);
    require(locks != NULL, "calloc");
    make_records(first, 1);
    map(first, BASE, settings->pages * PAGE, MAP_FIXED_NOREPLACE);
    require(!pthread_barrier_init(&all_done, NULL, settings->threads), "pthread_barrier_init");
    for (unsigned i = 0; i < settings->threads; i++) {
        size_t last = (settings->pages / settings->threads + 1) * settings->words;
        make_records(&records[i], 2 * settings->count / settings->threads + last);
        workers[i] = (struct worker){ settings, &records[i],
                                      (settings->seed + 1) * 0x9e3779b97f4a7c15u + (i + 1) * 0xd1b54a32d192ed03u, i };
        for (int k = 0; k < 8; k++)
            drawn(&workers[i]);
    }
    for (unsigned i = 0; i < settings->threads; i++)
        require(!pthread_create(&threads[i], NULL, work, &workers[i]), "pthread_create");
    for (unsigned i = 0; i < settings->threads; i++)
        require(!pthread_join(threads[i], NULL), "pthread_join");
    free(locks);
}
