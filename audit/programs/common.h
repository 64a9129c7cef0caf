/* What the programs share: options, checked calls of the C library, threads, random numbers, pages with known
   bytes. */
#ifndef COMMON_H
#define COMMON_H

#include <pthread.h>
#include <stdbool.h>
#include <stddef.h>
#include <stdint.h>
#include <sys/types.h>

#define PAGE 4096u
#define MOST_THREADS 64
#define STATUS_LATE 3    /* the program was not done in time */
#define STATUS_CANNOT 77 /* this machine has not what the program needs */

/* Ends the program, with errno in words. */
_Noreturn void fail(const char *format, ...) __attribute__((format(printf, 1, 2)));
_Noreturn void cannot(const char *what);

/*
 * Options are words NAME=NUMBER, and wrong=KIND. options_end refuses a word that was not asked for, and starts the
 * watchdog. All programs have seed, seconds (until the watchdog ends them), at (wrong_now), and ids: whether messages
 * have the thread that faults.
 */
void options_begin(int argc, char **argv);
long option(const char *name, long otherwise);
void options_end(void);

bool asks_for_threads(void); /* the option ids */

/* Whether this fault is planted; and whether now is the one time that it is made, with a page: the `at`th time that
   this is asked, which is said. */
bool is_wrong(const char *kind);
bool wrong_now(const char *kind, uint64_t page);

/* Ends the process with STATUS_LATE after `seconds` (an option). A child of fork(2) needs its own. */
void watchdog(void);
/* A child that ends with its parent. */
pid_t fork_checked(void);
void await_child(pid_t child);

struct random {
    uint64_t state;
};
struct random random_of(uint64_t stream); /* another one for each stream of the option `seed` */
uint64_t random_below(struct random *random, uint64_t bound);
void nap(struct random *random, unsigned most_microseconds);

/* Runs `count` threads, each with its number. */
struct crew {
    pthread_t threads[MOST_THREADS];
    long count;
};
void crew_start(struct crew *crew, long count, void *(*work)(void *number));
void crew_join(struct crew *crew);
pthread_t thread_start(void *(*work)(void *), void *argument);
void thread_join(pthread_t thread);

/* Pages of memory of this process. */
char *map_pages(size_t pages);
uint64_t address(const void *place);
void fill_page(void *page, uint64_t number);
uint64_t word_of(uint64_t number);
/* The word at the begin of a page, and the one at its end: each a load. */
uint64_t first_word(const void *page);
uint64_t last_word(const void *page);

#endif
