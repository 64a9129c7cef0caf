/* Tests of the recorder's parts that need no userfaultfd: `make -C recorder check` runs them under both
   sanitizers. */
#include <errno.h>
#include <fcntl.h>
#include <limits.h>
#include <pthread.h>
#include <stdatomic.h>
#include <stdbool.h>
#include <stdio.h>
#include <stdlib.h>
#include <string.h>
#include <sys/mman.h>
#include <sys/resource.h>
#include <unistd.h>

#include "log.h"
#include "memory.h"
#include "names.h"
#include "objects.h"
#include "shared.h"
#include "text.h"

#define THREADS 4
#define LINES 500

static int failures;

#define CHECK(holds)                                                    \
    do {                                                                \
        if (!(holds)) {                                                 \
            fprintf(stderr, "%s:%d: %s\n", __FILE__, __LINE__, #holds); \
            failures++;                                                 \
        }                                                               \
    } while (0)

static bool is_text(const struct text *text, const char *wanted)
{
    return !text->cut && text->length == strlen(wanted) && !memcmp(text->bytes, wanted, text->length);
}

static void test_text(void)
{
    char bytes[LINE_BYTES];
    struct text text = text_over(bytes, sizeof bytes);

    text_word(&text, "copy");
    text_descriptor(&text, 17, 5);
    text_hex(&text, 0x7f0000001000);
    text_number(&text, UINT64_MAX);
    text_signed(&text, -17);
    text_signed(&text, INT64_MIN);
    text_hex(&text, 0);
    text_errno(&text, EAGAIN);
    text_errno(&text, 4000);
    text_end(&text);
    CHECK(is_text(&text, "copy 17:5 0x7f0000001000 18446744073709551615 -17 -9223372036854775808 0x0 EAGAIN E4000\n"));
}

static void test_encoded(void)
{
    char bytes[LINE_BYTES];
    struct text text = text_over(bytes, sizeof bytes);

    text_encoded(&text, "a b%");
    text_encoded(&text, "");
    text_encoded(&text, "\xff\n~!");
    CHECK(is_text(&text, "a%20b%25 % %ff%0a~!"));
}

/* What does not fit leaves the line marked, at any length, and nothing is written past the end. */
static void test_cut(void)
{
    for (size_t capacity = 0; capacity < 20; capacity++) {
        char bytes[21];
        struct text text = text_over(bytes, capacity);

        memset(bytes, '#', sizeof bytes);
        text_word(&text, "begin");
        text_number(&text, 1234567);
        text_end(&text);
        CHECK(text.cut == (capacity < 14));
        CHECK(text.length <= capacity && bytes[capacity] == '#');
    }
}

static void test_names(void)
{
    CHECK(!strcmp(errno_name(EEXIST), "EEXIST"));
    CHECK(!errno_name(0) && !errno_name(4000) && !errno_name(-1));
}

static void test_ranges(void)
{
    static struct shared page;

    CHECK(!ranges_any(&page) && !ranges_meet(&page, 0, UINT64_MAX));
    ranges_add(&page, 0x10000, 0x2000);
    ranges_add(&page, 0x11000, 0x1000); /* inside: takes no place */
    CHECK(atomic_load(&page.ranges) == 1 && ranges_any(&page));
    CHECK(ranges_meet(&page, 0x10000, 1) && ranges_meet(&page, 0x11fff, 1) && ranges_meet(&page, 0, 0x10001));
    CHECK(!ranges_meet(&page, 0x12000, 1) && !ranges_meet(&page, 0, 0x10000) && ranges_meet(&page, 0, UINT64_MAX));
    ranges_add(&page, UINT64_MAX - 0xfff, 0x1000); /* ends at 2^64 */
    CHECK(ranges_meet(&page, UINT64_MAX, 1) && !ranges_meet(&page, UINT64_MAX - 0x1000, 1));
    for (uint64_t i = 0; i < 2 * MOST_RANGES; i++)
        ranges_add(&page, 0x100000 + i * 0x2000, 0x1000);
    CHECK(ranges_meet(&page, 0, 1)); /* the table is full: everything may be concerned */
}

static void test_memory(void)
{
    int value = 7, copy = 0;
    char *hole = mmap(NULL, 4096, PROT_NONE, MAP_PRIVATE | MAP_ANONYMOUS, -1, 0);

    CHECK(memory_copy(&copy, &value, sizeof copy) && copy == 7);
    CHECK(!memory_copy(&copy, NULL, sizeof copy));
    CHECK(hole != MAP_FAILED && !memory_copy(&copy, hole, sizeof copy));
    CHECK(munmap(hole, 4096) == 0 && !memory_copy(&copy, hole, sizeof copy));
}

static void put_line(const char *word)
{
    char bytes[LINE_BYTES];
    struct text line = text_over(bytes, sizeof bytes);

    text_word(&line, word);
    log_note("found", &line);
}

/* The lines of a file, without their times, processes and threads; NULL is the end. */
static char *next_line(FILE *file)
{
    static char line[LINE_BYTES * 2];
    char *at = line;

    clearerr(file); /* (it has grown since) */
    if (!fgets(line, sizeof line, file))
        return NULL;
    line[strcspn(line, "\n")] = '\0';
    for (int blanks = 0; blanks < 3 && strncmp(line, "lost", 4) != 0 && at; blanks++)
        at = strchr(at + (blanks > 0), ' ');
    return at ? at + (at > line) : line;
}

static FILE *begin_log(char *path)
{
    int fd = mkstemp(path);

    if (fd < 0 || close(fd) || !log_open(path)) {
        perror(path);
        exit(1);
    }
    return fopen(path, "r");
}

/* Lines that cannot be written are counted, and the next line that can is after `lost N`. */
static void test_lost(void)
{
    char path[] = "/tmp/uffdlog-parts-XXXXXX";
    struct rlimit before, none;
    FILE *file;

    CHECK(log_open("/dev/full"));
    put_line("one");
    put_line("two");
    CHECK(atomic_load(&shared()->lost) == 2);
    file = begin_log(path);
    put_line("three");
    CHECK(atomic_load(&shared()->lost) == 0);
    CHECK(file && !strcmp(next_line(file), "lost 2") && !strcmp(next_line(file), "found three"));
    /* The limit of a file's size is an error too, and no signal that ends the program. */
    CHECK(getrlimit(RLIMIT_FSIZE, &before) == 0);
    none = (struct rlimit){ 40, before.rlim_max };
    CHECK(setrlimit(RLIMIT_FSIZE, &none) == 0);
    put_line("four");
    CHECK(setrlimit(RLIMIT_FSIZE, &before) == 0 && atomic_load(&shared()->lost) == 1);
    put_line("five");
    CHECK(!strcmp(next_line(file), "lost 1") && !strcmp(next_line(file), "found five"));
    CHECK(atomic_load(&shared()->lost) == 0);
    CHECK(fclose(file) == 0 && unlink(path) == 0);
}

/* The program closes the log's descriptor, or puts another file there: it is opened again, and the file is left
   alone. */
static void test_taken(void)
{
    char path[] = "/tmp/uffdlog-parts-XXXXXX", other_path[] = "/tmp/uffdlog-other-XXXXXX";
    FILE *file = begin_log(path);
    int other = mkstemp(other_path);

    CHECK(file && other >= 0 && log_has(log_number()));
    CHECK(close(log_number()) == 0);
    put_line("one");
    CHECK(dup2(other, log_number()) >= 0);
    put_line("two");
    CHECK(lseek(other, 0, SEEK_END) == 0);
    log_leave(log_number());
    put_line("three");
    CHECK(file && !strcmp(next_line(file), "found one"));
    CHECK(file && !strcmp(next_line(file), "found two"));
    CHECK(file && !strcmp(next_line(file), "found three"));
    CHECK(fclose(file) == 0 && close(other) == 0 && unlink(path) == 0 && unlink(other_path) == 0);
}

static void *write_calls(void *unused)
{
    for (int i = 0; i < LINES; i++) {
        char bytes[LINE_BYTES];
        struct text line = text_over(bytes, sizeof bytes), end = text_over(bytes, sizeof bytes);
        struct call call;

        text_word(&line, "fork");
        call = log_begin(&line);
        text_word(&end, "ok");
        log_of_call(&call, "end", &end);
    }
    return unused;
}

/* Threads write whole lines, each call's number once. */
static void test_threads(void)
{
    static bool seen[THREADS * LINES * 2];
    char path[] = "/tmp/uffdlog-parts-XXXXXX";
    FILE *file = begin_log(path);
    pthread_t threads[THREADS];
    int begins = 0, ends = 0;
    char *line;

    for (int i = 0; i < THREADS; i++)
        CHECK(pthread_create(&threads[i], NULL, write_calls, NULL) == 0);
    for (int i = 0; i < THREADS; i++)
        CHECK(pthread_join(threads[i], NULL) == 0);
    while (file && (line = next_line(file))) {
        unsigned long number = strtoul(strchr(line, ' ') + 1, NULL, 10);

        CHECK(number < sizeof seen / sizeof *seen);
        if (!strncmp(line, "begin ", 6)) {
            CHECK(!seen[number]);
            seen[number] = true;
            begins++;
        } else {
            CHECK(!strncmp(line, "end ", 4) && seen[number]);
            ends++;
        }
    }
    CHECK(begins == THREADS * LINES && ends == begins);
    CHECK(fclose(file) == 0 && unlink(path) == 0);
}

static void test_objects(void)
{
    int fd = open("/dev/null", O_RDONLY);

    CHECK(!object_any_is_possible() && !object_is_possible(fd) && !object_is_possible(-1) &&
          !object_is_possible(INT_MAX));
    CHECK(object_identify(fd) == 0 && object_identify(-1) == 0 && object_identify(INT_MAX) == 0);
    CHECK(object_for_line(fd) == 0 && object_for_line(-1) == 0);
    CHECK(close(fd) == 0);
}

int main(void)
{
    test_text();
    test_encoded();
    test_cut();
    test_names();
    test_ranges();
    test_memory();
    test_objects();
    test_lost();
    test_taken();
    test_threads();
    printf("parts of the recorder: %d failures\n", failures);
    return failures != 0;
}
