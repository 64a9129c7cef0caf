// Writes the history of a memory that the threads of this process use at once: see docs/HISTORY.md.
#include "plant.h"
#include "run.h"

#include <getopt.h>
#include <stdlib.h>
#include <string.h>

static const char usage[] =
    "usage: process [--threads N] [--pages N] [--words N] [--count N] [--calls N] [--pauses N] [--swaps]\n"
    "               [--seed N] [--plant zero|old|lost|exchange|flip] [--page N]\n"
    "  --threads  1 to 16 (4)          --pages  of the memory (64)        --words  of each page, 1 to 512 (8)\n"
    "  --count    operations (100000)  --calls  map calls of 10000 (20)   --pauses inside an operation, at most (0)\n"
    "  --swaps    exchanges in place of stores   --plant  a fault in the memory, at --page\n";

static void refuse(void)
{
    fputs(usage, stderr);
    exit(1);
}

static unsigned long number(const char *text, unsigned long least, unsigned long most)
{
    char *end;
    unsigned long value = strtoul(text, &end, 10);
    if (!*text || *end || *text == '-' || value < least || value > most)
        refuse();
    return value;
}

static void read_option(struct settings *settings, int option)
{
    switch (option) {
    case 't':
        settings->threads = number(optarg, 1, MOST_THREADS);
        break;
    case 'p':
        settings->pages = number(optarg, 1, 262144);
        break;
    case 'w':
        settings->words = number(optarg, 1, 512);
        break;
    case 'n':
        settings->count = number(optarg, 1, 100000000);
        break;
    case 'm':
        settings->calls = number(optarg, 0, 10000);
        break;
    case 'j':
        settings->pauses = number(optarg, 0, 1000000);
        break;
    case 's':
        settings->seed = number(optarg, 0, (unsigned long)-1);
        break;
    case 'x':
        settings->swaps = 1;
        break;
    case 'f':
        settings->plant = optarg;
        break;
    case 'g':
        settings->planted_page = number(optarg, 0, 262143);
        break;
    default:
        refuse();
    }
}

static int write_history(const struct settings *settings, const struct records *records, const struct records *first)
{
    size_t count = first->count;
    if (printf("history 1\nclock counter\n") < 0 || !write_records(stdout, 0, first))
        return 0;
    for (unsigned i = 0; i < settings->threads; i++) {
        count += records[i].count;
        if (!write_records(stdout, i, &records[i]))
            return 0;
    }
    return printf("end %zu\n", count) >= 0 && !fflush(stdout);
}

int main(int count, char **words)
{
    static const struct option options[] = {
        { "threads", 1, 0, 't' }, { "pages", 1, 0, 'p' },  { "words", 1, 0, 'w' }, { "count", 1, 0, 'n' },
        { "calls", 1, 0, 'm' },   { "pauses", 1, 0, 'j' }, { "seed", 1, 0, 's' },  { "swaps", 0, 0, 'x' },
        { "plant", 1, 0, 'f' },   { "page", 1, 0, 'g' },   { 0, 0, 0, 0 },
    };
    struct settings settings = { .threads = 4, .pages = 64, .words = 8, .count = 100000, .calls = 20, .seed = 1 };
    struct records records[MOST_THREADS] = { { 0 } };
    struct records first;
    int option;
    while ((option = getopt_long(count, words, "", options, NULL)) >= 0)
        read_option(&settings, option);
    if (optind != count || (settings.plant && (!is_plant(settings.plant) || settings.planted_page >= settings.pages)))
        refuse();
    make_run(&settings, records, &first);
    if (!write_history(&settings, records, &first)) {
        perror("standard output");
        return 2;
    }
    for (unsigned i = 0; i < settings.threads; i++)
        free(records[i].at);
    free(first.at);
    return 0;
}
