#include "plant.h"

#include <string.h>

static const char *const names[] = { "zero", "old", "lost", "exchange", "flip" };
static char old[PAGE];
static const char zeros[PAGE];
// The number of the page of which the next store of thread 0 is lost, and 1; 0 if none is.
static unsigned long losing;

int is_plant(const char *name)
{
    for (size_t i = 0; i < sizeof names / sizeof *names; i++)
        if (!strcmp(names[i], name))
            return 1;
    return 0;
}

static char *page_at(unsigned long page)
{
    return (char *)(BASE + page * PAGE);
}

static void copy_page(char *to, const char *from, unsigned long entered)
{
    enter_page(entered);
    memcpy(to, from, PAGE);
    leave_page(entered);
}

static void exchange(unsigned long page, unsigned long next)
{
    unsigned long least = next < page ? next : page;
    char first[PAGE];
    enter_page(least);
    enter_page(page + next - least);
    memcpy(first, page_at(page), PAGE);
    memcpy(page_at(page), page_at(next), PAGE);
    memcpy(page_at(next), first, PAGE);
    leave_page(page);
    leave_page(next);
}

static void flip(unsigned long page)
{
    enter_page(page);
    for (size_t i = 1; i < PAGE; i += 8)
        page_at(page)[i] ^= 0x10;
    leave_page(page);
}

void plant_due(const struct settings *settings, unsigned long made, unsigned long count)
{
    unsigned long page = settings->planted_page;
    if (made == count * 2 / 5)
        copy_page(old, page_at(page), page);
    if (made != count / 2)
        return;
    if (!strcmp(settings->plant, "zero"))
        copy_page(page_at(page), zeros, page);
    if (!strcmp(settings->plant, "old"))
        copy_page(page_at(page), old, page);
    if (!strcmp(settings->plant, "lost"))
        losing = page + 1;
    if (!strcmp(settings->plant, "exchange"))
        exchange(page, (page + 1) % settings->pages);
    if (!strcmp(settings->plant, "flip"))
        flip(page);
}

int loses_store(unsigned thread, uint64_t addr)
{
    if (thread || (addr - BASE) / PAGE + 1 != losing)
        return 0;
    losing = 0;
    return 1;
}
