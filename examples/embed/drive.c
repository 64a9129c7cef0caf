/* Drives a migration by a schedule of its own: a page is pushed when a processor asks for it, and the others one by
   one after that. Prints a line for each fault, and the counters at the end. */
#include <inttypes.h>
#include <stdio.h>
#include <stdlib.h>
#include <string.h>
#include "postmig.h"

enum { PAGES = 16 };
static postmig_handle world = POSTMIG_NONE;

static void stop(const char *what, uint32_t status)
{
    fprintf(stderr, "%s: status %" PRIu32 "\n", what, status);
    postmig_free(&world);
    exit(1);
}

/* Does a line, and returns what it printed, without its line feed. */
static const char *say(const char *line)
{
    static char out[4096];
    size_t written = 0;
    uint32_t status =
        postmig_world_line(&world, (const uint8_t *)line, strlen(line), (uint8_t *)out, sizeof out, &written);
    if (status != POSTMIG_OK)
        stop(line, status);
    out[written ? written - 1 : 0] = 0;
    return out;
}

static const char *say_of_page(const char *form, unsigned page)
{
    char line[64];
    snprintf(line, sizeof line, form, 0x10000 + 4096 * page);
    return say(line);
}

static postmig_counts counts(void)
{
    postmig_counts now;
    uint32_t status = postmig_world_counts(&world, &now);
    if (status != POSTMIG_OK)
        stop("counts", status);
    return now;
}

/* Maps and stores to all pages at the source, and has the guest switched before any is sent. */
static void begin(void)
{
    char line[64];
    snprintf(line, sizeof line, "cpu 0 mmap %d rw", 4096 * PAGES);
    say(line);
    for (unsigned page = 0; page < PAGES; page++)
        say_of_page("cpu 0 store 0x%x 8 7", page);
    say("start");
    say("switch");
    while (counts().phase != POSTMIG_POSTCOPY)
        say("deliver");
}

/* Pushes a page, unless it was sent: then the push is refused, and no frame is on the wire. */
static bool push(unsigned page)
{
    if (strncmp(say_of_page("push 0x%x", page), "sent ", 5))
        return false;
    say("deliver");
    say("install");
    return true;
}

/* Processor 1 loads a page, and faults where it is still owed. */
static void load(unsigned page)
{
    if (strcmp(say_of_page("cpu 1 load 0x%x 8", page), "cpu 1 asleep"))
        return;
    say("dread");
    printf("%s\n", say("dact"));
    say("back");
    say("serve");
    push(page);
    printf("%s\n", say("retry 1"));
}

int main(void)
{
    uint32_t status = postmig_world_new(2, false, &world);
    if (status != POSTMIG_OK)
        stop("new", status);
    begin();

    /* Every fifth page is loaded. The others are pushed in between. */
    unsigned next = 0;
    for (unsigned page = 0; page < PAGES; page += 5) {
        load(page);
        for (unsigned count = 0; count < 2 && next < PAGES; next++)
            count += push(next);
    }
    for (; next < PAGES; next++)
        push(next);
    say("end");
    say("deliver");
    say("back");
    postmig_counts end = counts();
    printf("phase %" PRIu32 " sent %" PRIu64 " installed %" PRIu64 " left %" PRIu32 " faults %" PRIu64 "\n", end.phase,
           end.sent, end.installed, end.left, end.faults);
    postmig_free(&world);
    return end.phase == POSTMIG_COMPLETE ? 0 : 1;
}
