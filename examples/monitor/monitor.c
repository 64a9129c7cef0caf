/* A monitor: it maps the memory of a guest, hands it over to a handler as Firecracker does, and runs the guest once
   the handler says so. The guest has two threads. They read all of its memory, one from the first page on and one
   from the last, and what they have read is written.

       monitor unix:PATH PAGES FILE */
#include <liblive.h>
#include <pthread.h>
#include <signal.h>
#include <stdio.h>
#include <stdlib.h>
#include <string.h>
#include <unistd.h>

static char *memory, *copy;
static uint32_t pages;

/* A thread of the guest: its loads wait for the pages that have not come. */
static void *read_upwards(void *nothing)
{
    for (uint32_t i = 0; i < pages / 2; i++)
        memcpy(copy + (size_t)i * PAGE_BYTES, memory + (size_t)i * PAGE_BYTES, PAGE_BYTES);
    return nothing;
}

static void *read_downwards(void *nothing)
{
    for (uint32_t i = pages; i-- > pages / 2;)
        memcpy(copy + (size_t)i * PAGE_BYTES, memory + (size_t)i * PAGE_BYTES, PAGE_BYTES);
    return nothing;
}

static void run_guest(void)
{
    pthread_t up, down;

    if (pthread_create(&up, NULL, read_upwards, NULL) || pthread_create(&down, NULL, read_downwards, NULL))
        refuse("a thread of the guest cannot be started");
    (void)pthread_join(up, NULL); /* it is a thread of this process, and no one else joins it */
    (void)pthread_join(down, NULL);
}

static void write_memory(const char *name)
{
    FILE *file = fopen(name, "w");

    if (!file || fwrite(copy, PAGE_BYTES, pages, file) != pages || fclose(file))
        refuse("%s cannot be written", name);
}

int main(int count, char **words)
{
    struct address address;
    struct handed_range range;
    int userfault, handler;

    if (count != 4)
        refuse("use: monitor unix:PATH PAGES FILE");
    (void)signal(SIGPIPE, SIG_IGN); /* it always succeeds */
    address_read(&address, words[1]);
    pages = (uint32_t)strtoul(words[2], NULL, 10);
    range = (struct handed_range){ .bytes = (uint64_t)pages * PAGE_BYTES };
    memory = kernel_map(range.bytes);
    copy = kernel_map(range.bytes);
    range.at = (uintptr_t)memory;
    userfault = kernel_open_userfault();
    kernel_register(userfault, memory, range.bytes, false);
    handler = handing_connect(&address, 60);
    handing_give(handler, userfault, &range, 1);
    handing_hear(handler, HANDED_RUN, "the handler has ended before the guest was to run");
    run_guest();
    handing_hear(handler, HANDED_STOP, "the handler has ended: the guest is lost"); /* it has put all pages */
    handing_say(handler, HANDED_STOP);
    write_memory(words[3]);
    return STATUS_OK;
}
