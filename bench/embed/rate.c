/* Moves owed pages from the push at a source to the install at a destination of their own, one by one, by the calls
   that a driver makes for each. For a count of instructions: of all calls, beside Source::push, Destination::take
   and Destination::install in them:

     valgrind --tool=callgrind --toggle-collect=move_page rate PAGES [keep | trace]

   keep: both nodes have a trace; trace: and its lines are taken after each page.

   rate PAGES [keep | trace] */
#include <stdio.h>
#include <stdlib.h>
#include <string.h>
#include "postmig_node.h"

enum { BASE = 0x100000 };
#define DO(call)                                                \
    do {                                                        \
        uint32_t status_ = (call);                              \
        if (status_ != POSTMIG_OK) {                            \
            fprintf(stderr, "%s: status %u\n", #call, status_); \
            exit(1);                                            \
        }                                                       \
    } while (0)

static postmig_handle source, destination;
static postmig_effect effect;
static uint8_t text[1 << 20];
static bool takes;

static void deliver(void)
{
    size_t length, head, pages;
    DO(postmig_node_frame(&source, text, sizeof text, &length));
    for (size_t at = 0; at < length; at += head) {
        DO(postmig_frame_lengths(text + at, length - at, &head, &pages));
        DO(postmig_destination_take(&destination, text + at, head, &effect));
    }
}

static void take_lines(postmig_handle *node)
{
    size_t written;
    do
        DO(postmig_node_trace_take(node, text, sizeof text, &written));
    while (written);
}

void move_page(uint32_t page);
__attribute__((noinline)) void move_page(uint32_t page)
{
    uint8_t bytes[16];
    size_t length;
    DO(postmig_source_push(&source, 1, page, &effect));
    DO(postmig_page_head(1, page, bytes, sizeof bytes, &length));
    DO(postmig_destination_take(&destination, bytes, length, &effect));
    DO(postmig_destination_next_install(&destination, &effect));
    DO(postmig_destination_install(&destination, &effect));
    if (!takes)
        return;
    take_lines(&source);
    take_lines(&destination);
}

int main(int argc, char **argv)
{
    uint32_t pages = argc > 1 ? (uint32_t)strtoul(argv[1], NULL, 0) : 1024;
    DO(postmig_source_new(2, 0, 0, &source));
    DO(postmig_destination_new(2, &destination));
    postmig_command map = { .kind = POSTMIG_MMAP,
                            .length = UINT64_C(4096) * pages,
                            .prot = POSTMIG_PROT_READ_WRITE,
                            .place = POSTMIG_FIXED,
                            .target = BASE };
    DO(postmig_source_issue(&source, 0, &map, &effect));
    for (uint64_t i = 0; i < pages; i++) {
        postmig_command present = { .kind = POSTMIG_STORE, .width = 8, .addr = BASE + 4096 * i };
        DO(postmig_source_issue(&source, 0, &present, &effect));
    }
    DO(postmig_source_start(&source, &effect));
    deliver();
    DO(postmig_source_switch(&source, &effect));
    deliver();
    takes = argc > 2 && !strcmp(argv[2], "trace");
    if (argc > 2) {
        DO(postmig_node_trace(&source, true));
        DO(postmig_node_trace(&destination, true));
    }
    for (uint32_t i = 0; i < pages; i++)
        move_page(BASE / 4096 + i);
    if (printf("%u pages\n", pages) < 0)
        return 1;
    postmig_free(&source);
    postmig_free(&destination);
    return 0;
}
