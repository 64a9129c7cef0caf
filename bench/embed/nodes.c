/* A whole migration by a source and a destination of their own, with faults at both, an event, an urgent page, and
   a channel that breaks; each export is called. Then once more with each allocation refused in turn: the call
   answers POSTMIG_NO_MEMORY and changed nothing, so that the same call made again succeeds, and nothing leaks. Both
   nodes have a trace, whose lines are taken after each call: they are the same each time. With a word after it, the
   program writes them instead, as one script with its answers, for postmig test. Linked with --wrap of malloc,
   realloc and free.

   nodes [script] */
#include <stdio.h>
#include <stdlib.h>
#include <string.h>
#include "postmig_node.h"

#define WANT(holds)                                                                                 \
    if (!(holds)) {                                                                                 \
        fprintf(stderr, "%s:%d: not so at allocation %ld: %s\n", __FILE__, __LINE__, turn, #holds); \
        exit(1);                                                                                    \
    }
/* the call is made again where memory is refused, and then does what it says */
#define DO(call)                                        \
    do {                                                \
        uint32_t status_;                               \
        while ((status_ = (call)) == POSTMIG_NO_MEMORY) \
            WANT(refused);                              \
        if (status_ != POSTMIG_OK)                      \
            fprintf(stderr, "status %u\n", status_);    \
        WANT(status_ == POSTMIG_OK);                    \
        take_lines();                                   \
    } while (0)
#define SAYS(call, status)                              \
    do {                                                \
        uint32_t status_;                               \
        while ((status_ = (call)) == POSTMIG_NO_MEMORY) \
            WANT(refused);                              \
        WANT(status_ == (status));                      \
    } while (0)

/* the allocations before the one that is refused, -1 for none; whether it was; the blocks that are not freed */
static long left = -1, live, turn;
static bool refused;
void *__real_malloc(size_t size);
void *__real_realloc(void *block, size_t size);
void __real_free(void *block);

static bool refuses(void)
{
    if (left < 0 || left-- > 0)
        return false;
    refused = true;
    return true;
}
void *__wrap_malloc(size_t size)
{
    if (refuses())
        return NULL;
    live++;
    return __real_malloc(size);
}
void *__wrap_realloc(void *block, size_t size)
{
    return refuses() ? NULL : __real_realloc(block, size);
}
void __wrap_free(void *block)
{
    if (block)
        live--;
    __real_free(block);
}

enum { BASE = 0x100000, PAGES = 8, ROOM = 4096 };
static postmig_handle source, destination;
static postmig_effect effect;
static uint8_t text[ROOM];
static size_t length, head, pages;
/* the lines of both traces, in the order of the calls */
static uint8_t script[4096];
static size_t script_length;
static bool traced;

/* Takes the lines that wait in the trace of a node. */
static void take_lines_of(postmig_handle *node)
{
    size_t taken;
    do {
        uint32_t status;
        while ((status = postmig_node_trace_take(node, script + script_length, sizeof script - script_length,
                                                 &taken)) == POSTMIG_NO_MEMORY)
            WANT(refused);
        WANT(status == POSTMIG_OK);
        script_length += taken;
    } while (taken);
}

static void take_lines(void)
{
    if (!traced)
        return;
    take_lines_of(&source);
    take_lines_of(&destination);
}

static postmig_command load(uint64_t addr)
{
    return (postmig_command){ .kind = POSTMIG_LOAD, .width = 8, .addr = addr };
}
static postmig_command store(uint64_t addr)
{
    return (postmig_command){ .kind = POSTMIG_STORE, .width = 8, .addr = addr };
}

/* The frames that the source sent reach the destination. */
static void deliver(void)
{
    DO(postmig_node_frame(&source, text, sizeof text, &length));
    for (size_t at = 0; at < length; at += head) {
        DO(postmig_frame_lengths(text + at, length - at, &head, &pages));
        WANT(pages == 0 && head <= length - at);
        /* memory of just this frame, so that the sanitizer sees a read past its end */
        uint8_t *bytes = __real_malloc(head);
        memcpy(bytes, text + at, head);
        DO(postmig_destination_take(&destination, bytes, head, &effect));
        __real_free(bytes);
    }
}

/* The frames that the destination sent come back. */
static void deliver_back(void)
{
    DO(postmig_node_frame(&destination, text, sizeof text, &length));
    for (size_t at = 0; at < length; at += head) {
        DO(postmig_frame_lengths(text + at, length - at, &head, &pages));
        DO(postmig_source_back(&source, text + at, head, &effect));
    }
}

static void no_steps(postmig_handle *it)
{
    uint32_t (*steps[])(postmig_handle *, postmig_effect *) = {
        postmig_source_start,
        postmig_source_round,
        postmig_source_send,
        postmig_source_read,
        postmig_source_act,
        postmig_source_switch,
        postmig_source_serve,
        postmig_source_end,
        postmig_source_notice,
        postmig_source_resume,
        postmig_destination_read,
        postmig_destination_act,
        postmig_destination_install,
        postmig_destination_notice,
        postmig_source_next_act,
        postmig_destination_next_act,
        postmig_destination_next_install,
    };
    for (size_t i = 0; i < sizeof steps / sizeof *steps; i++)
        WANT(steps[i](it, &effect) == POSTMIG_NOT_OPEN);
}

static void not_open(void)
{
    uint32_t number, other;
    postmig_pages like;
    postmig_processor processor;
    postmig_source_state from;
    postmig_destination_state to;
    postmig_command command = load(BASE);
    postmig_handle *it = &source;
    no_steps(it);
    WANT(postmig_source_issue(it, 0, &command, &effect) == POSTMIG_NOT_OPEN &&
         postmig_destination_issue(it, 0, &command, &effect) == POSTMIG_NOT_OPEN);
    WANT(postmig_source_retry(it, 0, &effect) == POSTMIG_NOT_OPEN &&
         postmig_destination_retry(it, 0, &effect) == POSTMIG_NOT_OPEN);
    WANT(postmig_source_run_sent(it, 1, &effect) == POSTMIG_NOT_OPEN &&
         postmig_source_next_run(it, 1, &number, &other) == POSTMIG_NOT_OPEN);
    WANT(postmig_source_push(it, 1, 1, &effect) == POSTMIG_NOT_OPEN &&
         postmig_source_push_urgent(it, 1, 1, &effect) == POSTMIG_NOT_OPEN);
    WANT(postmig_source_check_push(it, 1, 1) == POSTMIG_NOT_OPEN &&
         postmig_source_next_remaining(it, 0, &number) == POSTMIG_NOT_OPEN);
    WANT(postmig_source_back(it, text, 12, &effect) == POSTMIG_NOT_OPEN &&
         postmig_source_counts(it, &from) == POSTMIG_NOT_OPEN);
    WANT(postmig_destination_take(it, text, 12, &effect) == POSTMIG_NOT_OPEN &&
         postmig_destination_take_urgent(it, text, 16, &effect) == POSTMIG_NOT_OPEN);
    WANT(postmig_destination_counts(it, &to) == POSTMIG_NOT_OPEN &&
         postmig_destination_home(it, 16, &number) == POSTMIG_NOT_OPEN);
    WANT(postmig_destination_install_run(it, 1, &effect, &number) == POSTMIG_NOT_OPEN);
    WANT(postmig_destination_pages(it, 16, &like) == POSTMIG_NOT_OPEN &&
         postmig_node_processor(it, 0, &processor) == POSTMIG_NOT_OPEN);
    WANT(postmig_node_frame(it, text, sizeof text, &length) == POSTMIG_NOT_OPEN);
    WANT(postmig_node_trace_count(it, &length) == POSTMIG_NOT_OPEN);
    WANT(postmig_node_trace(it, true) == POSTMIG_NOT_OPEN &&
         postmig_node_trace_take(it, text, sizeof text, &length) == POSTMIG_NOT_OPEN);
}

/* What a processor of a node does. */
static void does(postmig_handle *node, uint8_t cpu, uint32_t state, uint32_t messages, uint32_t kind, uint64_t addr)
{
    postmig_processor now;
    DO(postmig_node_processor(node, cpu, &now));
    WANT(now.state == state && now.messages == messages && now.command.kind == kind && now.command.addr == addr &&
         now.command.width == (kind ? 8 : 0));
}

/* The runs of pages that the destination has, from the first one on. */
static void has(const uint32_t (*runs)[3], size_t count)
{
    uint32_t from = 0;
    postmig_pages like;
    for (size_t i = 0; i < count; i++, from += like.count) {
        DO(postmig_destination_pages(&destination, from, &like));
        WANT(like.count == runs[i][0] && like.prot == runs[i][1] && like.state == runs[i][2]);
    }
    WANT(from == 0x100000);
    SAYS(postmig_destination_pages(&destination, from, &like), POSTMIG_NO_PAGE);
}

/* A trace that is off, on without a line, on with one, on twice, and off again. */
static void traces(void)
{
    postmig_command map = {
        .kind = POSTMIG_MMAP, .length = 4096, .prot = POSTMIG_PROT_READ, .place = POSTMIG_ANYWHERE
    };
    const char line[] = "cpu 1 mmap 4096 r => cpu 1 at 0x10000\n";
    size_t waiting = 1;
    DO(postmig_source_new(2, 0, 0, &source));
    SAYS(postmig_node_trace_take(&source, text, sizeof text, &length), POSTMIG_NO_TRACE);
    DO(postmig_node_trace_count(&source, &waiting));
    WANT(waiting == 0);
    DO(postmig_node_trace(&source, true));
    length = 1;
    DO(postmig_node_trace_take(&source, text, 0, &length));
    WANT(length == 0);
    DO(postmig_source_issue(&source, 1, &map, &effect));
    SAYS(postmig_source_end(&source, &effect), POSTMIG_REFUSED_PHASE);
    DO(postmig_node_trace(&source, true));
    SAYS(postmig_node_trace_take(&source, text, sizeof line - 2, &length), POSTMIG_NO_ROOM);
    WANT(length == sizeof line - 1);
    DO(postmig_node_trace_count(&source, &waiting));
    WANT(waiting == 1);
    DO(postmig_node_trace_take(&source, text, sizeof line - 1, &length));
    WANT(length == sizeof line - 1 && !memcmp(text, line, length));
    DO(postmig_node_trace_take(&source, text, sizeof text, &length));
    WANT(length == 0);
    DO(postmig_source_issue(&source, 1, &map, &effect));
    DO(postmig_node_trace(&source, false));
    SAYS(postmig_node_trace_take(&source, text, sizeof text, &length), POSTMIG_NO_TRACE);
    DO(postmig_node_trace(&source, true));
    DO(postmig_node_trace_take(&source, text, sizeof text, &length));
    WANT(length == 0);
    postmig_free(&source);
}

static void start(void)
{
    SAYS(postmig_source_new(0, 0, 0, &source), POSTMIG_NO_CPU);
    SAYS(postmig_destination_new(17, &destination), POSTMIG_NO_CPU);
    DO(postmig_source_new(2, 0, 0, &source));
    DO(postmig_destination_new(2, &destination));
    DO(postmig_node_trace(&source, true));
    DO(postmig_node_trace(&destination, true));
    traced = true;
    postmig_command map = { .kind = POSTMIG_MMAP,
                            .length = 2 * PAGES * 4096,
                            .prot = POSTMIG_PROT_READ_WRITE,
                            .place = POSTMIG_FIXED,
                            .target = BASE };
    DO(postmig_source_issue(&source, 0, &map, &effect));
    WANT(effect.kind == POSTMIG_DID_ANSWER && effect.reply == POSTMIG_REPLY_AT && effect.value == BASE);
    map.kind = 7;
    SAYS(postmig_source_issue(&source, 0, &map, &effect), POSTMIG_NOT_A_COMMAND);
    for (uint64_t i = 0; i < PAGES; i++) {
        postmig_command present = store(BASE + 4096 * i);
        DO(postmig_source_issue(&source, 0, &present, &effect));
        WANT(effect.reply == POSTMIG_REPLY_DONE);
    }
    SAYS(postmig_source_issue(&source, 2, &map, &effect), POSTMIG_NOT_A_COMMAND);
    postmig_command none = load(BASE);
    SAYS(postmig_source_issue(&source, 2, &none, &effect), POSTMIG_REFUSED_NO_CPU);
    SAYS(postmig_source_retry(&source, 0, &effect), POSTMIG_REFUSED_NOT_ASLEEP);
    SAYS(postmig_source_round(&source, &effect), POSTMIG_REFUSED_PHASE);
    DO(postmig_source_start(&source, &effect));
    WANT(effect.kind == POSTMIG_DID_START && effect.number == 1);
    SAYS(postmig_node_frame(&source, text, 11, &length), POSTMIG_NO_ROOM);
    WANT(length == 12);
    deliver();
    WANT(effect.kind == POSTMIG_DID_TAKE_ADVISE);
    SAYS(postmig_node_frame(&source, text, sizeof text, &length), POSTMIG_NO_FRAME);
    SAYS(postmig_node_frame(&destination, text, sizeof text, &length), POSTMIG_NO_FRAME);
}

static void precopy(void)
{
    uint32_t first, count;
    DO(postmig_source_round(&source, &effect));
    WANT(effect.kind == POSTMIG_DID_ROUND && effect.number == 1 && effect.count == PAGES);
    DO(postmig_source_next_run(&source, 4, &first, &count));
    WANT(first == BASE / 4096 && count == 4);
    DO(postmig_source_run_sent(&source, 4, &effect));
    WANT(effect.kind == POSTMIG_DID_SEND_RUN && effect.addr == BASE && effect.count == 4);
    SAYS(postmig_run_head(1, first, 65, text, sizeof text, &length), POSTMIG_NOT_A_FRAME);
    SAYS(postmig_run_head(1, first, count, text, 19, &length), POSTMIG_NO_ROOM);
    DO(postmig_run_head(1, first, count, text, sizeof text, &length));
    SAYS(postmig_frame_lengths(text, 11, &head, &pages), POSTMIG_NO_FRAME);
    DO(postmig_frame_lengths(text, 12, &head, &pages));
    WANT(length == 20 && head == 20 && pages == 4 * 4096);
    SAYS(postmig_destination_take(&destination, text, 19, &effect), POSTMIG_NOT_A_FRAME);
    DO(postmig_destination_take(&destination, text, head, &effect));
    WANT(effect.kind == POSTMIG_DID_TAKE_RUN && effect.addr == BASE && effect.count == 4);
    DO(postmig_source_send(&source, &effect));
    WANT(effect.kind == POSTMIG_DID_SEND_ZERO && effect.addr == BASE + 4 * 4096);
    DO(postmig_page_head(1, BASE / 4096 + 4, text, sizeof text, &length));
    DO(postmig_frame_lengths(text, length, &head, &pages));
    WANT(length == 16 && head == 16 && pages == 4096);
    DO(postmig_destination_take(&destination, text, length, &effect));
    WANT(effect.kind == POSTMIG_DID_TAKE_ZERO && effect.addr == BASE + 4 * 4096);
}

/* A write-protect fault, and an event. */
static void interrupted(void)
{
    uint32_t first, count;
    postmig_command write = store(BASE + 4096);
    DO(postmig_source_issue(&source, 1, &write, &effect));
    WANT(effect.kind == POSTMIG_DID_SLEEP && effect.cpu == 1);
    SAYS(postmig_source_issue(&source, 1, &write, &effect), POSTMIG_REFUSED_BUSY);
    SAYS(postmig_source_retry(&source, 1, &effect), POSTMIG_REFUSED_NOT_WOKEN);
    DO(postmig_source_read(&source, &effect));
    WANT(effect.kind == POSTMIG_DID_READ_FAULT && effect.number == 1 && effect.addr == BASE + 4096);
    DO(postmig_source_next_act(&source, &effect));
    WANT(effect.kind == POSTMIG_DID_UNPROTECT && effect.addr == BASE + 4096);
    DO(postmig_source_act(&source, &effect));
    WANT(effect.kind == POSTMIG_DID_UNPROTECT);
    DO(postmig_source_retry(&source, 1, &effect));
    WANT(effect.kind == POSTMIG_DID_ANSWER && effect.cpu == 1 && effect.reply == POSTMIG_REPLY_DONE);
    SAYS(postmig_source_act(&source, &effect), POSTMIG_REFUSED_NOTHING_THERE);
    postmig_command clear = { .kind = POSTMIG_DONTNEED, .addr = BASE + 7 * 4096, .length = 4096 };
    DO(postmig_source_issue(&source, 0, &clear, &effect));
    WANT(effect.kind == POSTMIG_DID_ENTER_CALL && effect.count == 1);
    does(&source, 0, POSTMIG_PROCESSOR_IN_CALL, 1, 0, 0);
    SAYS(postmig_source_next_run(&source, 4, &first, &count), POSTMIG_REFUSED_CHANGING);
    SAYS(postmig_source_switch(&source, &effect), POSTMIG_REFUSED_CHANGING);
    DO(postmig_source_read(&source, &effect));
    WANT(effect.kind == POSTMIG_DID_READ_LAST && effect.number == POSTMIG_EVENT_REMOVE &&
         effect.addr == BASE + 7 * 4096 && effect.other == BASE + 8 * 4096 && effect.reply == POSTMIG_REPLY_DONE);
}

static void switched(void)
{
    static const uint32_t none[][3] = { { 0x100000, 0, POSTMIG_PAGE_UNMAPPED } };
    static const uint32_t runs[][3] = {
        { BASE / 4096, 0, POSTMIG_PAGE_UNMAPPED },
        { 1, POSTMIG_PROT_READ_WRITE, POSTMIG_PAGE_PRESENT },
        { 1, POSTMIG_PROT_READ_WRITE, POSTMIG_PAGE_OWED },
        { 3, POSTMIG_PROT_READ_WRITE, POSTMIG_PAGE_PRESENT },
        { 2, POSTMIG_PROT_READ_WRITE, POSTMIG_PAGE_OWED },
        { 9, POSTMIG_PROT_READ_WRITE, POSTMIG_PAGE_MISSING },
        { 0x100000 - BASE / 4096 - 16, 0, POSTMIG_PAGE_UNMAPPED },
    };
    postmig_processor other;
    DO(postmig_source_switch(&source, &effect));
    WANT(effect.kind == POSTMIG_DID_SWITCH && effect.count == 3 && effect.number == 1);
    has(none, 1);
    deliver();
    WANT(effect.kind == POSTMIG_DID_TAKE_PACKAGE && effect.count == 3);
    has(runs, sizeof runs / sizeof *runs);
    does(&destination, 0, POSTMIG_PROCESSOR_IDLE, 0, 0, 0);
    SAYS(postmig_node_processor(&destination, 2, &other), POSTMIG_REFUSED_NO_CPU);
}

/* A fault on an owed page. */
static void fetched(void)
{
    postmig_command write = store(BASE + 4096);
    uint32_t page;
    DO(postmig_destination_issue(&destination, 0, &write, &effect));
    WANT(effect.kind == POSTMIG_DID_SLEEP);
    does(&destination, 0, POSTMIG_PROCESSOR_ASLEEP, 0, POSTMIG_STORE, BASE + 4096);
    DO(postmig_destination_read(&destination, &effect));
    DO(postmig_destination_next_act(&destination, &effect));
    WANT(effect.kind == POSTMIG_DID_REQUEST && effect.addr == BASE + 4096 && effect.other == BASE + 4096);
    DO(postmig_destination_act(&destination, &effect));
    deliver_back();
    WANT(effect.kind == POSTMIG_DID_TAKE_REQUEST && effect.addr == BASE + 4096);
    DO(postmig_source_serve(&source, &effect));
    WANT(effect.kind == POSTMIG_DID_DEQUEUE && effect.addr == BASE + 4096);
    SAYS(postmig_source_check_push(&source, 2, BASE / 4096 + 1), POSTMIG_REFUSED_STALE_EPOCH);
    DO(postmig_source_check_push(&source, 1, BASE / 4096 + 1));
    DO(postmig_source_push_urgent(&source, 1, BASE / 4096 + 1, &effect));
    SAYS(postmig_source_push(&source, 1, BASE / 4096 + 1, &effect), POSTMIG_REFUSED_NOT_REMAINING);
    DO(postmig_page_head(1, BASE / 4096 + 1, text, sizeof text, &length));
    DO(postmig_destination_take_urgent(&destination, text, length, &effect));
    DO(postmig_destination_home(&destination, BASE / 4096 + 1, &page));
    WANT(page == BASE / 4096 + 1);
    SAYS(postmig_destination_home(&destination, BASE / 4096, &page), POSTMIG_NO_PAGE);
    DO(postmig_destination_next_install(&destination, &effect));
    WANT(effect.kind == POSTMIG_DID_INSTALL && effect.addr == BASE + 4096 && effect.other == BASE + 4096);
    DO(postmig_destination_install(&destination, &effect));
    does(&destination, 0, POSTMIG_PROCESSOR_WOKEN, 0, POSTMIG_STORE, BASE + 4096);
    DO(postmig_destination_retry(&destination, 0, &effect));
    WANT(effect.kind == POSTMIG_DID_ANSWER && effect.reply == POSTMIG_REPLY_DONE);
    SAYS(postmig_destination_next_install(&destination, &effect), POSTMIG_REFUSED_NOTHING_THERE);
}

/* Installs the copies that wait, and one more: where memory is refused the call has made those before. Returns
   their number. */
static uint32_t install_all(uint32_t waiting)
{
    uint32_t made = 0, sum = 0, status = POSTMIG_NO_MEMORY;
    for (; status == POSTMIG_NO_MEMORY; sum += made) {
        WANT(!sum || refused);
        status = postmig_destination_install_run(&destination, waiting + 1 - sum, &effect, &made);
    }
    WANT(status == POSTMIG_REFUSED_NOTHING_THERE);
    take_lines();
    return sum;
}

static void resumed(void)
{
    uint32_t page = 0, count = 0;
    memcpy(script + script_length, "break\n", 6);
    script_length += 6;
    DO(postmig_source_notice(&source, &effect));
    SAYS(postmig_source_notice(&source, &effect), POSTMIG_REFUSED_PHASE);
    DO(postmig_destination_notice(&destination, &effect));
    WANT(effect.kind == POSTMIG_DID_NOTICE && effect.number == 1);
    DO(postmig_source_resume(&source, &effect));
    WANT(effect.kind == POSTMIG_DID_RESUME && effect.number == 2);
    deliver();
    WANT(effect.kind == POSTMIG_DID_TAKE_RESUME);
    deliver_back();
    WANT(effect.kind == POSTMIG_DID_TAKE_RECV && effect.number == 1 && effect.count == 2);
    for (; postmig_source_next_remaining(&source, page, &page) == POSTMIG_OK; count++) {
        DO(postmig_source_push(&source, 2, page, &effect));
        DO(postmig_zero_frame(2, page, text, sizeof text, &length));
        DO(postmig_destination_take(&destination, text, length, &effect));
    }
    WANT(count == 2 && install_all(count) == 2);
    WANT(effect.kind == POSTMIG_DID_INSTALL && effect.addr == effect.other);
    DO(postmig_destination_install_run(&destination, 0, &effect, &count));
    WANT(count == 0);
    SAYS(postmig_zero_frame(2, 15, text, sizeof text, &length), POSTMIG_NOT_A_FRAME);
    DO(postmig_source_end(&source, &effect));
    deliver();
    WANT(effect.kind == POSTMIG_DID_TAKE_END);
    deliver_back();
    WANT(effect.kind == POSTMIG_DID_TAKE_DONE);
}

static void last(void)
{
    postmig_source_state from;
    postmig_destination_state to;
    DO(postmig_source_counts(&source, &from));
    DO(postmig_destination_counts(&destination, &to));
    WANT(from.phase == POSTMIG_SOURCE_RELEASED && from.switched == 1 && from.epoch == 2 && from.rounds == 1 &&
         from.remaining == 0 && from.pages_sent == 8 && from.faults == 1);
    WANT(to.phase == POSTMIG_DESTINATION_ENDED && to.has_run == 1 && to.epoch == 2 && to.owed == 0 &&
         to.arrivals == 0 && to.installed == 3 && to.faults == 1);
    uint32_t status;
    while ((status = postmig_source_push(&source, 2, 16, &effect)) == POSTMIG_NO_MEMORY)
        WANT(refused); /* room for a line comes first */
    DO(postmig_refusal_name(status, text, sizeof text, &length));
    WANT(length == 5 && !memcmp(text, "Phase", 5));
    SAYS(postmig_refusal_name(POSTMIG_NO_MEMORY, text, sizeof text, &length), POSTMIG_NOT_A_LINE);
    traced = false;
    postmig_free(&source);
    postmig_free(&source);
    postmig_free(&destination);
}

static void migrate(void)
{
    script_length = 0;
    not_open();
    traces();
    start();
    precopy();
    interrupted();
    switched();
    fetched();
    resumed();
    last();
    not_open();
}

int main(int argc, char **argv)
{
    (void)argv;
    migrate();
    WANT(!refused && live == 0);
    if (argc > 1) {
        WANT(fwrite(script, 1, script_length, stdout) == script_length);
        return 0;
    }
    static uint8_t first[sizeof script];
    size_t first_length = script_length;
    memcpy(first, script, script_length);
    for (turn = 0;; turn++) {
        live = 0;
        refused = false;
        left = turn;
        migrate();
        left = -1;
        WANT(live == 0);
        WANT(script_length == first_length && !memcmp(script, first, first_length));
        if (!refused)
            break;
    }
    printf("nodes of their own: each call, and %ld allocations refused, one at a time: no other answer, no other "
           "trace, no leak\n",
           turn);
    return 0;
}
