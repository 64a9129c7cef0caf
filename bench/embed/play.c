/* One node in a process of its own: each line of standard input is a step of a script, and standard output has its
   line of the node's trace, or its refusal. Bytes go to the other node and come from it over pipes:
   bench/compare/nodes.py starts both.

   play source CPUS EPOCH ROUNDS OUT URGENT IN | play dest CPUS IN URGENT OUT      numbers of files; `drop` drops
                                                                                   all that was not read */
#include <errno.h>
#include <fcntl.h>
#include <stdio.h>
#include <stdlib.h>
#include <string.h>
#include <unistd.h>

#include <postmig_node.h>

enum { PAGE = 4096, MOST_WORDS = 12, ROOM = 8 << 20 };

static postmig_handle node;
static postmig_effect effect;
static uint32_t epoch; /* of the source, as the heads of its frames have it */

static _Noreturn void fail(const char *what)
{
    fprintf(stderr, "play: %s: %s\n", what, strerror(errno));
    exit(1);
}

/* WIRES */

/* One that bytes come from: those that were read and not taken. */
struct wire {
    int file;
    uint8_t *bytes;
    size_t length;
};

static void open_wire(struct wire *wire, const char *number)
{
    wire->file = atoi(number);
    wire->bytes = malloc(ROOM);
    if (!wire->bytes || fcntl(wire->file, F_SETFL, O_NONBLOCK) < 0)
        fail("a wire");
}

/* All that has arrived. */
static void fill(struct wire *wire)
{
    ssize_t count;

    while ((count = read(wire->file, wire->bytes + wire->length, ROOM - wire->length)) > 0)
        wire->length += (size_t)count;
    if (count < 0 && errno != EAGAIN)
        fail("a read");
}

static void take(struct wire *wire, size_t length)
{
    memmove(wire->bytes, wire->bytes + length, wire->length - length);
    wire->length -= length;
}

/* The other side reads while it waits for its next line, so a pipe that is full is a fault. */
static void put(int file, const uint8_t *bytes, size_t length)
{
    if (write(file, bytes, length) != (ssize_t)length)
        fail("a wire that is full");
}

/* WORDS */

static uint64_t number(const char *word)
{
    return strtoull(word, NULL, strncmp(word, "0x", 2) ? 10 : 16);
}

static bool is(const char *word, const char *other)
{
    return word && !strcmp(word, other);
}

static uint32_t protection(const char *word)
{
    return is(word, "none") ? POSTMIG_PROT_NONE : is(word, "r") ? POSTMIG_PROT_READ : POSTMIG_PROT_READ_WRITE;
}

/* `words` are those from the name of the command on; after them comes a NULL. */
static postmig_command command_of(char **words)
{
    static const char *const names[] = { "", "load", "store", "mmap", "munmap", "mremap", "dontneed" };
    postmig_command command = { .kind = POSTMIG_LOAD };
    char **place = NULL;

    while (command.kind < POSTMIG_DONTNEED && !is(words[0], names[command.kind]))
        command.kind++;
    if (command.kind == POSTMIG_MMAP) {
        command.length = number(words[1]);
        command.prot = protection(words[2]);
        place = words + 3;
    } else {
        command.addr = number(words[1]);
        command.length = number(words[2]);
    }
    if (command.kind <= POSTMIG_STORE)
        command.width = (uint32_t)command.length;
    if (command.kind == POSTMIG_STORE)
        command.value = number(words[3]);
    if (command.kind == POSTMIG_MREMAP) {
        command.new_length = number(words[3]);
        command.may_move = is(words[4], "maymove");
        place = words + 4 + command.may_move;
    }
    if (place && *place) {
        command.place = is(*place, "fixed") ? POSTMIG_FIXED : POSTMIG_NO_REPLACE;
        command.target = number(place[1]);
    }
    return command;
}

/* STEPS */

/* A page as a Page or as a Zero: the node sees none of its bytes. */
static void put_page(int file, uint32_t page)
{
    static uint8_t frame[2 * PAGE];
    size_t length = 0;

    if (page % 2) {
        memset(frame, 0x5a, sizeof frame);
        postmig_page_head(epoch, page, frame, sizeof frame, &length);
        length += PAGE;
    } else {
        postmig_zero_frame(epoch, page, frame, sizeof frame, &length);
    }
    put(file, frame, length);
}

static void put_run(int file, uint32_t first, uint32_t count)
{
    static uint8_t frame[64 * PAGE + 64];
    size_t length = 0;

    postmig_run_head(epoch, first, count, frame, sizeof frame, &length);
    put(file, frame, length + (size_t)count * PAGE);
}

/* The bytes of what a step has sent. */
static void send_frames(int out, int urgent, bool is_urgent)
{
    static uint8_t frames[ROOM];
    size_t length = 0;

    if (effect.kind == POSTMIG_DID_START || effect.kind == POSTMIG_DID_RESUME)
        epoch = effect.number;
    if (effect.kind == POSTMIG_DID_SEND_RUN)
        put_run(out, (uint32_t)(effect.addr / PAGE), effect.count);
    else if (effect.kind == POSTMIG_DID_SEND_ZERO)
        put_page(is_urgent ? urgent : out, (uint32_t)(effect.addr / PAGE));
    if (postmig_node_frame(&node, frames, sizeof frames, &length) == POSTMIG_OK)
        put(out, frames, length);
}

enum { NO_FRAME_THERE = 1000 }; /* nodes.py knows it */

/* Has `taken` take the frame at the front of a wire, once it is whole. */
static uint32_t take_frame(struct wire *wire,
                           uint32_t (*taken)(postmig_handle *, const uint8_t *, size_t, postmig_effect *))
{
    size_t head = 0, pages = 0;
    uint32_t status;

    fill(wire);
    if (postmig_frame_lengths(wire->bytes, wire->length, &head, &pages) != POSTMIG_OK || wire->length < head + pages)
        return NO_FRAME_THERE;
    status = taken(&node, wire->bytes, head, &effect);
    if (status == POSTMIG_OK)
        take(wire, head + pages);
    return status;
}

static uint32_t source_step(char **words, struct wire *back)
{
    static const struct {
        const char *name;
        uint32_t (*step)(postmig_handle *, postmig_effect *);
    } steps[] = { { "start", postmig_source_start },   { "round", postmig_source_round },
                  { "send", postmig_source_send },     { "sread", postmig_source_read },
                  { "sact", postmig_source_act },      { "switch", postmig_source_switch },
                  { "serve", postmig_source_serve },   { "end", postmig_source_end },
                  { "notice", postmig_source_notice }, { "resume", postmig_source_resume } };

    for (size_t i = 0; i < sizeof steps / sizeof *steps; i++)
        if (is(words[0], steps[i].name))
            return steps[i].step(&node, &effect);
    if (is(words[0], "back"))
        return take_frame(back, postmig_source_back);
    if (is(words[0], "sendrun"))
        return postmig_source_run_sent(&node, (uint8_t)number(words[1]), &effect);
    if (is(words[0], "push") || is(words[0], "upush")) {
        uint32_t page = (uint32_t)(number(words[1]) / PAGE), ticket = words[2] ? (uint32_t)number(words[2]) : epoch;

        return is(words[0], "push") ? postmig_source_push(&node, ticket, page, &effect)
                                    : postmig_source_push_urgent(&node, ticket, page, &effect);
    }
    return POSTMIG_NOT_A_LINE;
}

static uint32_t destination_step(char **words, struct wire *in, struct wire *urgent)
{
    if (is(words[0], "deliver"))
        return take_frame(in, postmig_destination_take);
    if (is(words[0], "udeliver"))
        return take_frame(urgent, postmig_destination_take_urgent);
    if (is(words[0], "dread"))
        return postmig_destination_read(&node, &effect);
    if (is(words[0], "dact"))
        return postmig_destination_act(&node, &effect);
    if (is(words[0], "install"))
        return postmig_destination_install(&node, &effect);
    if (is(words[0], "notice"))
        return postmig_destination_notice(&node, &effect);
    return POSTMIG_NOT_A_LINE;
}

/* A command or a retry of a processor, of either node; POSTMIG_NOT_A_LINE for another step. */
static uint32_t guest_step(char **words, bool is_source)
{
    uint8_t cpu = (uint8_t)(words[1] ? number(words[1]) : 0);
    postmig_command command;

    if (is(words[0], "retry"))
        return is_source ? postmig_source_retry(&node, cpu, &effect) : postmig_destination_retry(&node, cpu, &effect);
    if (!is(words[0], "cpu"))
        return POSTMIG_NOT_A_LINE;
    command = command_of(words + 2);
    return is_source ? postmig_source_issue(&node, cpu, &command, &effect)
                     : postmig_destination_issue(&node, cpu, &command, &effect);
}

/* ANSWERS */

static void answer(uint32_t status)
{
    uint8_t text[PAGE];
    size_t length = 0;

    if (status == POSTMIG_OK && postmig_node_trace_take(&node, text, sizeof text, &length) == POSTMIG_OK)
        printf("%.*s", (int)length, (const char *)text);
    else if (postmig_refusal_name(status, text, sizeof text, &length) == POSTMIG_OK)
        printf("refused %.*s\n", (int)length, (const char *)text);
    else
        printf("status %u\n", status);
    if (fflush(stdout))
        fail("standard output");
}

static char **words_of(char *line)
{
    static char *words[MOST_WORDS + 1];
    size_t count = 0;

    memset(words, 0, sizeof words);
    for (char *word = strtok(line, " \n"); word && count < MOST_WORDS; word = strtok(NULL, " \n"))
        words[count++] = word;
    return words;
}

/* What has arrived and was not taken is lost with its channel. */
static void drop(struct wire *wire)
{
    if (wire->file < 0)
        return;
    fill(wire);
    wire->length = 0;
}

/* One line of standard input. */
static void make_step(char **words, bool is_source, struct wire *in, struct wire *urgent, const int out[2])
{
    uint32_t status;

    effect = (postmig_effect){ 0 };
    status = guest_step(words, is_source);
    if (status == POSTMIG_NOT_A_LINE)
        status = is_source ? source_step(words, in) : destination_step(words, in, urgent);
    if (status == POSTMIG_OK)
        send_frames(out[0], out[1], is(words[0], "upush"));
    answer(status);
}

int main(int count, char **arguments)
{
    bool is_source = count == 8 && is(arguments[1], "source");
    struct wire in = { .file = -1 }, urgent = { .file = -1 };
    int out[2] = { is_source ? atoi(arguments[5]) : -1, is_source ? atoi(arguments[6]) : -1 };
    char line[512];
    uint32_t status;

    if (!is_source && count != 6)
        fail("bad use");
    open_wire(&in, arguments[is_source ? 7 : 3]);
    if (is_source) {
        status = postmig_source_new((uint8_t)atoi(arguments[2]), (uint32_t)number(arguments[3]),
                                    (uint32_t)number(arguments[4]), &node);
    } else {
        open_wire(&urgent, arguments[4]);
        out[0] = atoi(arguments[5]);
        status = postmig_destination_new((uint8_t)atoi(arguments[2]), &node);
    }
    if (status != POSTMIG_OK || postmig_node_trace(&node, true) != POSTMIG_OK)
        fail("no node");
    while (fgets(line, sizeof line, stdin)) {
        char **words = words_of(line);

        if (!is(words[0], "drop")) {
            make_step(words, is_source, &in, &urgent, out);
            continue;
        }
        drop(&in);
        drop(&urgent);
        if (puts("dropped") < 0 || fflush(stdout))
            fail("standard output");
    }
    postmig_node_trace(&node, false);
    postmig_free(&node);
    free(in.bytes);
    free(urgent.bytes);
    return 0;
}
