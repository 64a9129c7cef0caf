/* What the library says of lines, transcripts and worlds, in the words of the program.

   inside [NAME.script]..         tests it
   inside show LINES WHAT NAME    writes what a world holds after this number of lines of a script, by the number of
                                  the question
   inside lint|entries NAME       writes the wrong lines of a script, or of a transcript
   inside explain|all NAME        writes what is wrong with a transcript: the first entry, or all */
#define _GNU_SOURCE
#include <stdio.h>
#include <stdlib.h>
#include <string.h>
#include "postmig.h"

#define WANT(holds)                                                         \
    if (!(holds)) {                                                         \
        fprintf(stderr, "%s:%d: not so: %s\n", __FILE__, __LINE__, #holds); \
        exit(1);                                                            \
    }
#define TEXT(text) (const uint8_t *)(text), strlen(text)

enum { ROOM = 1 << 20 };
static uint8_t out[ROOM], other[ROOM];
static size_t written, more, column;
static bool clean, flat;

static bool is(const char *text)
{
    return written == strlen(text) && !memcmp(out, text, written);
}

/* the bytes of a file, in memory of their own, so that the sanitizer sees a read past their end */
static uint8_t *bytes_of(const char *path, size_t *length)
{
    FILE *file = fopen(path, "rb");
    WANT(file);
    fseek(file, 0, SEEK_END);
    *length = (size_t)ftell(file);
    rewind(file);
    uint8_t *bytes = malloc(*length + !*length);
    WANT(bytes && fread(bytes, 1, *length, file) == *length);
    fclose(file);
    return bytes;
}

static size_t line_length(const uint8_t *script, size_t length, size_t at)
{
    const uint8_t *end = memchr(script + at, '\n', length - at);
    return end ? (size_t)(end - (script + at)) : length - at;
}

/* A line that is wrong has its reason in the listing of it as a whole text; of one that is right nothing is listed.
   Returns whether it is wrong. */
static bool one_line(bool transcript, const uint8_t *bytes, size_t length)
{
    uint8_t *line = malloc(length + !length);
    WANT(line);
    if (length)
        memcpy(line, bytes, length);
    column = 0;
    uint32_t status = postmig_line_reason(transcript, line, length, &column, out, ROOM, &written);
    WANT(postmig_lint(transcript, line, length, &clean, other, ROOM, &more) == POSTMIG_OK);
    if (status == POSTMIG_OK) {
        WANT(clean && !written && !more && !column);
    } else {
        char wanted[1024];
        WANT(status == POSTMIG_NOT_A_LINE && !clean && written && column && column <= length + 1);
        int all = snprintf(wanted, sizeof wanted, "-:1:%zu: %.*s\n", column, (int)written, (const char *)out);
        WANT((size_t)all == more && !memcmp(wanted, other, more));
        /* it fits into its length, and not into less */
        size_t needed = written;
        uint8_t *tight = malloc(needed);
        WANT(tight);
        WANT(postmig_line_reason(transcript, line, length, &column, tight, needed - 1, &written) == POSTMIG_NO_ROOM &&
             written == needed);
        WANT(postmig_line_reason(transcript, line, length, &column, tight, needed, &written) == POSTMIG_NOT_A_LINE &&
             !memcmp(tight, out, needed));
        free(tight);
    }
    free(line);
    return status != POSTMIG_OK;
}

static void lines(void)
{
    char longest[257];
    memset(longest, ' ', sizeof longest);
    memcpy(longest, "start", 5);
    WANT(postmig_line_reason(false, TEXT("cpu 0 lod 0x10000 8"), &column, out, ROOM, &written) == POSTMIG_NOT_A_LINE &&
         column == 7);
    WANT(is("`lod` is not a command of a processor: did you mean `load`?"));
    WANT(postmig_line_reason(false, NULL, 0, &column, NULL, 0, &written) == POSTMIG_OK && !written);
    WANT(!one_line(false, TEXT("start")) && one_line(true, TEXT("start")) && !one_line(false, TEXT("# x")) &&
         !one_line(false, (uint8_t *)longest, 256));
    WANT(!one_line(true, TEXT("0 load 0x10000 8 => value 0x0")) &&
         one_line(false, TEXT("0 load 0x10000 8 => value 0x0")));
    WANT(postmig_line_reason(false, (uint8_t *)longest, 257, &column, out, ROOM, &written) == POSTMIG_NOT_A_LINE &&
         column == 257);
    WANT(is("a line has at most 256 bytes, and this one has 257"));
    const char *script = "strat\nstart\n\ncpu 0 lod 0x10000 8";
    const char *listing = "-:1:1: `strat` is not the first word of a script line: did you mean `start`?\n"
                          "-:4:7: `lod` is not a command of a processor: did you mean `load`?\n";
    WANT(postmig_lint(false, TEXT(script), &clean, out, ROOM, &written) == POSTMIG_OK && !clean && is(listing));
    WANT(postmig_lint(false, TEXT(script), &clean, NULL, 0, &written) == POSTMIG_NO_ROOM && written == strlen(listing));
    WANT(postmig_lint(true, TEXT("0 load 0x10000 8 => value 0x0\n"), &clean, out, ROOM, &written) == POSTMIG_OK &&
         clean && !written);
    WANT(postmig_lint(false, NULL, 0, &clean, NULL, 0, &written) == POSTMIG_OK && clean && !written);
}

static void worlds(void)
{
    postmig_handle world = POSTMIG_NONE;
    WANT(postmig_world_show(&world, POSTMIG_ALL, 0, UINT64_MAX, out, ROOM, &written) == POSTMIG_NOT_OPEN && !world.at);
    WANT(postmig_frames_new(&world) == POSTMIG_OK);
    WANT(postmig_world_show(&world, POSTMIG_ALL, 0, UINT64_MAX, out, ROOM, &written) == POSTMIG_NOT_OPEN && world.at);
    WANT(postmig_world_new(1, false, &world) == POSTMIG_OK &&
         postmig_world_line(&world, TEXT("cpu 0 mmap 8192 r"), out, ROOM, &written) == POSTMIG_OK);
    WANT(postmig_world_show(&world, 6, 0, UINT64_MAX, out, ROOM, &written) == POSTMIG_NO_QUESTION);
    WANT(postmig_world_show(&world, UINT32_MAX, 0, UINT64_MAX, out, ROOM, &written) == POSTMIG_NO_QUESTION);
    WANT(postmig_world_show(&world, POSTMIG_PAGES, 0x11fff, 0x12000, out, ROOM, &written) == POSTMIG_OK);
    WANT(is("progress phase idle rounds 0 sent 0 left 0 installed 0 dropped 0 faults 0\npages source 1 dest 0\nsource "
            "page 0x11000: r, missing\n"));
    WANT(postmig_world_show(&world, POSTMIG_PAGES, 0x11000, 0x11000, out, ROOM, &written) == POSTMIG_OK);
    WANT(is("progress phase idle rounds 0 sent 0 left 0 installed 0 dropped 0 faults 0\npages source 0 dest 0\n"));
    WANT(postmig_world_show(&world, POSTMIG_CPUS, 0, 0, NULL, 0, &written) == POSTMIG_NO_ROOM && written > 0);
    WANT(postmig_world_answer(&world, out, ROOM, &written) == POSTMIG_OK && is("cpu 0 at 0x10000\n"));
    postmig_free(&world);
}

/* A world's texts begin with its progress, and that of all is the others, one after the other. Nothing of the world
   changes. */
static void shown(postmig_handle *world)
{
    static uint8_t progress[256], answer[ROOM];
    postmig_handle copy = POSTMIG_NONE;
    postmig_counts counts, after;
    size_t head, was, end;
    WANT(postmig_world_copy(world, false, &copy) == POSTMIG_OK &&
         postmig_world_line(&copy, TEXT("progress"), progress, sizeof progress, &head) == POSTMIG_OK);
    WANT(postmig_world_counts(world, &counts) == POSTMIG_OK &&
         postmig_world_answer(world, answer, ROOM, &was) == POSTMIG_OK);
    WANT(postmig_world_show(world, POSTMIG_ALL, 0, UINT64_MAX, other, ROOM, &more) == POSTMIG_OK && more > head &&
         !memcmp(other, progress, head));
    end = head;
    for (uint32_t what = POSTMIG_CPUS; what < POSTMIG_ALL; what++) {
        WANT(postmig_world_show(world, what, 0, UINT64_MAX, out, ROOM, &written) == POSTMIG_OK && written >= head &&
             !memcmp(out, progress, head));
        WANT(written - head <= more - end && !memcmp(out + head, other + end, written - head));
        end += written - head;
    }
    WANT(end == more);
    WANT(postmig_world_counts(world, &after) == POSTMIG_OK && !memcmp(&counts, &after, sizeof counts));
    WANT(postmig_world_answer(world, out, ROOM, &written) == POSTMIG_OK && written == was && !memcmp(out, answer, was));
    postmig_free(&copy);
}

/* Each line of a script is right, and what is left of it when its end is cut off is right or has a reason; its
   world is looked at after each. Returns how many such parts are wrong. */
static int each_line(const uint8_t *script, size_t length)
{
    postmig_handle world = POSTMIG_NONE;
    int wrong = 0;
    WANT(postmig_lint(false, script, length, &clean, out, ROOM, &written) == POSTMIG_OK && clean && !written);
    WANT(postmig_world_new(2, false, &world) == POSTMIG_OK);
    for (size_t at = 0, count; at < length; at += count + 1) {
        count = line_length(script, length, at);
        WANT(!one_line(false, script + at, count));
        for (size_t part = 1; part < count; part++)
            wrong += one_line(false, script + at, part);
        WANT(postmig_world_line(&world, script + at, count, out, ROOM, &written) == POSTMIG_OK);
        shown(&world);
    }
    postmig_free(&world);
    return wrong;
}

/* The first line of an explanation is the verdict, and of each other line it is known what it belongs to. */
static void explained(bool all, const uint8_t *transcript, size_t length)
{
    bool checked;
    WANT(postmig_check(transcript, length, &checked, other, ROOM, &more) == POSTMIG_OK);
    WANT(postmig_explain(all, transcript, length, &flat, out, ROOM, &written) == POSTMIG_OK && flat == checked);
    WANT(written >= more && !memcmp(out, other, more) && (written > more) == !flat);
    int firsts = 0;
    for (size_t at = 0; at < written; at += line_length(out, written, at) + 1) {
        bool first = !memcmp(out + at, flat ? "ok " : "wrong ", flat ? 3 : 6);
        WANT(first || !memcmp(out + at, "  ", 2));
        firsts += first;
    }
    WANT(firsts == 1 || (all && firsts > 1));
    size_t needed = written;
    WANT(postmig_explain(all, transcript, length, &flat, out, needed - 1, &written) == POSTMIG_NO_ROOM &&
         written == needed);
}

/* The transcript of a script is flat, and with another reply to one load it is not. Returns how many loads there
   are. */
static int replies(const uint8_t *script, size_t length)
{
    static uint8_t text[ROOM];
    size_t count;
    int loads = 0;
    WANT(postmig_run(2, true, script, length, text, ROOM, &count) == POSTMIG_OK);
    uint8_t *transcript = malloc(count + !count);
    WANT(transcript);
    if (count)
        memcpy(transcript, text, count);
    explained(false, transcript, count);
    WANT(flat);
    for (size_t at = 0, part; at < count; at += part + 1) {
        part = line_length(transcript, count, at);
        uint8_t *last = transcript + at + part - 1;
        if (!part || !memmem(transcript + at, part, "=> value", 8))
            continue;
        uint8_t had = *last;
        *last = had == '0' ? '1' : '0';
        explained(false, transcript, count);
        WANT(!flat);
        explained(true, transcript, count);
        *last = had;
        loads++;
        /* the line without its reply is none, and has its number */
        uint8_t *arrow = memmem(transcript + at, part, "=>", 2);
        *arrow = ' ';
        WANT(postmig_check(transcript, count, &flat, out, ROOM, &more) == POSTMIG_NOT_A_LINE);
        WANT(postmig_explain(true, transcript, count, &flat, out, ROOM, &written) == POSTMIG_NOT_A_LINE &&
             written == more);
        *arrow = '=';
    }
    free(transcript);
    return loads;
}

/* Writes what the program would. */
static void show(size_t count, uint32_t what, const uint8_t *script, size_t length)
{
    postmig_handle world = POSTMIG_NONE;
    WANT(postmig_world_new(2, false, &world) == POSTMIG_OK);
    for (size_t at = 0, part; count && at < length; at += part + 1, count--) {
        part = line_length(script, length, at);
        WANT(postmig_world_line(&world, script + at, part, out, ROOM, &written) == POSTMIG_OK);
    }
    WANT(!count && postmig_world_show(&world, what, 0, UINT64_MAX, out, ROOM, &written) == POSTMIG_OK);
    postmig_free(&world);
}

static bool asked(char **words)
{
    size_t length;
    uint8_t *bytes;
    if (!strcmp(words[0], "show")) {
        bytes = bytes_of(words[3], &length);
        show((size_t)atol(words[1]), (uint32_t)atol(words[2]), bytes, length);
    } else if (!strcmp(words[0], "lint") || !strcmp(words[0], "entries")) {
        bytes = bytes_of(words[1], &length);
        WANT(postmig_lint(words[0][0] == 'e', bytes, length, &clean, out, ROOM, &written) == POSTMIG_OK);
    } else if (!strcmp(words[0], "explain") || !strcmp(words[0], "all")) {
        bytes = bytes_of(words[1], &length);
        WANT(postmig_explain(words[0][0] == 'a', bytes, length, &flat, out, ROOM, &written) == POSTMIG_OK);
    } else {
        return false;
    }
    free(bytes);
    fwrite(out, 1, written, stdout);
    return true;
}

int main(int argc, char **argv)
{
    int wrong = 0, loads = 0;
    if (argc > 2 && asked(argv + 1))
        return 0;
    lines();
    worlds();
    for (int i = 1; i < argc; i++) {
        size_t length;
        uint8_t *script = bytes_of(argv[i], &length);
        wrong += each_line(script, length);
        loads += replies(script, length);
        free(script);
    }
    printf("%d scripts: %d parts of lines are wrong, each with the reason of its listing; each world is shown after "
           "each line; ",
           argc - 1, wrong);
    printf("%d other replies to loads are explained\n", loads);
    return 0;
}
