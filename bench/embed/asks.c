/* What a world is asked without a change: before each line of each script a copy, and what the line would do.

   asks [NAME.script].. */
#include <inttypes.h>
#include <stdio.h>
#include <stdlib.h>
#include <string.h>
#include "postmig.h"

#define WANT(holds)                                                         \
    if (!(holds)) {                                                         \
        fprintf(stderr, "%s:%d: not so: %s\n", __FILE__, __LINE__, #holds); \
        exit(1);                                                            \
    }
#define TEXT(text) (const uint8_t *)(text), strlen(text)

enum { ROOM = 1 << 20 };
static uint8_t out[ROOM], other[ROOM], before[ROOM];
static size_t written, more, was;

static bool is(const uint8_t *bytes, size_t count, const char *text)
{
    return count == strlen(text) && !memcmp(bytes, text, count);
}

static uint8_t *bytes_of(const char *path, size_t *length)
{
    FILE *file = fopen(path, "rb");
    WANT(file);
    fseek(file, 0, SEEK_END);
    *length = (size_t)ftell(file);
    rewind(file);
    uint8_t *bytes = malloc(*length + 1);
    WANT(bytes && fread(bytes, 1, *length, file) == *length);
    fclose(file);
    return bytes;
}

/* the length of the line at a place, in memory of its own, so that the sanitizer sees a read past its end */
static size_t line_at(const uint8_t *script, size_t length, size_t at, uint8_t **line)
{
    const uint8_t *end = memchr(script + at, '\n', length - at);
    size_t count = end ? (size_t)(end - (script + at)) : length - at;
    *line = malloc(count ? count : 1);
    WANT(*line);
    memcpy(*line, script + at, count);
    return count;
}

/* the answer to a line that would have this status begins so */
static void agree(uint32_t status, const uint8_t *answer, size_t count)
{
    uint8_t name[32], wanted[64];
    size_t length;
    if (status == POSTMIG_OK) {
        WANT(count < 8 || memcmp(answer, "refused ", 8));
        return;
    }
    WANT(status > POSTMIG_REFUSED && postmig_refusal_name(status, name, sizeof name, &length) == POSTMIG_OK);
    int all = snprintf((char *)wanted, sizeof wanted, "refused %.*s\n", (int)length, (const char *)name);
    WANT(is(answer, count, (const char *)wanted) && all > 0);
}

/* Whether two worlds are the same, asked both ways. */
static bool same(postmig_handle *world, postmig_handle *other)
{
    bool is_same, as_well;
    WANT(postmig_world_is_same(world, other, &is_same) == POSTMIG_OK &&
         postmig_world_is_same(other, world, &as_well) == POSTMIG_OK && is_same == as_well);
    return is_same;
}

/* Before each line of a script: a question changes nothing, and the line has the same answer in the world and in a
   copy of it, which is that of the question. The copy is the same world before the line, after a line that is
   refused, and once both have done it. Returns how many lines were refused. */
static int each_line(const char *path)
{
    size_t length;
    uint8_t *script = bytes_of(path, &length), *line;
    int refused = 0;
    postmig_handle world = POSTMIG_NONE, copy = POSTMIG_NONE;
    postmig_counts counts, copied;
    WANT(postmig_world_new(2, false, &world) == POSTMIG_OK);
    for (size_t at = 0, count; at < length; at += count + 1) {
        count = line_at(script, length, at, &line);
        WANT(postmig_world_answer(&world, before, ROOM, &was) == POSTMIG_OK);
        uint32_t status = postmig_world_would(&world, line, count);
        /* what the copy had before is freed */
        WANT(postmig_world_copy(&world, false, &copy) == POSTMIG_OK);
        WANT(postmig_world_answer(&world, out, ROOM, &written) == POSTMIG_OK && written == was &&
             !memcmp(out, before, was));
        WANT(postmig_world_answer(&copy, out, ROOM, &written) == POSTMIG_OK && !written && same(&world, &copy));
        WANT(postmig_world_counts(&world, &counts) == POSTMIG_OK &&
             postmig_world_line(&copy, line, count, out, ROOM, &written) == POSTMIG_OK);
        WANT(postmig_world_counts(&world, &copied) == POSTMIG_OK && !memcmp(&counts, &copied, sizeof counts));
        agree(status, out, written);
        refused += status != POSTMIG_OK;
        WANT(status == POSTMIG_OK || same(&world, &copy));
        WANT(postmig_world_line(&world, line, count, other, ROOM, &more) == POSTMIG_OK && more == written &&
             !memcmp(other, out, more));
        WANT(same(&world, &copy));
        free(line);
    }
    /* the copy outlives the world */
    postmig_free(&world);
    WANT(postmig_world_answer(&copy, out, ROOM, &written) == POSTMIG_OK);
    postmig_free(&copy);
    free(script);
    return refused;
}

static void worlds(void)
{
    postmig_handle world = POSTMIG_NONE, copy = POSTMIG_NONE;
    postmig_frame frame;
    bool is_same;
    WANT(postmig_world_copy(&world, false, &copy) == POSTMIG_NOT_OPEN && !copy.at &&
         postmig_world_would(&world, TEXT("start")) == POSTMIG_NOT_OPEN);
    WANT(postmig_world_is_same(&world, &copy, &is_same) == POSTMIG_NOT_OPEN && !world.at && !copy.at);
    WANT(postmig_frames_new(&world) == POSTMIG_OK && postmig_world_new(1, false, &copy) == POSTMIG_OK);
    WANT(postmig_world_is_same(&world, &copy, &is_same) == POSTMIG_NOT_OPEN &&
         postmig_world_is_same(&copy, &world, &is_same) == POSTMIG_NOT_OPEN);
    WANT(postmig_world_line(&copy, TEXT("start"), out, ROOM, &written) == POSTMIG_OK);
    /* a decoder is no world; the handle that was to have its copy keeps what it has */
    WANT(postmig_world_copy(&world, false, &copy) == POSTMIG_NOT_OPEN &&
         postmig_world_would(&world, TEXT("start")) == POSTMIG_NOT_OPEN);
    WANT(postmig_frames_next(&world, &frame, out, ROOM, &written) == POSTMIG_NO_FRAME);
    WANT(postmig_world_answer(&copy, out, ROOM, &written) == POSTMIG_OK && is(out, written, "started epoch 1\n"));
    /* a world replaces the decoder */
    WANT(postmig_world_copy(&copy, false, &world) == POSTMIG_OK &&
         postmig_world_would(&world, TEXT("start")) == POSTMIG_REFUSED_PHASE);
    WANT(postmig_world_would(&world, TEXT("")) == POSTMIG_OK && postmig_world_would(&world, TEXT("# x")) == POSTMIG_OK);
    WANT(postmig_world_would(&world, TEXT("progress")) == POSTMIG_OK &&
         postmig_world_would(&world, TEXT("switch")) == POSTMIG_OK);
    WANT(postmig_world_would(&world, TEXT("cpu 1 munmap 0x10000 4096")) == POSTMIG_REFUSED_NO_CPU);
    WANT(postmig_world_would(&world, TEXT("push 0x10000")) == POSTMIG_REFUSED_PHASE &&
         postmig_world_would(&world, TEXT("strat")) == POSTMIG_NOT_A_LINE);
    WANT(postmig_world_would(&world, TEXT("0 load 0x10000 8 => value 0x0")) == POSTMIG_NOT_A_LINE);
    WANT(postmig_world_answer(&copy, out, ROOM, &written) == POSTMIG_OK && is(out, written, "started epoch 1\n"));
    /* a copy that prints its transcript, of a world that prints outcomes, and the other way */
    WANT(postmig_world_copy(&world, true, &copy) == POSTMIG_OK &&
         postmig_world_copy(&copy, false, &world) == POSTMIG_OK);
    WANT(postmig_world_line(&copy, TEXT("cpu 0 mmap 4096 rw"), out, ROOM, &written) == POSTMIG_OK &&
         is(out, written, "0 mmap 4096 rw => at 0x10000\n"));
    /* a copy that has done a command is another world, whatever its lines print */
    WANT(!same(&world, &copy));
    WANT(postmig_world_line(&world, TEXT("cpu 0 mmap 4096 rw"), out, ROOM, &written) == POSTMIG_OK &&
         is(out, written, "cpu 0 at 0x10000\n"));
    WANT(same(&world, &copy));
    postmig_free(&world);
    postmig_free(&copy);
}

int main(int argc, char **argv)
{
    int refused = 0;
    worlds();
    for (int i = 1; i < argc; i++)
        refused += each_line(argv[i]);
    printf("%d scripts: each line has the answer that was asked for before it, and the same in a copy of its world; %d "
           "are refused\n",
           argc - 1, refused);
    return 0;
}
