/* Each allocation refused in turn: a call returns POSTMIG_NO_MEMORY or what it returns with memory, a world and a
   decoder continue after that, and nothing leaks.

   refuse STREAM NAME.script NAME.out .. */
#include <stdio.h>
#include <stdlib.h>
#include <string.h>
#include "postmig.h"

#define WANT(holds)                                                                                 \
    if (!(holds)) {                                                                                 \
        fprintf(stderr, "%s:%d: not so at allocation %ld: %s\n", __FILE__, __LINE__, turn, #holds); \
        exit(1);                                                                                    \
    }

/* the allocations before the one that is refused, -1 for none; whether it was; the blocks that are not freed */
static long left = -1, live, turn;
static bool refused;
void *__real_malloc(size_t size);
void *__real_realloc(void *block, size_t size);
void __real_free(void *block);

static bool refuses(void)
{
    if (left < 0)
        return false;
    if (left-- > 0)
        return false;
    refused = true;
    return true;
}
void *__wrap_malloc(size_t size)
{
    if (refuses())
        return NULL;
    live++;
    return __real_malloc(size);
}
void *__wrap_realloc(void *block, size_t size)
{
    return refuses() ? NULL : __real_realloc(block, size);
}
void __wrap_free(void *block)
{
    if (block)
        live--;
    __real_free(block);
}

static size_t bytes_of(const char *path, uint8_t *bytes, size_t room)
{
    FILE *file = fopen(path, "rb");
    WANT(file);
    size_t length = fread(bytes, 1, room, file);
    fclose(file);
    return length;
}

/* Plays a script line by line. A refusal leaves the world in use: it is freed only at the end. */
static bool lines(const uint8_t *script, size_t length, const uint8_t *answers, size_t wanted)
{
    postmig_handle world = POSTMIG_NONE;
    static uint8_t out[65536];
    size_t written, got = 0;
    bool lacked = postmig_world_new(2, false, &world) != POSTMIG_OK;
    for (size_t at = 0; world.at && at < length;) {
        const uint8_t *end = memchr(script + at, '\n', length - at);
        size_t count = end ? (size_t)(end - (script + at)) : length - at;
        uint32_t status = postmig_world_line(&world, script + at, count, out, sizeof out, &written);
        WANT(status == POSTMIG_OK || status == POSTMIG_NO_MEMORY);
        lacked |= status == POSTMIG_NO_MEMORY;
        if (!lacked) {
            WANT(written <= wanted - got && !memcmp(out, answers + got, written));
            got += written;
        }
        at += count + 1;
    }
    if (!lacked)
        WANT(got == wanted);
    postmig_free(&world);
    return lacked;
}

/* Runs a script in one call, and checks its transcript. */
static bool whole(const uint8_t *script, size_t length)
{
    static uint8_t text[1 << 20], verdict[256];
    size_t written;
    bool is_flat = false;
    uint32_t status = postmig_run(2, true, script, length, text, sizeof text, &written);
    if (status == POSTMIG_OK)
        status = postmig_check(text, written, &is_flat, verdict, sizeof verdict, &written);
    WANT(status == POSTMIG_NO_MEMORY || (status == POSTMIG_OK && is_flat));
    return status != POSTMIG_OK;
}

/* Looks for what is wrong with a script and its transcript, as they are and with bytes that are wrong: in the first
   line of the script, and in the last reply of the transcript. */
static bool faults(const uint8_t *script, size_t length)
{
    static uint8_t text[1 << 20], said[65536], broken[1 << 20];
    size_t written, count, column;
    bool holds = false;
    uint32_t status = postmig_run(2, true, script, length, text, sizeof text, &count);
    WANT(status == POSTMIG_NO_MEMORY || (status == POSTMIG_OK && count > 1));
    if (status == POSTMIG_OK)
        status = postmig_lint(false, script, length, &holds, said, sizeof said, &written);
    WANT(status == POSTMIG_NO_MEMORY || (status == POSTMIG_OK && holds && !written));
    memcpy(broken, script, length);
    broken[0] = '%';
    if (status == POSTMIG_OK)
        status = postmig_lint(false, broken, length, &holds, said, sizeof said, &written);
    WANT(status == POSTMIG_NO_MEMORY || (status == POSTMIG_OK && !holds && written));
    if (status == POSTMIG_OK)
        status = postmig_line_reason(false, broken, 8, &column, said, sizeof said, &written);
    WANT(status == POSTMIG_NO_MEMORY || (status == POSTMIG_NOT_A_LINE && written));
    if (status == POSTMIG_NOT_A_LINE)
        status = postmig_explain(true, text, count, &holds, said, sizeof said, &written);
    WANT(status == POSTMIG_NO_MEMORY || (status == POSTMIG_OK && holds));
    if (status == POSTMIG_OK) {
        text[count - 2] = text[count - 2] == '0' ? '1' : '0';
        status = postmig_explain(true, text, count, &holds, said, sizeof said, &written);
        WANT(status == POSTMIG_NO_MEMORY || (status == POSTMIG_OK && !holds));
    }
    return status != POSTMIG_OK;
}

/* The status of a question that is asked once more where memory was short for it. */
#define AGAIN(call)                                    \
    do {                                               \
        while ((status = (call)) == POSTMIG_NO_MEMORY) \
            lacked = true;                             \
    } while (0)

/* Plays a script, and after every seventh line and the last asks all that may be asked. Where memory is short the
   handle that was to have a copy keeps what it had, and the same call then has its answer. */
static bool questions(const uint8_t *script, size_t length)
{
    static uint8_t out[1 << 20], again[1 << 20];
    postmig_handle world = POSTMIG_NONE, copy = POSTMIG_NONE;
    size_t written, number = 0;
    bool lacked = false;
    uint32_t status;
    AGAIN(postmig_world_new(2, false, &world));
    WANT(status == POSTMIG_OK);
    for (size_t at = 0; at < length;) {
        const uint8_t *end = memchr(script + at, '\n', length - at);
        size_t count = end ? (size_t)(end - (script + at)) : length - at;
        lacked |= postmig_world_line(&world, script + at, count, out, sizeof out, &written) == POSTMIG_NO_MEMORY;
        at += count + 1;
        if (++number % 7 && at < length)
            continue;
        void *had = copy.at;
        while ((status = postmig_world_copy(&world, false, &copy)) == POSTMIG_NO_MEMORY) {
            lacked = true;
            WANT(copy.at == had && world.at);
        }
        WANT(status == POSTMIG_OK && copy.at != had);
        AGAIN(postmig_world_would(&copy, (const uint8_t *)"start", 5));
        WANT(status == POSTMIG_OK || status == POSTMIG_REFUSED_PHASE);
        bool was = refused;
        AGAIN(postmig_world_show(&world, POSTMIG_ALL, 0, UINT64_MAX, out, sizeof out, &written));
        WANT(status == POSTMIG_OK && written > 0);
        if (refused == was)
            continue;
        /* a step of its copy that is refused for another reason has not needed the memory: the text is whole */
        WANT(postmig_world_show(&world, POSTMIG_ALL, 0, UINT64_MAX, again, sizeof again, &count) == POSTMIG_OK);
        WANT(count == written && !memcmp(again, out, count));
        lacked = true;
    }
    postmig_free(&world);
    postmig_free(&copy);
    return lacked;
}

/* Decodes a stream in pieces; where memory is short the same call is made again, so that no frame is lost. */
static bool frames(const uint8_t *stream, size_t length)
{
    postmig_handle open = POSTMIG_NONE;
    static uint8_t got[65536];
    postmig_frame frame;
    size_t written, taken = 0;
    bool lacked = false;
    uint32_t status;
    while ((status = postmig_frames_new(&open)) == POSTMIG_NO_MEMORY)
        lacked = true;
    WANT(status == POSTMIG_OK);
    for (size_t at = 0; at < length; at += 1000) {
        size_t now = length - at < 1000 ? length - at : 1000;
        while ((status = postmig_frames_feed(&open, stream + at, now)) == POSTMIG_NO_MEMORY)
            lacked = true;
        WANT(status == POSTMIG_OK);
        while ((status = postmig_frames_next(&open, &frame, got + taken, sizeof got - taken, &written)) !=
               POSTMIG_NO_FRAME) {
            lacked |= status == POSTMIG_NO_MEMORY;
            WANT(status == POSTMIG_OK || status == POSTMIG_NO_MEMORY);
            if (status == POSTMIG_OK)
                taken += written;
        }
    }
    WANT(taken == length && !memcmp(got, stream, length));
    postmig_free(&open);
    return lacked;
}

int main(int argc, char **argv)
{
    static uint8_t script[1 << 20], answers[1 << 20], stream[65536];
    size_t bytes = bytes_of(argv[1], stream, sizeof stream);
    long refusals = 0;
    for (int i = 2; i + 1 < argc; i += 2) {
        size_t length = bytes_of(argv[i], script, sizeof script),
               wanted = bytes_of(argv[i + 1], answers, sizeof answers);
        for (int part = 0; part < (i == 2 ? 5 : 4); part++)
            for (turn = 0;; turn++) {
                live = 0;
                refused = false;
                left = turn;
                bool lacked = part == 0 ? lines(script, length, answers, wanted)
                    : part == 1         ? whole(script, length)
                    : part == 2         ? questions(script, length)
                    : part == 3         ? faults(script, length)
                                        : frames(stream, bytes);
                left = -1;
                WANT(lacked == refused && live == 0);
                if (!refused)
                    break;
                refusals++;
            }
    }
    printf("%ld allocations were refused, one at a time: no other answer, no leak\n", refusals);
    return 0;
}
