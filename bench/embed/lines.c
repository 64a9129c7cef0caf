/* Each script line by line, in one call, and as a transcript that is checked, against the stored answers; then the
   edges of each call.

   lines COUNT [NAME.script NAME.out]..     also prints how long COUNT loads take */
#include <inttypes.h>
#include <stdio.h>
#include <stdlib.h>
#include <string.h>
#include <time.h>
#include "postmig.h"

#define WANT(holds)                                                         \
    if (!(holds)) {                                                         \
        fprintf(stderr, "%s:%d: not so: %s\n", __FILE__, __LINE__, #holds); \
        exit(1);                                                            \
    }
#define TEXT(text) (const uint8_t *)(text), strlen(text)

static uint8_t *bytes_of(const char *path, size_t *length)
{
    FILE *file = fopen(path, "rb");
    WANT(file);
    fseek(file, 0, SEEK_END);
    *length = (size_t)ftell(file);
    rewind(file);
    uint8_t *bytes = malloc(*length + 1);
    WANT(bytes && fread(bytes, 1, *length, file) == *length);
    fclose(file);
    return bytes;
}

/* Memory of just these bytes, so that the sanitizer sees a read past their end. */
static uint8_t *copy_of(const uint8_t *bytes, size_t length)
{
    uint8_t *copy = malloc(length ? length : 1);
    WANT(copy);
    memcpy(copy, bytes, length);
    return copy;
}

static void one_script(const char *path, const char *stored)
{
    size_t length, wanted, got = 0, written = 0;
    uint8_t *script = bytes_of(path, &length), *answers = bytes_of(stored, &wanted), out[8192];
    postmig_handle world = POSTMIG_NONE;
    WANT(postmig_world_new(2, false, &world) == POSTMIG_OK);
    for (size_t at = 0; at < length;) {
        uint8_t *end = memchr(script + at, '\n', length - at);
        size_t count = end ? (size_t)(end - (script + at)) : length - at;
        uint8_t *line = copy_of(script + at, count);
        WANT(postmig_world_line(&world, line, count, out, sizeof out, &written) == POSTMIG_OK);
        free(line);
        WANT(written <= wanted - got && !memcmp(out, answers + got, written));
        got += written;
        at += count + 1;
    }
    WANT(got == wanted);
    postmig_free(&world);
    uint8_t *whole = malloc(wanted + 1);
    WANT(whole);
    WANT(!wanted ||
         (postmig_run(2, false, script, length, whole, wanted - 1, &written) == POSTMIG_NO_ROOM && written == wanted));
    WANT(postmig_run(2, false, script, length, whole, wanted, &written) == POSTMIG_OK && written == wanted &&
         !memcmp(whole, answers, wanted));
    size_t room = 1 << 20, entries = 0;
    uint8_t *transcript = malloc(room);
    bool is_flat = false;
    WANT(transcript);
    WANT(postmig_run(2, true, script, length, transcript, room, &entries) == POSTMIG_OK);
    WANT(postmig_check(transcript, entries, &is_flat, out, sizeof out, &written) == POSTMIG_OK && is_flat);
    free(whole);
    free(script);
    free(answers);
    free(transcript);
}

static void worlds(void)
{
    uint8_t out[256];
    size_t written = 99;
    postmig_counts counts;
    postmig_frame frame;
    postmig_handle world = POSTMIG_NONE;
    WANT(postmig_world_line(&world, TEXT("start"), out, sizeof out, &written) == POSTMIG_NOT_OPEN);
    WANT(postmig_world_answer(&world, out, sizeof out, &written) == POSTMIG_NOT_OPEN &&
         postmig_world_counts(&world, &counts) == POSTMIG_NOT_OPEN);
    postmig_free(&world);
    WANT(postmig_world_new(0, false, &world) == POSTMIG_NO_CPU &&
         postmig_world_new(17, false, &world) == POSTMIG_NO_CPU && !world.at);
    WANT(postmig_world_new(16, false, &world) == POSTMIG_OK);
    /* a decoder's calls on a world */
    WANT(postmig_frames_feed(&world, out, 0) == POSTMIG_NOT_OPEN &&
         postmig_frames_next(&world, &frame, out, sizeof out, &written) == POSTMIG_NOT_OPEN);
    /* the line is done though its answer does not fit */
    WANT(postmig_world_line(&world, TEXT("cpu 0 mmap 8192 rw"), out, 3, &written) == POSTMIG_NO_ROOM && written == 17);
    WANT(postmig_world_answer(&world, out, 16, &written) == POSTMIG_NO_ROOM && written == 17);
    WANT(postmig_world_answer(&world, out, sizeof out, &written) == POSTMIG_OK && written == 17 &&
         !memcmp(out, "cpu 0 at 0x10000\n", 17));
    WANT(postmig_world_line(&world, TEXT("nonsense"), out, sizeof out, &written) == POSTMIG_NOT_A_LINE);
    WANT(postmig_world_answer(&world, out, sizeof out, &written) == POSTMIG_OK && written == 0);
    WANT(postmig_world_line(&world, TEXT("cpu 0 load 0x11ff8 8"), out, sizeof out, &written) == POSTMIG_OK &&
         written == 16);
    WANT(postmig_world_line(&world, TEXT("start"), out, sizeof out, &written) == POSTMIG_OK &&
         postmig_world_counts(&world, &counts) == POSTMIG_OK);
    WANT(counts.phase == POSTMIG_PRECOPY && counts.epoch == 1 && counts.sent == 0 && counts.left == 0);
    /* refused, so the world is kept */
    WANT(postmig_world_new(17, false, &world) == POSTMIG_NO_CPU &&
         postmig_world_counts(&world, &counts) == POSTMIG_OK && counts.epoch == 1);
    WANT(postmig_world_new_with_counts(1, false, UINT32_MAX, 9, &world) == POSTMIG_OK &&
         postmig_world_counts(&world, &counts) == POSTMIG_OK);
    WANT(counts.epoch == UINT32_MAX && counts.rounds == 9 && counts.phase == POSTMIG_IDLE);
    WANT(postmig_world_line(&world, TEXT("start"), out, sizeof out, &written) == POSTMIG_OK &&
         !memcmp(out, "refused ", 8));
    postmig_free(&world);
    postmig_free(&world);
    WANT(postmig_world_line(&world, TEXT("start"), out, sizeof out, &written) == POSTMIG_NOT_OPEN);
}

/* Calls on whole texts. */
static void texts(void)
{
    uint8_t out[256];
    size_t written = 99;
    bool is_flat = true;
    WANT(postmig_run(2, false, TEXT("start\n\nx\n"), out, sizeof out, &written) == POSTMIG_NOT_A_LINE && written == 3);
    WANT(postmig_run(0, false, NULL, 0, NULL, 0, &written) == POSTMIG_NO_CPU &&
         postmig_run(2, false, NULL, 0, NULL, 0, &written) == POSTMIG_OK);
    WANT(postmig_check(TEXT("x\n"), &is_flat, out, sizeof out, &written) == POSTMIG_NOT_A_LINE && written == 1);
    WANT(postmig_check(TEXT("0 load 0x10000 8 => value 0x0\n"), &is_flat, out, sizeof out, &written) == POSTMIG_OK &&
         !is_flat);
}

/* Advise; Zero of page 0x10; Run of the pages 0x10 and 0x11; End with 0x01020304 urgent frames */
static size_t stream(uint8_t *bytes)
{
    static const uint8_t heads[][20] = {
        { 2, 1, 0, 0, 0, 0, 0, 1, 0, 0, 0, 0 },
        { 2, 3, 0, 0, 0, 0, 0, 1, 0, 0, 0, 4, 0, 0, 0, 16 },
        { 2, 8, 0, 0, 0, 0, 0, 1, 0, 0, 0x20, 8, 0, 0, 0, 16, 0, 0, 0, 2 },
        { 2, 6, 0, 0, 10, 11, 12, 13, 0, 0, 0, 4, 1, 2, 3, 4 },
    };
    static const size_t heads_len[] = { 12, 16, 20, 16 }, bodies[] = { 0, 0, 8192, 0 };
    size_t length = 0;
    for (int i = 0; i < 4; i++) {
        memcpy(bytes + length, heads[i], heads_len[i]);
        length += heads_len[i];
        for (size_t k = 0; k < bodies[i]; k++)
            bytes[length++] = (uint8_t)(k * 7 + k / 256);
    }
    return length;
}

static uint8_t bytes[16384], got[16384], out[16384];

/* However the stream is cut, the same frames come, and their bytes are the stream. */
static void cut_frames(void)
{
    static const postmig_frame wanted[] = {
        { 1, 1, 0, 0 }, { 3, 1, 0x10000, 1 }, { 8, 1, 0x10000, 2 }, { 6, 0x0a0b0c0d, 0, 0x01020304 }
    };
    size_t length = stream(bytes), written;
    postmig_frame frame;
    postmig_handle open = POSTMIG_NONE;
    WANT(postmig_frames_feed(&open, bytes, 1) == POSTMIG_NOT_OPEN &&
         postmig_frames_next(&open, &frame, out, sizeof out, &written) == POSTMIG_NOT_OPEN);
    for (size_t cut = 1; cut <= length; cut = cut < 40 ? cut + 1 : cut * 3 / 2) {
        size_t count = 0, taken = 0;
        WANT(postmig_frames_new(&open) == POSTMIG_OK);
        for (size_t at = 0; at < length; at += cut) {
            size_t now = length - at < cut ? length - at : cut;
            uint8_t *piece = copy_of(bytes + at, now);
            WANT(postmig_frames_feed(&open, piece, now) == POSTMIG_OK);
            free(piece);
            uint32_t status;
            while ((status = postmig_frames_next(&open, &frame, got + taken, sizeof got - taken, &written)) ==
                   POSTMIG_OK) {
                WANT(count < 4 && frame.tag == wanted[count].tag && frame.epoch == wanted[count].epoch);
                WANT(frame.addr == wanted[count].addr && frame.count == wanted[count].count);
                taken += written;
                count++;
            }
            WANT(status == POSTMIG_NO_FRAME);
        }
        WANT(count == 4 && taken == length && !memcmp(got, bytes, length));
    }
    postmig_free(&open);
}

static void frames(void)
{
    size_t written;
    postmig_frame frame;
    postmig_counts counts;
    postmig_handle open = POSTMIG_NONE;
    (void)stream(bytes);
    /* a frame that does not fit waits, and so do pieces */
    WANT(postmig_frames_new(&open) == POSTMIG_OK && postmig_world_counts(&open, &counts) == POSTMIG_NOT_OPEN);
    WANT(postmig_frames_feed(&open, bytes, 28) == POSTMIG_OK &&
         postmig_frames_next(&open, &frame, out, 11, &written) == POSTMIG_NO_ROOM && written == 12);
    WANT(postmig_frames_feed(&open, bytes, 1) == POSTMIG_FRAMES_WAIT &&
         postmig_frames_next(&open, &frame, out, 12, &written) == POSTMIG_OK);
    WANT(frame.tag == 1 && postmig_frames_next(&open, &frame, out, 16, &written) == POSTMIG_OK && frame.tag == 3);
    /* the fault that follows a frame is returned after it, and stays */
    memcpy(out, bytes, 12);
    memcpy(out + 12, "\2\3\0\0\0\0\0\1\0\0\0\5\0\0\0", 15);
    WANT(postmig_frames_feed(&open, out, 27) == POSTMIG_OK &&
         postmig_frames_next(&open, &frame, got, sizeof got, &written) == POSTMIG_OK && frame.tag == 1);
    for (int i = 0; i < 2; i++) {
        WANT(postmig_frames_next(&open, &frame, got, sizeof got, &written) == POSTMIG_BAD_LENGTH);
        WANT(postmig_frames_feed(&open, bytes, 12) == POSTMIG_OK);
    }
    static const struct {
        const char *bytes;
        uint32_t fault;
    } faulty[] = { { "\1\10\0\0\0\0\0\1\0\0\20\10", POSTMIG_BAD_TAG },
                   { "\2\1\0\1\0\0\0\1\0\0\0\0", POSTMIG_BAD_FIELD } };
    for (int i = 0; i < 2; i++) {
        WANT(postmig_frames_new(&open) == POSTMIG_OK &&
             postmig_frames_feed(&open, (const uint8_t *)faulty[i].bytes, 12) == POSTMIG_OK);
        WANT(postmig_frames_next(&open, &frame, got, sizeof got, &written) == faulty[i].fault);
    }
    /* a world instead of a decoder */
    WANT(postmig_world_new(1, false, &open) == POSTMIG_OK && postmig_world_counts(&open, &counts) == POSTMIG_OK);
    postmig_free(&open);
}

static double now(void)
{
    struct timespec time;
    clock_gettime(CLOCK_MONOTONIC, &time);
    return (double)time.tv_sec + (double)time.tv_nsec * 1e-9;
}

static void loads(size_t count)
{
    uint8_t out[256];
    size_t written = 0;
    postmig_handle world = POSTMIG_NONE;
    WANT(postmig_world_new(2, false, &world) == POSTMIG_OK);
    WANT(postmig_world_line(&world, TEXT("cpu 0 mmap 65536 rw"), out, sizeof out, &written) == POSTMIG_OK);
    double begun = now();
    for (size_t i = 0; i < count; i++)
        WANT(postmig_world_line(&world, TEXT("cpu 0 load 0x10000 8"), out, sizeof out, &written) == POSTMIG_OK);
    printf("%zu loads: %.3f s\n", count, now() - begun);
    postmig_free(&world);
}

int main(int argc, char **argv)
{
    worlds();
    texts();
    cut_frames();
    frames();
    for (int i = 2; i + 1 < argc; i += 2)
        one_script(argv[i], argv[i + 1]);
    printf("%d scripts agree\n", (argc - 2) / 2);
    loads(argc > 1 ? strtoul(argv[1], NULL, 10) : 0);
    return 0;
}
