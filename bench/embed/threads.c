/* Several threads at once, each with handles of its own: worlds that play each script, and a migration between two
   nodes, over and over. Each answer and each line of a trace is what one thread alone has made before. Under a
   detector of races (valgrind's drd) that looks into the library.

   threads TURNS NAME.script.. */
#include <pthread.h>
#include <stdio.h>
#include <stdlib.h>
#include <string.h>
#include "postmig_node.h"

#define WANT(holds)                                                         \
    if (!(holds)) {                                                         \
        fprintf(stderr, "%s:%d: not so: %s\n", __FILE__, __LINE__, #holds); \
        exit(1);                                                            \
    }
#define DO(call) WANT((call) == POSTMIG_OK)

enum { THREADS = 4, PAGE = 4096, PAGES = 64, LOW = 0x10, ROOM = 1 << 16, MOST_SCRIPTS = 64 };

struct text {
    uint8_t bytes[ROOM];
    size_t length;
};

/* What each thread reads, and no one writes any more. */
static struct text *scripts, *answers, trace;
static int count, turns;

/* A MIGRATION */

struct both {
    postmig_handle source, destination;
    postmig_effect effect;
    struct text *lines;
    uint8_t bytes[ROOM];
    size_t length;
};

static void take_lines(struct both *both, postmig_handle *node)
{
    size_t taken;

    do {
        DO(postmig_node_trace_take(node, both->lines->bytes + both->lines->length, ROOM - both->lines->length, &taken));
        both->lines->length += taken;
    } while (taken);
}

/* The frames that wait at either node go to the other one. */
static void carry_frames(struct both *both)
{
    size_t at, head, pages;

    while (postmig_node_frame(&both->source, both->bytes, ROOM, &both->length) == POSTMIG_OK)
        for (at = 0; at < both->length; at += head) {
            DO(postmig_frame_lengths(both->bytes + at, both->length - at, &head, &pages));
            DO(postmig_destination_take(&both->destination, both->bytes + at, head, &both->effect));
        }
    while (postmig_node_frame(&both->destination, both->bytes, ROOM, &both->length) == POSTMIG_OK)
        DO(postmig_source_back(&both->source, both->bytes, both->length, &both->effect));
}

static void begin(struct both *both)
{
    postmig_command map = { .kind = POSTMIG_MMAP,
                            .length = PAGES * PAGE,
                            .prot = POSTMIG_PROT_READ_WRITE,
                            .place = POSTMIG_FIXED,
                            .target = LOW * PAGE };

    DO(postmig_source_new(1, 0, 0, &both->source));
    DO(postmig_destination_new(1, &both->destination));
    DO(postmig_node_trace(&both->source, true));
    DO(postmig_node_trace(&both->destination, true));
    DO(postmig_source_issue(&both->source, 0, &map, &both->effect));
    for (uint64_t i = 0; i < PAGES; i++) {
        postmig_command store = { .kind = POSTMIG_STORE, .width = 8, .addr = (LOW + i) * PAGE };

        DO(postmig_source_issue(&both->source, 0, &store, &both->effect));
    }
    DO(postmig_source_start(&both->source, &both->effect));
}

static void make_round(struct both *both)
{
    uint32_t first, run;

    DO(postmig_source_round(&both->source, &both->effect));
    while (postmig_source_next_run(&both->source, 16, &first, &run) == POSTMIG_OK && first < LOW + PAGES / 2) {
        DO(postmig_source_run_sent(&both->source, (uint8_t)run, &both->effect));
        DO(postmig_run_head(1, first, run, both->bytes, ROOM, &both->length));
        DO(postmig_destination_take(&both->destination, both->bytes, both->length, &both->effect));
    }
}

static void push_all(struct both *both)
{
    uint32_t page;

    while (postmig_source_next_remaining(&both->source, LOW, &page) == POSTMIG_OK) {
        DO(postmig_source_push(&both->source, 1, page, &both->effect));
        DO(postmig_page_head(1, page, both->bytes, ROOM, &both->length));
        DO(postmig_destination_take(&both->destination, both->bytes, both->length, &both->effect));
        DO(postmig_destination_install(&both->destination, &both->effect));
    }
    DO(postmig_source_end(&both->source, &both->effect));
}

static void migrate(struct text *lines)
{
    static _Thread_local struct both both;

    both.lines = lines;
    lines->length = 0;
    begin(&both);
    carry_frames(&both);
    make_round(&both);
    DO(postmig_source_switch(&both.source, &both.effect));
    carry_frames(&both);
    push_all(&both);
    carry_frames(&both);
    WANT(both.effect.kind == POSTMIG_DID_TAKE_DONE);
    take_lines(&both, &both.source);
    take_lines(&both, &both.destination);
    postmig_free(&both.source);
    postmig_free(&both.destination);
}

/* WORLDS */

static void play(const struct text *script, struct text *said)
{
    postmig_handle world = POSTMIG_NONE;
    size_t written;

    said->length = 0;
    DO(postmig_world_new(2, false, &world));
    for (size_t at = 0; at < script->length;) {
        const uint8_t *end = memchr(script->bytes + at, '\n', script->length - at);
        size_t length = (size_t)(end - (script->bytes + at));

        WANT(end);
        DO(postmig_world_line(&world, script->bytes + at, length, said->bytes + said->length, ROOM - said->length,
                              &written));
        said->length += written;
        at += length + 1;
    }
    postmig_free(&world);
}

static bool is_same(const struct text *one, const struct text *other)
{
    return one->length == other->length && !memcmp(one->bytes, other->bytes, one->length);
}

static void *run(void *unused)
{
    struct text *said = malloc(sizeof *said);

    WANT(said);
    for (int turn = 0; turn < turns; turn++) {
        for (int i = 0; i < count; i++) {
            play(&scripts[i], said);
            WANT(is_same(said, &answers[i]));
        }
        migrate(said);
        WANT(is_same(said, &trace));
    }
    free(said);
    return unused;
}

int main(int argc, char **argv)
{
    pthread_t thread[THREADS];

    WANT(argc > 2 && argc - 2 <= MOST_SCRIPTS);
    turns = atoi(argv[1]);
    scripts = calloc(MOST_SCRIPTS, sizeof *scripts);
    answers = calloc(MOST_SCRIPTS, sizeof *answers);
    WANT(scripts && answers);
    for (count = 0; count < argc - 2; count++) {
        FILE *file = fopen(argv[count + 2], "rb");

        WANT(file);
        scripts[count].length = fread(scripts[count].bytes, 1, ROOM, file);
        fclose(file);
        play(&scripts[count], &answers[count]);
    }
    migrate(&trace);
    for (int i = 0; i < THREADS; i++)
        WANT(!pthread_create(&thread[i], NULL, run, NULL));
    for (int i = 0; i < THREADS; i++)
        WANT(!pthread_join(thread[i], NULL));
    printf("%d threads: %d scripts and a migration, %d times each, as by one\n", THREADS, count, turns);
    free(scripts);
    free(answers);
    return 0;
}
