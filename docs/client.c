/*
 * Makes steps of the model from C, one line for one event, and compares each answer with what a monitor did.
 *
 *     cc -o client docs/client.c && ./client ./postmig
 */
#include <signal.h>
#include <stdio.h>
#include <stdlib.h>
#include <string.h>
#include <unistd.h>

/* A world of the model, in a process of its own: lines go in, answers come out. */
struct model {
    FILE *in, *out;
};

static struct model start_model(const char *program)
{
    int in[2], out[2];
    pid_t child;

    if (pipe(in) || pipe(out) || (child = fork()) < 0) {
        perror(program);
        exit(2);
    }
    if (child == 0) {
        dup2(in[0], STDIN_FILENO);
        dup2(out[1], STDOUT_FILENO);
        close(in[1]);
        close(out[0]);
        execl(program, program, "run", (char *)NULL);
        perror(program);
        _exit(127);
    }
    close(in[0]);
    close(out[1]);
    return (struct model){ fdopen(in[1], "w"), fdopen(out[0], "r") };
}

/* Makes the step of an event, and compares its answer with what the monitor did. The line is not a comment: that
   has no answer. */
static void same(struct model *model, const char *line, const char *done)
{
    char answer[512] = "";

    fprintf(model->in, "%s\n", line);
    fflush(model->in);
    if (!fgets(answer, sizeof answer, model->out)) {
        fprintf(stderr, "%s: the model has ended\n", line);
        exit(2);
    }
    answer[strcspn(answer, "\n")] = '\0';
    if (strcmp(answer, done)) {
        fprintf(stderr, "%s: the model: %s; the monitor: %s\n", line, answer, done);
        exit(1);
    }
}

int main(int argc, char **argv)
{
    struct model model;

    signal(SIGPIPE, SIG_IGN); /* a model that has ended is named by `same` */
    model = start_model(argc > 1 ? argv[1] : "./postmig");

    /* In a test the last arguments are what the monitor reports. Here they are written down. */
    same(&model, "cpu 0 mmap 8192 rw", "cpu 0 at 0x10000");
    same(&model, "cpu 0 store 0x10000 8 42", "cpu 0 done");
    same(&model, "start", "started epoch 1");
    same(&model, "switch", "switched discard 0 owed 1");
    same(&model, "deliver", "took advise");
    same(&model, "deliver", "took discard 0");
    same(&model, "deliver", "took package owed 1");
    same(&model, "cpu 1 load 0x10000 8", "cpu 1 asleep");
    same(&model, "dread", "read fault 0x10000 missing"); /* read(2) of the userfaultfd */
    same(&model, "dact", "requested 0x10000 for 0x10000");
    same(&model, "back", "took request 0x10000");
    same(&model, "serve", "asked 0x10000");
    same(&model, "push 0x10000", "sent page 0x10000");
    same(&model, "deliver", "took page 0x10000");
    same(&model, "install", "installed 0x10000 from 0x10000"); /* UFFDIO_COPY */
    same(&model, "retry 1", "cpu 1 value 0x2a");
    same(&model, "end", "end sent");
    same(&model, "deliver", "took end");
    same(&model, "back", "took done");
    puts("the monitor did what the model says");
    return 0;
}
