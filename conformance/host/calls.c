// The commands of a processor: their words, and the system calls of those that change the map.
#include "host.h"

#include <errno.h>
#include <string.h>
#include <sys/mman.h>
#include <sys/syscall.h>
#include <unistd.h>

static int protection_of(const char *word)
{
    if (!strcmp(word, "rw"))
        return PROT_READ | PROT_WRITE;
    return !strcmp(word, "r") ? PROT_READ : PROT_NONE;
}

// mmap LEN PROT [fixed|noreplace|shared ADDR]
static int parse_mmap(char **words, int count, struct call *call)
{
    if (count != 3 && count != 5)
        return 0;
    call->kind = MMAP;
    call->length = number(words[1]);
    call->protection = protection_of(words[2]);
    call->flags = MAP_PRIVATE | MAP_ANONYMOUS | MAP_NORESERVE;
    if (count == 5) {
        if (!strcmp(words[3], "shared"))
            call->flags = MAP_SHARED | MAP_ANONYMOUS | MAP_FIXED;
        else
            call->flags |= !strcmp(words[3], "fixed") ? MAP_FIXED : MAP_FIXED_NOREPLACE;
        call->addr = number(words[4]);
    }
    return 1;
}

// mremap ADDR OLD NEW [maymove] [fixed ADDR]
static int parse_mremap(char **words, int count, struct call *call)
{
    int at = 4;
    if (count < 4)
        return 0;
    call->kind = MREMAP;
    call->new_length = number(words[3]);
    if (at < count && !strcmp(words[at], "maymove")) {
        call->flags |= MREMAP_MAYMOVE;
        at++;
    }
    if (at + 1 < count && !strcmp(words[at], "fixed")) {
        call->flags |= MREMAP_FIXED;
        call->target = number(words[at + 1]);
    }
    return 1;
}

int parse_call(char **words, int count, struct call *call)
{
    memset(call, 0, sizeof *call);
    if (count < 3)
        return 0;
    if (!strcmp(words[0], "mmap"))
        return parse_mmap(words, count, call);
    call->addr = number(words[1]);
    call->length = call->width = number(words[2]);
    if (!strcmp(words[0], "mremap"))
        return parse_mremap(words, count, call);
    if (!strcmp(words[0], "store")) {
        call->kind = STORE;
        call->value = count == 4 ? number(words[3]) : 0;
        return count == 4;
    }
    if (!strcmp(words[0], "load"))
        call->kind = LOAD;
    else if (!strcmp(words[0], "munmap"))
        call->kind = MUNMAP;
    else if (!strcmp(words[0], "dontneed"))
        call->kind = DONTNEED;
    else if (!strcmp(words[0], "free"))
        call->kind = FREE;
    else
        return 0;
    return 1;
}

// The system calls themselves, without the C library between.
long map_call(const struct call *call)
{
    long value = -1;
    errno = EINVAL;
    switch (call->kind) {
    case MMAP:
        value = syscall(SYS_mmap, call->addr, call->length, call->protection, call->flags, -1, 0);
        break;
    case MUNMAP:
        value = syscall(SYS_munmap, call->addr, call->length);
        break;
    case MREMAP:
        value = syscall(SYS_mremap, call->addr, call->length, call->new_length, call->flags, call->target);
        break;
    case DONTNEED:
        value = syscall(SYS_madvise, call->addr, call->length, MADV_DONTNEED);
        break;
    case FREE:
        value = syscall(SYS_madvise, call->addr, call->length, MADV_FREE);
        break;
    case LOAD:
    case STORE:
        break;
    }
    return value == -1 ? -errno : value;
}
