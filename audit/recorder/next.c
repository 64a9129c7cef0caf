/* Looks up the functions that come after the recorder's. */
#include "next.h"

#include <dlfcn.h>
#include <errno.h>
#include <stdatomic.h>
#include <string.h>

#include "raw.h"

static struct next found;
static _Atomic bool is_found;

/* A C library without close_range(2). */
static int close_range_by_kernel(unsigned first, unsigned last, int flags)
{
    long result = raw_call(SYS_close_range, first, last, flags, 0, 0, 0);

    if (!raw_failed(result))
        return 0;
    errno = (int)-result;
    return -1;
}

/* A function pointer from dlsym, which returns an object's: the standard has no conversion, POSIX promises the
   bytes. */
static void look_up(void *function, const char *name)
{
    void *symbol = dlsym(RTLD_NEXT, name);

    memcpy(function, &symbol, sizeof symbol);
}

static void look_up_all(void)
{
    struct next names;

    look_up(&names.syscall, "syscall");
    look_up(&names.ioctl, "ioctl");
    look_up(&names.read, "read");
    look_up(&names.readv, "readv");
    look_up(&names.poll, "poll");
    look_up(&names.ppoll, "ppoll");
    look_up(&names.close, "close");
    look_up(&names.close_range, "close_range");
    look_up(&names.dup, "dup");
    look_up(&names.dup2, "dup2");
    look_up(&names.dup3, "dup3");
    look_up(&names.fcntl, "fcntl");
    look_up(&names.recvmsg, "recvmsg");
    look_up(&names.mmap, "mmap");
    look_up(&names.munmap, "munmap");
    look_up(&names.mremap, "mremap");
    look_up(&names.madvise, "madvise");
    look_up(&names.fork, "fork");
    look_up(&names.exit, "_exit");
    if (!names.close_range)
        names.close_range = close_range_by_kernel;
    found = names;
    atomic_store_explicit(&is_found, true, memory_order_release);
}

const struct next *next(void)
{
    if (!atomic_load_explicit(&is_found, memory_order_acquire))
        look_up_all();
    return &found;
}
