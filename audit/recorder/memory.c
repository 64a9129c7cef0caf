/* Reads the program's memory. */
#include "memory.h"

#include <errno.h>
#include <string.h>
#include <sys/uio.h>

#include "log.h"
#include "raw.h"

bool memory_copy(void *to, const void *from, size_t bytes)
{
    struct iovec here = { to, bytes }, there = { (void *)from, bytes };
    long copied = raw_call(SYS_process_vm_readv, log_last_thread(), (long)&here, 1, (long)&there, 1, 0);

    if ((copied == -ENOSYS || copied == -EPERM) && from) { /* a kernel without it, or a filter: then a bad address is a
                                                              signal here */
        memcpy(to, from, bytes);
        return true;
    }
    return copied == (long)bytes;
}
