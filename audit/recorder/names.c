/* The names of errors that the recorded calls may return. */
#include "names.h"

#include <errno.h>
#include <stddef.h>

#define NAME(error)   \
    {                 \
        error, #error \
    }

static const struct {
    int error;
    const char *name;
} names[] = {
    NAME(EPERM),     NAME(ENOENT),     NAME(ESRCH),     NAME(EINTR),     NAME(EIO),    NAME(ENXIO),  NAME(E2BIG),
    NAME(EBADF),     NAME(ECHILD),     NAME(EAGAIN),    NAME(ENOMEM),    NAME(EACCES), NAME(EFAULT), NAME(EBUSY),
    NAME(EEXIST),    NAME(ENODEV),     NAME(EINVAL),    NAME(ENFILE),    NAME(EMFILE), NAME(ENOTTY), NAME(EFBIG),
    NAME(ENOSPC),    NAME(ESPIPE),     NAME(EROFS),     NAME(EDOM),      NAME(ERANGE), NAME(ENOSYS), NAME(ENODATA),
    NAME(EOVERFLOW), NAME(EOPNOTSUPP), NAME(EHWPOISON), NAME(ECANCELED),
};

const char *errno_name(int error)
{
    for (size_t i = 0; i < sizeof names / sizeof *names; i++)
        if (names[i].error == error)
            return names[i].name;
    return NULL;
}
