/* Is loaded between a program and malloc, and refuses its growth number REFUSED, once. It makes the file REFUSED_TOLD
   when it does. bench/compare/refusals.py builds it as a library for LD_PRELOAD. */
#include <errno.h>
#include <fcntl.h>
#include <stdlib.h>
#include <unistd.h>

extern void *__libc_malloc(size_t size);
extern void *__libc_calloc(size_t count, size_t size);
extern void *__libc_realloc(void *block, size_t size);
extern void *__libc_memalign(size_t alignment, size_t size);

static unsigned long asked;

/* Whether this is the growth that is refused: then a file says that it was reached. */
static int is_refused(void)
{
    const char *which = getenv("REFUSED");
    if (!which || __sync_add_and_fetch(&asked, 1) != strtoul(which, 0, 10))
        return 0;
    int told = open(getenv("REFUSED_TOLD"), O_CREAT | O_WRONLY, 0600);
    if (told >= 0)
        close(told);
    errno = ENOMEM;
    return 1;
}

void *malloc(size_t size) { return is_refused() ? 0 : __libc_malloc(size); }
void *calloc(size_t count, size_t size) { return is_refused() ? 0 : __libc_calloc(count, size); }
void *realloc(void *block, size_t size) { return is_refused() ? 0 : __libc_realloc(block, size); }
void *aligned_alloc(size_t alignment, size_t size) { return is_refused() ? 0 : __libc_memalign(alignment, size); }
int posix_memalign(void **block, size_t alignment, size_t size)
{
    if (is_refused())
        return ENOMEM;
    *block = __libc_memalign(alignment, size);
    return *block ? 0 : ENOMEM;
}
