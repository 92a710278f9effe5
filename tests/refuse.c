// Refuses one allocation of a program that is started with LD_PRELOAD: the one whose number, from 1, stands in REFUSE. Where there is
// such an allocation the file that REFUSED names is made.
#define _GNU_SOURCE
#include <dlfcn.h>
#include <errno.h>
#include <fcntl.h>
#include <stdatomic.h>
#include <stdlib.h>
#include <unistd.h>

static atomic_long count;

static int is_refused(void)
{
    const char *number = getenv("REFUSE");
    if (!number || atomic_fetch_add(&count, 1) + 1 != atol(number))
        return 0;
    const char *name = getenv("REFUSED");
    if (name) {
        int file = open(name, O_WRONLY | O_CREAT, 0600);
        if (file >= 0)
            close(file);
    }
    errno = ENOMEM;
    return 1;
}

void *malloc(size_t size)
{
    static void *(*next)(size_t);
    if (!next)
        next = (void *(*)(size_t))dlsym(RTLD_NEXT, "malloc");
    return is_refused() ? NULL : next(size);
}

void *realloc(void *old, size_t size)
{
    static void *(*next)(void *, size_t);
    if (!next)
        next = (void *(*)(void *, size_t))dlsym(RTLD_NEXT, "realloc");
    return is_refused() ? NULL : next(old, size);
}

void *aligned_alloc(size_t alignment, size_t size)
{
    static void *(*next)(size_t, size_t);
    if (!next)
        next = (void *(*)(size_t, size_t))dlsym(RTLD_NEXT, "aligned_alloc");
    return is_refused() ? NULL : next(alignment, size);
}

int posix_memalign(void **made, size_t alignment, size_t size)
{
    static int (*next)(void **, size_t, size_t);
    if (!next)
        next = (int (*)(void **, size_t, size_t))dlsym(RTLD_NEXT, "posix_memalign");
    return is_refused() ? ENOMEM : next(made, alignment, size);
}
