// Loaded before a program (LD_PRELOAD), it refuses the one allocation whose number REFUSE says, counted from 1.
#define _GNU_SOURCE
#include <dlfcn.h>
#include <errno.h>
#include <stdlib.h>

static void *(*next_malloc)(size_t);
static void *(*next_realloc)(void *, size_t);
static void *(*next_aligned_alloc)(size_t, size_t);
static int (*next_posix_memalign)(void **, size_t, size_t);
static long wanted, seen;

static int is_refused(void)
{
    if (!next_malloc) {
        next_malloc = dlsym(RTLD_NEXT, "malloc");
        next_realloc = dlsym(RTLD_NEXT, "realloc");
        next_aligned_alloc = dlsym(RTLD_NEXT, "aligned_alloc");
        next_posix_memalign = dlsym(RTLD_NEXT, "posix_memalign");
        const char *number = getenv("REFUSE");
        wanted = number ? atol(number) : 0;
    }
    return ++seen == wanted;
}

void *malloc(size_t size)
{
    return is_refused() ? NULL : next_malloc(size);
}

void *realloc(void *old, size_t size)
{
    return is_refused() ? NULL : next_realloc(old, size);
}

void *aligned_alloc(size_t alignment, size_t size)
{
    return is_refused() ? NULL : next_aligned_alloc(alignment, size);
}

int posix_memalign(void **given, size_t alignment, size_t size)
{
    return is_refused() ? ENOMEM : next_posix_memalign(given, alignment, size);
}
