// Refuses one request for memory: the one whose number the environment gives as REFUSE_AT, counted from 1. That it came to it is written
// to the descriptor that the environment gives as REFUSE_TOLD. Loaded before the C library.
#define _GNU_SOURCE
#include <dlfcn.h>
#include <errno.h>
#include <stdatomic.h>
#include <stddef.h>
#include <stdlib.h>
#include <unistd.h>

static atomic_long requests;
static long refused_at;
static int told;

__attribute__((constructor)) static void begin(void) {
    const char *number = getenv("REFUSE_AT");
    const char *descriptor = getenv("REFUSE_TOLD");
    refused_at = number ? atol(number) : 0;
    told = descriptor ? atoi(descriptor) : -1;
    atomic_store(&requests, 0);
}

// Whether this request is the one.
static int is_refused(void) {
    if (refused_at == 0 || atomic_fetch_add(&requests, 1) + 1 != refused_at) {
        return 0;
    }
    ssize_t written = write(told, "r", 1);
    (void)written;
    errno = ENOMEM;
    return 1;
}

extern void *__libc_malloc(size_t);
extern void *__libc_calloc(size_t, size_t);
extern void *__libc_realloc(void *, size_t);
extern void *__libc_memalign(size_t, size_t);

void *malloc(size_t size) {
    return is_refused() ? NULL : __libc_malloc(size);
}

void *calloc(size_t count, size_t size) {
    return is_refused() ? NULL : __libc_calloc(count, size);
}

void *realloc(void *old, size_t size) {
    return is_refused() ? NULL : __libc_realloc(old, size);
}

void *aligned_alloc(size_t alignment, size_t size) {
    return is_refused() ? NULL : __libc_memalign(alignment, size);
}

void *memalign(size_t alignment, size_t size) {
    return is_refused() ? NULL : __libc_memalign(alignment, size);
}

int posix_memalign(void **out, size_t alignment, size_t size) {
    if (is_refused()) {
        return ENOMEM;
    }
    *out = __libc_memalign(alignment, size);
    return *out ? 0 : ENOMEM;
}
