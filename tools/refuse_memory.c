/* Loaded before a program (LD_PRELOAD), refuses one growth of its memory: the one of the number that the variable
   REFUSED names, from 1. Each call of malloc, calloc, realloc, aligned_alloc and posix_memalign is one growth. The
   refusal is noted by a byte on the descriptor that the variable NOTED names. */
#define _GNU_SOURCE
#include <errno.h>
#include <stddef.h>
#include <stdlib.h>
#include <unistd.h>

extern void *__libc_malloc(size_t);
extern void *__libc_calloc(size_t, size_t);
extern void *__libc_realloc(void *, size_t);
extern void *__libc_memalign(size_t, size_t);

static long left = -1;
static int noted = -1;

__attribute__((constructor)) static void begin(void) {
    const char *number = getenv("REFUSED");
    const char *descriptor = getenv("NOTED");
    noted = descriptor ? atoi(descriptor) : -1;
    left = number ? atol(number) : -1;
}

static int refuses(void) {
    if (left < 0 || --left != 0)
        return 0;
    left = -1;
    if (noted >= 0 && write(noted, "!", 1) != 1)
        abort();
    errno = ENOMEM;
    return 1;
}

void *malloc(size_t size) { return refuses() ? NULL : __libc_malloc(size); }

void *calloc(size_t count, size_t size) { return refuses() ? NULL : __libc_calloc(count, size); }

void *realloc(void *block, size_t size) { return refuses() ? NULL : __libc_realloc(block, size); }

void *aligned_alloc(size_t alignment, size_t size) { return refuses() ? NULL : __libc_memalign(alignment, size); }

int posix_memalign(void **block, size_t alignment, size_t size) {
    if (refuses())
        return ENOMEM;
    *block = __libc_memalign(alignment, size);
    return *block ? 0 : ENOMEM;
}
