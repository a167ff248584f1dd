/* Makes one allocation of a program fail: loaded before the C library, it counts the calls of malloc and realloc, of all threads, and
 * the one with the number in FAIL_ALLOC (from 1) answers that there is no memory. The file FAIL_MARK, where it is named, is made then. */
#define _GNU_SOURCE
#include <dlfcn.h>
#include <errno.h>
#include <fcntl.h>
#include <stdatomic.h>
#include <stdlib.h>
#include <unistd.h>

static atomic_long left; /* at the call that brings it to 0 the allocation fails */

__attribute__((constructor)) static void begin(void) {
    const char *number = getenv("FAIL_ALLOC");
    atomic_store(&left, number ? atol(number) : 0);
}

static int fails(void) {
    if (atomic_load(&left) <= 0 || atomic_fetch_sub(&left, 1) != 1)
        return 0;
    const char *mark = getenv("FAIL_MARK");
    int file = mark ? open(mark, O_CREAT | O_WRONLY, 0600) : -1;
    if (file >= 0)
        close(file);
    errno = ENOMEM;
    return 1;
}

void *malloc(size_t size) {
    static void *(*real)(size_t);
    if (!real)
        real = (void *(*)(size_t))dlsym(RTLD_NEXT, "malloc");
    return fails() ? 0 : real(size);
}

void *realloc(void *block, size_t size) {
    static void *(*real)(void *, size_t);
    if (!real)
        real = (void *(*)(void *, size_t))dlsym(RTLD_NEXT, "realloc");
    return fails() ? 0 : real(block, size);
}
