/* Makes one allocation of a program fail: LD_PRELOAD names the library that this becomes.

   FAIL_COUNT names a file of eight zeros, in which the calls of malloc, calloc, realloc, aligned_alloc and posix_memalign are
   counted from the program's start on, and stand there however it ends. FAIL_AT is the number, from 1, of the call that fails;
   0 for none. The calls that are not to fail go on to glibc. */
#define _GNU_SOURCE
#include <errno.h>
#include <fcntl.h>
#include <stdatomic.h>
#include <stdlib.h>
#include <sys/mman.h>
#include <unistd.h>

extern void *__libc_malloc(size_t);
extern void *__libc_calloc(size_t, size_t);
extern void *__libc_realloc(void *, size_t);
extern void *__libc_memalign(size_t, size_t);

static _Atomic unsigned long *count;
static unsigned long wanted;

/* What is allocated before this, the C library's own, is not counted. */
__attribute__((constructor)) static void begin(void) {
    const char *name = getenv("FAIL_COUNT"), *at = getenv("FAIL_AT");
    int file = name && at ? open(name, O_RDWR | O_CLOEXEC) : -1;
    if (file < 0)
        _exit(127);
    void *place = mmap(NULL, sizeof *count, PROT_READ | PROT_WRITE, MAP_SHARED, file, 0);
    if (place == MAP_FAILED)
        _exit(127);
    close(file);
    wanted = strtoul(at, NULL, 10);
    count = place;
}

static int fails(void) {
    if (!count || atomic_fetch_add(count, 1) + 1 != wanted)
        return 0;
    errno = ENOMEM;
    return 1;
}

void *malloc(size_t size) {
    return fails() ? NULL : __libc_malloc(size);
}

void *calloc(size_t many, size_t size) {
    return fails() ? NULL : __libc_calloc(many, size);
}

void *realloc(void *old, size_t size) {
    return fails() ? NULL : __libc_realloc(old, size);
}

void *aligned_alloc(size_t align, size_t size) {
    return fails() ? NULL : __libc_memalign(align, size);
}

int posix_memalign(void **place, size_t align, size_t size) {
    if (fails())
        return ENOMEM;
    void *made = __libc_memalign(align, size);
    if (!made)
        return ENOMEM;
    *place = made;
    return 0;
}
