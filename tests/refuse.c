// Loaded before the C library by tests/refused-memory: the allocation of number REFUSE_AT is
// refused, and then the file REFUSE_MET is made. Allocations before main are not counted.
#define _GNU_SOURCE
#include <dlfcn.h>
#include <errno.h>
#include <fcntl.h>
#include <stddef.h>
#include <stdlib.h>
#include <unistd.h>

static long refuse_at = -1;
static long count;

__attribute__((constructor)) static void begin(void) {
    const char *at = getenv("REFUSE_AT");
    refuse_at = at ? atol(at) : -1;
    count = 0;
}

static int refused(void) {
    if (refuse_at < 0 || ++count != refuse_at)
        return 0;
    const char *met = getenv("REFUSE_MET");
    if (met) {
        int file = open(met, O_CREAT | O_WRONLY, 0600);
        if (file >= 0)
            close(file);
    }
    errno = ENOMEM;
    return 1;
}

#define REAL(name) ((__typeof__(&name))dlsym(RTLD_NEXT, #name))

void *malloc(size_t size) { return refused() ? NULL : REAL(malloc)(size); }

void *realloc(void *old, size_t size) { return refused() ? NULL : REAL(realloc)(old, size); }

void *aligned_alloc(size_t align, size_t size) {
    return refused() ? NULL : REAL(aligned_alloc)(align, size);
}

int posix_memalign(void **place, size_t align, size_t size) {
    return refused() ? ENOMEM : REAL(posix_memalign)(place, align, size);
}

// dlsym itself may call calloc, so the first calls go to a small store of their own.
void *calloc(size_t many, size_t size) {
    static char store[4096];
    static size_t used;
    static void *(*real)(size_t, size_t);
    static int asking;
    if (!real && !asking) {
        asking = 1;
        real = REAL(calloc);
        asking = 0;
    }
    if (!real) {
        size_t bytes = (many * size + 15) / 16 * 16;
        if (used + bytes > sizeof store)
            return NULL;
        void *place = store + used;
        used += bytes;
        return place;
    }
    return refused() ? NULL : real(many, size);
}
