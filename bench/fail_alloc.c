/* Loaded before the C library (LD_PRELOAD): the FAIL_ALLOC-th allocation of the process fails, counted from 1. The number of allocations
   that were asked for stands, as a long, in the file FAIL_ALLOC_COUNT, which is shared memory, since a program may end without its
   destructors. bench/memory.sh uses it. */
#define _GNU_SOURCE
#include <errno.h>
#include <fcntl.h>
#include <stdatomic.h>
#include <stdlib.h>
#include <sys/mman.h>
#include <unistd.h>

extern void *__libc_malloc(size_t size);
extern void *__libc_realloc(void *old, size_t size);
extern void *__libc_calloc(size_t count, size_t size);
extern void *__libc_memalign(size_t alignment, size_t size);

static atomic_long unshared;
static atomic_long *asked = &unshared;
static long failing = -1;

static int fails(void) {
    if (atomic_fetch_add(asked, 1) + 1 != failing)
        return 0;
    errno = ENOMEM;
    return 1;
}

void *malloc(size_t size) { return fails() ? NULL : __libc_malloc(size); }
void *calloc(size_t count, size_t size) { return fails() ? NULL : __libc_calloc(count, size); }
void *realloc(void *old, size_t size) { return fails() ? NULL : __libc_realloc(old, size); }
void *memalign(size_t alignment, size_t size) { return fails() ? NULL : __libc_memalign(alignment, size); }
void *aligned_alloc(size_t alignment, size_t size) { return memalign(alignment, size); }

int posix_memalign(void **given, size_t alignment, size_t size) {
    void *at = memalign(alignment, size);
    if (at == NULL)
        return ENOMEM;
    *given = at;
    return 0;
}

__attribute__((constructor)) static void begin(void) {
    const char *word = getenv("FAIL_ALLOC"), *path = getenv("FAIL_ALLOC_COUNT");
    int file = path ? open(path, O_RDWR | O_CREAT | O_TRUNC, 0600) : -1;
    if (file >= 0 && ftruncate(file, sizeof(atomic_long)) == 0) {
        void *at = mmap(NULL, sizeof(atomic_long), PROT_READ | PROT_WRITE, MAP_SHARED, file, 0);
        if (at != MAP_FAILED)
            asked = at;
    }
    if (file >= 0)
        close(file);
    atomic_store(asked, 0);
    failing = word ? atol(word) : -1;
}
