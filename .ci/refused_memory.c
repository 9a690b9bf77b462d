// Refuses one request for memory: the one whose number, counted from 1, the variable REFUSED says. It then makes the file that
// REACHED names, so that the caller knows whether there are so many requests. For refused_memory, which loads it before the
// C library.
#include <errno.h>
#include <fcntl.h>
#include <stdlib.h>
#include <unistd.h>

void *__libc_malloc(size_t size);
void *__libc_calloc(size_t count, size_t size);
void *__libc_realloc(void *old, size_t size);
void *__libc_memalign(size_t align, size_t size);

static long asked, refused = -1;

static int is_refused(void) {
    if (refused < 0) {
        const char *word = getenv("REFUSED");
        refused = word ? atol(word) : 0;
    }
    if (++asked != refused) {
        return 0;
    }
    const char *reached = getenv("REACHED");
    int file = reached ? open(reached, O_CREAT | O_WRONLY, 0644) : -1;
    if (file >= 0) {
        close(file);
    }
    errno = ENOMEM;
    return 1;
}

void *malloc(size_t size) { return is_refused() ? NULL : __libc_malloc(size); }
void *calloc(size_t count, size_t size) { return is_refused() ? NULL : __libc_calloc(count, size); }
void *realloc(void *old, size_t size) { return is_refused() ? NULL : __libc_realloc(old, size); }
void *aligned_alloc(size_t align, size_t size) { return is_refused() ? NULL : __libc_memalign(align, size); }

int posix_memalign(void **out, size_t align, size_t size) {
    void *got = is_refused() ? NULL : __libc_memalign(align, size);
    if (got == NULL) {
        return ENOMEM;
    }
    *out = got;
    return 0;
}
