/* Refuses one request for memory, the one whose number REFUSE names, counted from 1; at the end it writes how many there were to the file that
   REFUSE_COUNT names. To be preloaded: bench/memory.py builds and uses it. */
#include <errno.h>
#include <stdio.h>
#include <stdlib.h>

extern void *__libc_malloc(size_t);
extern void *__libc_calloc(size_t, size_t);
extern void *__libc_realloc(void *, size_t);
extern void *__libc_memalign(size_t, size_t);

static long requests, refused = -1;

static int is_due(void) {
    if (refused < 0) {
        const char *number = getenv("REFUSE");
        refused = number ? atol(number) : 0;
    }
    requests++;
    return requests == refused;
}

void *malloc(size_t size) { return is_due() ? NULL : __libc_malloc(size); }
void *calloc(size_t count, size_t size) { return is_due() ? NULL : __libc_calloc(count, size); }
void *realloc(void *old, size_t size) { return is_due() ? NULL : __libc_realloc(old, size); }
void *memalign(size_t align, size_t size) { return is_due() ? NULL : __libc_memalign(align, size); }
void *aligned_alloc(size_t align, size_t size) { return is_due() ? NULL : __libc_memalign(align, size); }

int posix_memalign(void **place, size_t align, size_t size) {
    if (is_due())
        return ENOMEM;
    *place = __libc_memalign(align, size);
    return *place ? 0 : ENOMEM;
}

__attribute__((destructor)) static void tell(void) {
    const char *name = getenv("REFUSE_COUNT");
    long told = requests;
    FILE *file = name ? fopen(name, "w") : NULL;
    if (file) {
        fprintf(file, "%ld\n", told);
        fclose(file);
    }
}
