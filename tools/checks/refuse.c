/* Stands before the C library's malloc and realloc, counts the requests for memory, and refuses the one
   whose number is in REFUSE (from 1; 0 refuses none). The count is written to the file REFUSE_COUNT at the
   end, where one is named. */
#include <stdio.h>
#include <stdlib.h>

extern void *__libc_malloc(size_t);
extern void *__libc_realloc(void *, size_t);

static long requests;

static int refused(void) {
    const char *number = getenv("REFUSE");
    return ++requests == (number ? atol(number) : 0);
}

void *malloc(size_t size) { return refused() ? NULL : __libc_malloc(size); }
void *realloc(void *block, size_t size) { return refused() ? NULL : __libc_realloc(block, size); }

__attribute__((destructor)) static void tell(void) {
    const char *name = getenv("REFUSE_COUNT");
    long counted = requests;
    FILE *file = name ? fopen(name, "w") : NULL;
    if (file) {
        fprintf(file, "%ld", counted);
        fclose(file);
    }
}
