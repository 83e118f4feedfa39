/* Refuses one allocation: the one of the number in the variable REFUSED, counted from 0. At the end it writes how many there were into the file that ALLOCATIONS names. */
#include <errno.h>
#include <stdio.h>
#include <stdlib.h>

extern void *__libc_malloc(size_t);
extern void *__libc_realloc(void *, size_t);

static long count, refused = -1;

static int is_refused(void) {
    int now = count++ == refused;
    if (now)
        errno = ENOMEM;
    return now;
}

void *malloc(size_t size) {
    return is_refused() ? NULL : __libc_malloc(size);
}

void *realloc(void *held, size_t size) {
    return is_refused() ? NULL : __libc_realloc(held, size);
}

__attribute__((constructor)) static void begin(void) {
    const char *number = getenv("REFUSED");
    refused = number ? atol(number) : -1;
    count = 0;
}

__attribute__((destructor)) static void end(void) {
    const char *name = getenv("ALLOCATIONS");
    long made = count;
    FILE *file = name ? fopen(name, "w") : NULL;
    if (file) {
        fprintf(file, "%ld\n", made);
        fclose(file);
    }
}
