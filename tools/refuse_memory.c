/* Stands between a program and the C library's calls that take memory (LD_PRELOAD). It refuses the requests that the
   variable REFUSE names: `7` the seventh, `7-` that and all after it, and none where it isn't set. At its end it writes
   to the file that REFUSE_REPORT names how many requests there were, how many were refused, and how many were for more
   than LARGE bytes. tools/refuse_memory builds it; it is linked with nothing. */
#include <errno.h>
#include <stddef.h>
#include <stdio.h>
#include <stdlib.h>

void *__libc_malloc(size_t size);
void *__libc_calloc(size_t count, size_t size);
void *__libc_realloc(void *old, size_t size);

#define LARGE 65536

static unsigned long requests, refused, large, first, last;
static int is_ready;

static void read_range(void) {
    const char *range = getenv("REFUSE");
    char *rest = NULL;
    is_ready = 1;
    if (range != NULL) {
        first = strtoul(range, &rest, 10);
        last = *rest == '-' ? (unsigned long)-1 : first;
    }
}

static int is_refused(size_t size) {
    if (!is_ready) read_range();
    requests++;
    if (size > LARGE) large++;
    if (first == 0 || requests < first || requests > last) return 0;
    refused++;
    errno = ENOMEM;
    return 1;
}

static size_t product(size_t count, size_t size) {
    size_t all;
    return __builtin_mul_overflow(count, size, &all) ? (size_t)-1 : all;
}

void *malloc(size_t size) { return is_refused(size) ? NULL : __libc_malloc(size); }

void *calloc(size_t count, size_t size) { return is_refused(product(count, size)) ? NULL : __libc_calloc(count, size); }

void *realloc(void *old, size_t size) { return is_refused(size) ? NULL : __libc_realloc(old, size); }

__attribute__((destructor)) static void report(void) {
    unsigned long counted = requests, counted_refused = refused, counted_large = large;
    const char *path = getenv("REFUSE_REPORT");
    FILE *file = NULL;
    first = 0;
    if (path != NULL) file = fopen(path, "w");
    if (file == NULL) return;
    fprintf(file, "%lu %lu %lu\n", counted, counted_refused, counted_large);
    fclose(file);
}
