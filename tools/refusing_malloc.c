/* Counts the allocations of a program, and refuses one of them.
 *
 * It is loaded before a program (LD_PRELOAD). REFUSED is the number of the allocation that gets no memory, counted from
 * 1; with 0 none is refused. At the end the number of allocations is written to the file descriptor COUNT_TO. What the
 * C library allocates for itself before the program begins isn't counted. */
#define _GNU_SOURCE
#include <errno.h>
#include <stdio.h>
#include <stdlib.h>
#include <unistd.h>

extern void *__libc_malloc(size_t);
extern void *__libc_calloc(size_t, size_t);
extern void *__libc_realloc(void *, size_t);
extern void *__libc_memalign(size_t, size_t);

static unsigned long refused, made;
static int counts;

static unsigned long number(const char *name) {
    const char *text = getenv(name);
    return text ? strtoul(text, 0, 10) : 0;
}

__attribute__((constructor)) static void begin(void) {
    refused = number("REFUSED");
    counts = 1;
}

static void tell(void) {
    char line[32];
    int length = snprintf(line, sizeof line, "%lu\n", made);
    ssize_t written = write((int)number("COUNT_TO"), line, (size_t)length);
    (void)written;
}

__attribute__((destructor)) static void end(void) {
    counts = 0;
    tell();
}

static int is_refused(void) {
    return counts && ++made == refused;
}

void *malloc(size_t size) {
    return is_refused() ? 0 : __libc_malloc(size);
}

void *calloc(size_t count, size_t size) {
    return is_refused() ? 0 : __libc_calloc(count, size);
}

void *realloc(void *old, size_t size) {
    return is_refused() ? 0 : __libc_realloc(old, size);
}

void *aligned_alloc(size_t alignment, size_t size) {
    return is_refused() ? 0 : __libc_memalign(alignment, size);
}

void *memalign(size_t alignment, size_t size) {
    return is_refused() ? 0 : __libc_memalign(alignment, size);
}

int posix_memalign(void **out, size_t alignment, size_t size) {
    if (is_refused())
        return ENOMEM;
    *out = __libc_memalign(alignment, size);
    return *out ? 0 : ENOMEM;
}
