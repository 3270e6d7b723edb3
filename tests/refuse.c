/* Put before the C library by LD_PRELOAD: the allocation with the number REFUSED_ALLOCATION is refused, and so is each
 * later one where REFUSED_FROM_THERE is set. At the end the number of allocations, and the bytes that they asked for, go to
 * the file REFUSED_COUNT, if set. */
#define _GNU_SOURCE
#include <dlfcn.h>
#include <stdatomic.h>
#include <stdio.h>
#include <stdlib.h>
#include <sys/syscall.h>
#include <unistd.h>

static atomic_long count;
static atomic_long bytes;
static long refused = -1;
static int from_there;

__attribute__((constructor)) static void begin(void) {
    const char *number = getenv("REFUSED_ALLOCATION");
    atomic_store(&count, 0);
    atomic_store(&bytes, 0);
    refused = number ? atol(number) : -1;
    from_there = getenv("REFUSED_FROM_THERE") != NULL;
}

static void tell_count(void) {
    const char *name = getenv("REFUSED_COUNT");
    long made = atomic_load(&count);
    long asked = atomic_load(&bytes);
    FILE *file = name ? fopen(name, "w") : NULL;
    if (file) {
        fprintf(file, "%ld %ld\n", made, asked);
        fclose(file);
    }
}

__attribute__((destructor)) static void end(void) {
    tell_count();
}

/* A program with threads ends by this call, which runs no destructor. */
void _exit(int status) {
    tell_count();
    for (;;) syscall(SYS_exit_group, status);
}

static int is_refused(size_t size) {
    atomic_fetch_add(&bytes, (long)size);
    long number = atomic_fetch_add(&count, 1) + 1;
    return refused > 0 && (number == refused || (from_there && number > refused));
}

void *malloc(size_t size) {
    static void *(*next)(size_t);
    if (!next) next = (void *(*)(size_t))dlsym(RTLD_NEXT, "malloc");
    return is_refused(size) ? NULL : next(size);
}

void *realloc(void *old, size_t size) {
    static void *(*next)(void *, size_t);
    if (!next) next = (void *(*)(void *, size_t))dlsym(RTLD_NEXT, "realloc");
    return is_refused(size) ? NULL : next(old, size);
}

int posix_memalign(void **place, size_t alignment, size_t size) {
    static int (*next)(void **, size_t, size_t);
    if (!next) next = (int (*)(void **, size_t, size_t))dlsym(RTLD_NEXT, "posix_memalign");
    return is_refused(size) ? 12 : next(place, alignment, size);
}

void *aligned_alloc(size_t alignment, size_t size) {
    static void *(*next)(size_t, size_t);
    if (!next) next = (void *(*)(size_t, size_t))dlsym(RTLD_NEXT, "aligned_alloc");
    return is_refused(size) ? NULL : next(alignment, size);
}
