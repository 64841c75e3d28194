/* Preloaded into a program by memory, refused_parts, lock_memory, machine_memory and allocations: refuses one allocation,
   the one that REFUSED counts to, from 1, whichever thread makes it. With REFUSED=0 it refuses none. It writes to the file
   TOLD that it refused one, and at the end how many there were; a program that starts threads may end without that. */
#define _GNU_SOURCE
#include <dlfcn.h>
#include <errno.h>
#include <fcntl.h>
#include <stdio.h>
#include <stdlib.h>
#include <unistd.h>

static unsigned long made;
static unsigned long refused;
static int told = -1;

__attribute__((constructor)) static void start(void) {
    const char *number = getenv("REFUSED");
    const char *file = getenv("TOLD");
    refused = number ? strtoul(number, NULL, 10) : 0;
    if (file) told = open(file, O_WRONLY | O_CREAT | O_TRUNC, 0600);
    made = 0;
}

__attribute__((destructor)) static void end(void) { dprintf(told, "%lu\n", made); }

static int is_refused(void) {
    const unsigned long number = __atomic_add_fetch(&made, 1, __ATOMIC_SEQ_CST);
    if (refused != 0 && number == refused) {
        static const char said[] = "refused\n";
        if (write(told, said, sizeof said - 1) < 0) abort();
        errno = ENOMEM;
        return 1;
    }
    return 0;
}

void *malloc(size_t size) {
    static void *(*next)(size_t);
    if (!next) next = (void *(*)(size_t))dlsym(RTLD_NEXT, "malloc");
    return is_refused() ? NULL : next(size);
}

void *realloc(void *old, size_t size) {
    static void *(*next)(void *, size_t);
    if (!next) next = (void *(*)(void *, size_t))dlsym(RTLD_NEXT, "realloc");
    return is_refused() ? NULL : next(old, size);
}

void *aligned_alloc(size_t align, size_t size) {
    static void *(*next)(size_t, size_t);
    if (!next) next = (void *(*)(size_t, size_t))dlsym(RTLD_NEXT, "aligned_alloc");
    return is_refused() ? NULL : next(align, size);
}

int posix_memalign(void **to, size_t align, size_t size) {
    static int (*next)(void **, size_t, size_t);
    if (!next) next = (int (*)(void **, size_t, size_t))dlsym(RTLD_NEXT, "posix_memalign");
    return is_refused() ? ENOMEM : next(to, align, size);
}
