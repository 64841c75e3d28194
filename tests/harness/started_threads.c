/* Preloaded into programs by started_threads and machine_memory: writes a line to the file TOLD for each thread that is
   started, and refuses to start the one that REFUSED counts to, from 1. With REFUSED=0, or without it, it refuses none. */
#define _GNU_SOURCE
#include <dlfcn.h>
#include <errno.h>
#include <fcntl.h>
#include <pthread.h>
#include <stdlib.h>
#include <unistd.h>

typedef int creates(pthread_t *, const pthread_attr_t *, void *(*)(void *), void *);

static int told = -1;
static unsigned long refused;
static unsigned long made;

__attribute__((constructor)) static void start(void) {
    const char *file = getenv("TOLD");
    const char *number = getenv("REFUSED");
    if (file) told = open(file, O_WRONLY | O_CREAT | O_TRUNC | O_APPEND, 0600);
    refused = number ? strtoul(number, NULL, 10) : 0;
}

int pthread_create(pthread_t *thread, const pthread_attr_t *attributes, void *(*work)(void *), void *argument) {
    creates *create = (creates *)dlsym(RTLD_NEXT, "pthread_create");
    if (__atomic_add_fetch(&made, 1, __ATOMIC_SEQ_CST) == refused) return EAGAIN;
    if (write(told, "\n", 1) != 1) return -1;
    return create(thread, attributes, work, argument);
}
