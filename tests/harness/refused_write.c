/* Preloaded into the program by output: standard output takes TAKEN bytes in all, or any number where TAKEN is
   empty, and at most AT_ONCE of them a call, or all where that is empty. Then a call answers as REFUSAL says: `full`,
   that there is no room; `nothing`, that it took 0 bytes; `once`, that there is no room, and only that one call. */
#define _GNU_SOURCE
#include <dlfcn.h>
#include <errno.h>
#include <stdlib.h>
#include <unistd.h>

static size_t left;
static size_t at_once;
static char refusal;

static size_t number(const char *name) {
    const char *text = getenv(name);
    return text && *text ? strtoul(text, NULL, 10) : (size_t)-1;
}

__attribute__((constructor)) static void start(void) {
    const char *text = getenv("REFUSAL");
    left = number("TAKEN");
    at_once = number("AT_ONCE");
    refusal = text ? text[0] : 'f';
}

static ssize_t answer(int file, const void *bytes, size_t count) {
    static ssize_t (*next)(int, const void *, size_t);
    if (!next) next = (ssize_t (*)(int, const void *, size_t))dlsym(RTLD_NEXT, "write");
    if (file != STDOUT_FILENO || count == 0) return next(file, bytes, count);
    if (left == 0) {
        if (refusal == 'o') left = (size_t)-1;
        if (refusal == 'n') return 0;
        errno = ENOSPC;
        return -1;
    }
    if (count > at_once) count = at_once;
    if (count > left) count = left;
    ssize_t taken = next(file, bytes, count);
    if (taken > 0 && left != (size_t)-1) left -= taken;
    return taken;
}

ssize_t write(int file, const void *bytes, size_t count) { return answer(file, bytes, count); }
ssize_t __write(int file, const void *bytes, size_t count) { return answer(file, bytes, count); }
