// A library to preload: it refuses the allocation whose number REFUSE gives, counted from 1, and then makes the file REFUSED.
#define _GNU_SOURCE
#include <dlfcn.h>
#include <errno.h>
#include <fcntl.h>
#include <stdlib.h>
#include <unistd.h>

static int is_refused(void) {
    static long count;
    static pid_t counted;
    const char *number = getenv("REFUSE"), *mark = getenv("REFUSED");
    if (!number || !mark) return 0;
    // A test may run in its own process, which counts anew.
    if (counted != getpid()) count = 0;
    counted = getpid();
    if (++count != atol(number)) return 0;
    close(open(mark, O_CREAT | O_WRONLY, 0600));
    errno = ENOMEM;
    return 1;
}

void *malloc(size_t size) {
    static void *(*next)(size_t);
    if (!next) next = (void *(*)(size_t))dlsym(RTLD_NEXT, "malloc");
    return is_refused() ? NULL : next(size);
}

void *realloc(void *block, size_t size) {
    static void *(*next)(void *, size_t);
    if (!next) next = (void *(*)(void *, size_t))dlsym(RTLD_NEXT, "realloc");
    return is_refused() ? NULL : next(block, size);
}
