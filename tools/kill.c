// Ends the program by SIGKILL at one of its calls that change a file or a name, or wait for the device: call KILL_AT, counted from 1 over all such
// calls, in one of three ways KILL_WAY: 0 before the call, 1 after half of the bytes of a write, 2 after the call.
// If the program ends by itself first, the number of its calls is written to the file KILL_COUNT.
#define _GNU_SOURCE
#include <dlfcn.h>
#include <fcntl.h>
#include <signal.h>
#include <stdarg.h>
#include <stdio.h>
#include <stdlib.h>
#include <sys/types.h>
#include <unistd.h>

static long calls;

static long number(const char *name) {
    const char *word = getenv(name);
    return word ? atol(word) : -1;
}

// Returns whether the program must end at this call, in this way.
static int ends(long way) {
    return calls == number("KILL_AT") && way == number("KILL_WAY");
}

static void end(void) {
    raise(SIGKILL);
}

__attribute__((destructor)) static void write_count(void) {
    const char *path = getenv("KILL_COUNT");
    FILE *file = path ? fopen(path, "w") : NULL;
    if (file) {
        fprintf(file, "%ld\n", calls);
        fclose(file);
    }
}

#define WRITES(name, offset_type)                                                              \
    ssize_t name(int file, const void *bytes, size_t count, offset_type offset) {              \
        ssize_t (*real)(int, const void *, size_t, offset_type) = dlsym(RTLD_NEXT, #name);     \
        calls++;                                                                               \
        if (ends(0)) end();                                                                    \
        if (ends(1)) {                                                                         \
            real(file, bytes, count / 2, offset);                                              \
            end();                                                                             \
        }                                                                                      \
        ssize_t done = real(file, bytes, count, offset);                                       \
        if (ends(2)) end();                                                                    \
        return done;                                                                           \
    }

#define WAITS(name)                                          \
    int name(int file) {                                     \
        int (*real)(int) = dlsym(RTLD_NEXT, #name);          \
        calls++;                                             \
        if (ends(0) || ends(1)) end();                       \
        int done = real(file);                               \
        if (ends(2)) end();                                  \
        return done;                                         \
    }

#define SIZES(name, offset_type)                                          \
    int name(int file, offset_type size) {                                \
        int (*real)(int, offset_type) = dlsym(RTLD_NEXT, #name);          \
        calls++;                                                          \
        if (ends(0) || ends(1)) end();                                    \
        int done = real(file, size);                                      \
        if (ends(2)) end();                                               \
        return done;                                                      \
    }

#define NAMES(name)                                                       \
    int name(const char *from, const char *to) {                          \
        int (*real)(const char *, const char *) = dlsym(RTLD_NEXT, #name); \
        calls++;                                                          \
        if (ends(0) || ends(1)) end();                                    \
        int done = real(from, to);                                        \
        if (ends(2)) end();                                               \
        return done;                                                      \
    }

// Only an open that may make a file is counted.
#define OPENS(name)                                                       \
    int name(const char *path, int flags, ...) {                          \
        int (*real)(const char *, int, ...) = dlsym(RTLD_NEXT, #name);    \
        va_list more;                                                     \
        va_start(more, flags);                                            \
        mode_t mode = flags & O_CREAT ? va_arg(more, mode_t) : 0;         \
        va_end(more);                                                     \
        if (!(flags & O_CREAT)) return real(path, flags, mode);           \
        calls++;                                                          \
        if (ends(0) || ends(1)) end();                                    \
        int done = real(path, flags, mode);                               \
        if (ends(2)) end();                                               \
        return done;                                                      \
    }

int unlink(const char *path) {
    int (*real)(const char *) = dlsym(RTLD_NEXT, "unlink");
    calls++;
    if (ends(0) || ends(1)) end();
    int done = real(path);
    if (ends(2)) end();
    return done;
}

WRITES(pwrite, off_t)
WRITES(pwrite64, off64_t)
WAITS(fsync)
WAITS(fdatasync)
SIZES(ftruncate, off_t)
SIZES(ftruncate64, off64_t)
NAMES(link)
NAMES(rename)
OPENS(open)
OPENS(open64)
