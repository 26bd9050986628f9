// A library to preload: the call FAIL_AT, counted from 1 over all calls below, fails with the error
// number FAIL_WITH, and is not made; or, if FAIL_WITH is "part", a read or a write is of half of
// its bytes, and any other call is made unchanged. With FAIL_THEN the next call fails with that
// number. The name of the call is written to the file FAIL_MET.
#define _GNU_SOURCE
#include <dlfcn.h>
#include <errno.h>
#include <fcntl.h>
#include <stdarg.h>
#include <stdio.h>
#include <stdlib.h>
#include <string.h>
#include <sys/stat.h>
#include <sys/syscall.h>
#include <sys/types.h>
#include <unistd.h>

// Returns 0 if the call is made unchanged, 1 if it fails, 2 if half of it is made.
static int met(const char *name, int file, int has_parts) {
    static long count;
    const char *at = getenv("FAIL_AT"), *with = getenv("FAIL_WITH"), *mark = getenv("FAIL_MET");
    const char *then = getenv("FAIL_THEN");
    if (!at || !with || !mark) return 0;
    count++;
    if (then && count == atol(at) + 1) {
        errno = atoi(then);
        return 1;
    }
    if (count != atol(at)) return 0;
    char text[64];
    int part = strcmp(with, "part") == 0;
    const char *whole = part && !has_parts ? " whole" : "";
    // for the standard streams the descriptor is also written
    int size = file >= 0 && file <= 2 ? snprintf(text, sizeof text, "%s %d%s\n", name, file, whole)
                                      : snprintf(text, sizeof text, "%s%s\n", name, whole);
    int kept = syscall(SYS_openat, AT_FDCWD, mark, O_CREAT | O_WRONLY | O_TRUNC, 0600);
    syscall(SYS_write, kept, text, size);
    syscall(SYS_close, kept);
    if (part) return has_parts ? 2 : 0;
    errno = atoi(with);
    return 1;
}

#define REAL(name) ((__typeof__(&name))dlsym(RTLD_NEXT, #name))
#define FAILS(name, file) if (met(#name, file, 0) == 1) return -1
#define HALF(count) ((count) > 1 ? (count) / 2 : (count))

#define OPENS(name)                                                   \
    int name(const char *path, int flags, ...) {                      \
        va_list more;                                                 \
        va_start(more, flags);                                        \
        mode_t mode = flags & O_CREAT ? va_arg(more, mode_t) : 0;     \
        va_end(more);                                                 \
        FAILS(name, -1);                                              \
        return REAL(name)(path, flags, mode);                         \
    }
#define OPENS_AT(name)                                                \
    int name(int folder, const char *path, int flags, ...) {          \
        va_list more;                                                 \
        va_start(more, flags);                                        \
        mode_t mode = flags & O_CREAT ? va_arg(more, mode_t) : 0;     \
        va_end(more);                                                 \
        FAILS(name, -1);                                              \
        return REAL(name)(folder, path, flags, mode);                 \
    }
#define MOVES(name, kind)                                             \
    ssize_t name(int file, kind bytes, size_t count) {                \
        int way = met(#name, file, 1);                                \
        if (way == 1) return -1;                                      \
        return REAL(name)(file, bytes, way == 2 ? HALF(count) : count); \
    }
#define MOVES_AT(name, kind, place)                                   \
    ssize_t name(int file, kind bytes, size_t count, place at) {      \
        int way = met(#name, file, 1);                                \
        if (way == 1) return -1;                                      \
        return REAL(name)(file, bytes, way == 2 ? HALF(count) : count, at); \
    }
#define ON_FILE(name) int name(int file) { FAILS(name, file); return REAL(name)(file); }
#define ON_FILE_WITH(name, kind) int name(int file, kind more) { FAILS(name, file); return REAL(name)(file, more); }
#define ON_PATH(name) int name(const char *path) { FAILS(name, -1); return REAL(name)(path); }

ssize_t __write(int, const void *, size_t);

OPENS(open)
OPENS(open64)
OPENS_AT(openat)
OPENS_AT(openat64)
MOVES(read, void *)
MOVES(write, const void *)
MOVES(__write, const void *)
MOVES_AT(pread, void *, off_t)
MOVES_AT(pread64, void *, off64_t)
MOVES_AT(pwrite, const void *, off_t)
MOVES_AT(pwrite64, const void *, off64_t)
ON_FILE(fsync)
ON_FILE(fdatasync)
ON_FILE_WITH(ftruncate, off_t)
ON_FILE_WITH(ftruncate64, off64_t)
ON_FILE_WITH(fstat, struct stat *)
ON_FILE_WITH(fstat64, struct stat64 *)
int flock(int, int);
ON_FILE_WITH(flock, int)
ON_PATH(unlink)

int stat(const char *path, struct stat *more) { FAILS(stat, -1); return REAL(stat)(path, more); }
int stat64(const char *path, struct stat64 *more) { FAILS(stat64, -1); return REAL(stat64)(path, more); }
int rename(const char *from, const char *to) { FAILS(rename, -1); return REAL(rename)(from, to); }
int link(const char *from, const char *to) { FAILS(link, -1); return REAL(link)(from, to); }
int statx(int folder, const char *restrict path, int flags, unsigned mask, struct statx *restrict more) {
    FAILS(statx, -1);
    return REAL(statx)(folder, path, flags, mask, more);
}
int fcntl(int file, int command, ...) {
    va_list more;
    va_start(more, command);
    void *argument = va_arg(more, void *);
    va_end(more);
    FAILS(fcntl, file);
    return REAL(fcntl)(file, command, argument);
}
