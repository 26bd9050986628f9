// A library to preload: it keeps in the file that LARGEST names the size in bytes of the largest block that was allocated, as a number
// of 8 bytes in the machine's order.
#define _GNU_SOURCE
#include <dlfcn.h>
#include <fcntl.h>
#include <stdlib.h>
#include <sys/mman.h>
#include <unistd.h>

// Shared with the processes that a program starts.
static size_t *largest;

__attribute__((constructor)) static void begin(void) {
    const char *name = getenv("LARGEST");
    int file = name ? open(name, O_RDWR | O_CREAT, 0600) : -1;
    if (file < 0 || ftruncate(file, sizeof *largest)) return;
    void *page = mmap(NULL, sizeof *largest, PROT_READ | PROT_WRITE, MAP_SHARED, file, 0);
    if (page != MAP_FAILED) largest = page;
    close(file);
}

static void note(size_t size) {
    if (!largest) return;
    size_t known = *largest;
    while (size > known && !__atomic_compare_exchange_n(largest, &known, size, 0, __ATOMIC_SEQ_CST, __ATOMIC_SEQ_CST)) {}
}

void *malloc(size_t size) {
    static void *(*next)(size_t);
    if (!next) next = (void *(*)(size_t))dlsym(RTLD_NEXT, "malloc");
    note(size);
    return next(size);
}

void *realloc(void *block, size_t size) {
    static void *(*next)(void *, size_t);
    if (!next) next = (void *(*)(void *, size_t))dlsym(RTLD_NEXT, "realloc");
    note(size);
    return next(block, size);
}
