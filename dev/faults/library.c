// Preloaded into a program: fails the request number FAULT_AT of the kind FAULT_KIND, counted from 1,
// and tells at the end how many requests of each kind there were, on the descriptor FAULT_TOLD.
// The kinds: 'memory', 'read', 'write', 'open'. With 'room' FAULT_AT bytes can be written to files
// and pipes, and then the device is full. With 'single' each read and each write takes one byte.
#define _GNU_SOURCE
#include <dlfcn.h>
#include <errno.h>
#include <fcntl.h>
#include <stdarg.h>
#include <stdio.h>
#include <stdlib.h>
#include <string.h>
#include <unistd.h>
extern void *__libc_malloc(size_t), *__libc_calloc(size_t, size_t), *__libc_realloc(void *, size_t), *__libc_memalign(size_t, size_t);
enum kind { MEMORY, READ, WRITE, OPEN, KINDS, ROOM, SINGLE };
static const char *const names[] = {"memory", "read", "write", "open", "", "room", "single"};
static long asked[KINDS], at, told;
static int kind = -1;
static int is_failed(enum kind it, int error) { return told && ++asked[it] == at && kind == it && (errno = error); }
void *malloc(size_t n) { return is_failed(MEMORY, ENOMEM) ? 0 : __libc_malloc(n); }
void *calloc(size_t n, size_t m) { return is_failed(MEMORY, ENOMEM) ? 0 : __libc_calloc(n, m); }
void *realloc(void *p, size_t n) { return is_failed(MEMORY, ENOMEM) ? 0 : __libc_realloc(p, n); }
void *aligned_alloc(size_t a, size_t n) { return is_failed(MEMORY, ENOMEM) ? 0 : __libc_memalign(a, n); }
int posix_memalign(void **p, size_t a, size_t n) { return is_failed(MEMORY, ENOMEM) || !(*p = __libc_memalign(a, n)) ? ENOMEM : 0; }
ssize_t read(int file, void *to, size_t n) {
    static ssize_t (*real)(int, void *, size_t);
    if (!real) real = (ssize_t (*)(int, void *, size_t))dlsym(RTLD_NEXT, "read");
    return is_failed(READ, EIO) ? -1 : real(file, to, kind == SINGLE && n > 1 ? 1 : n);
}
ssize_t write(int file, const void *from, size_t n) {
    static ssize_t (*real)(int, const void *, size_t);
    if (!real) real = (ssize_t (*)(int, const void *, size_t))dlsym(RTLD_NEXT, "write");
    if (is_failed(WRITE, ENOSPC)) return -1;
    if (kind == SINGLE && n > 1) n = 1;
    if (kind != ROOM || file == 2) return real(file, from, n);
    if (n && !at) return errno = ENOSPC, -1;
    ssize_t done = real(file, from, (long)n > at ? (size_t)at : n);
    return at -= done > 0 ? done : 0, done;
}
static int opened(const char *name, const char *path, int flags, int mode) {
    int (*real)(const char *, int, ...) = (int (*)(const char *, int, ...))dlsym(RTLD_NEXT, name);
    return is_failed(OPEN, EIO) ? -1 : real(path, flags, mode);
}
#define OPENS(name) int name(const char *path, int flags, ...) { va_list more; va_start(more, flags); int mode = va_arg(more, int); va_end(more); return opened(#name, path, flags, mode); }
OPENS(open)
OPENS(open64)
__attribute__((constructor)) static void begin(void) {
    const char *wanted = getenv("FAULT_KIND"), *number = getenv("FAULT_AT"), *place = getenv("FAULT_TOLD");
    for (int it = 0; wanted && it <= SINGLE; it++) if (!strcmp(names[it], wanted)) kind = it;
    at = number ? atol(number) : 0, told = place ? atol(place) : 0;
}
__attribute__((destructor)) static void end(void) {
    if (told) dprintf(told, "%ld %ld %ld %ld", asked[MEMORY], asked[READ], asked[WRITE], asked[OPEN]);
}
