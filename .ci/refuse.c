/* A library that is loaded before the C library. It refuses one request for memory or one system call, or kills the program in its place.

   REFUSE is `memory N`, `calls N` or `kills N`: the N-th one is refused, or the program is killed in its place. If N is 0, nothing is refused.
   The number of requests or calls is written to the file SEEN, unless the program was killed. */
#define _GNU_SOURCE
#include <dlfcn.h>
#include <errno.h>
#include <fcntl.h>
#include <signal.h>
#include <stdarg.h>
#include <stdio.h>
#include <stdlib.h>
#include <string.h>
#include <unistd.h>

extern void *__libc_malloc(size_t);
extern void *__libc_realloc(void *, size_t);

static int of_memory, kills;
static long due = -1, seen;

/* Counts a request or call, and says whether to refuse it. Nothing is counted before `begin` and after `end`. */
static int refused(int is_memory) {
    if (due < 0 || is_memory != of_memory || ++seen != due) return 0;
    if (kills) raise(SIGKILL);
    return 1;
}

__attribute__((constructor)) static void begin(void) {
    const char *told = getenv("REFUSE");
    of_memory = told && !strncmp(told, "memory ", 7);
    kills = told && !strncmp(told, "kills ", 6);
    due = told ? atol(strchr(told, ' ') + 1) : 0;
}

__attribute__((destructor)) static void end(void) {
    long many = seen;
    due = -1;
    FILE *file = fopen(getenv("SEEN"), "w");
    if (file) {
        fprintf(file, "%ld", many);
        fclose(file);
    }
}

void *malloc(size_t size) {
    if (refused(1)) return errno = ENOMEM, NULL;
    return __libc_malloc(size);
}

void *realloc(void *old, size_t size) {
    if (refused(1)) return errno = ENOMEM, NULL;
    return __libc_realloc(old, size);
}

#define CALL(type, name, takes, gives)                            \
    type name takes {                                             \
        if (refused(0)) return errno = EIO, -1;                   \
        type(*real) takes = dlsym(RTLD_NEXT, #name);              \
        return real gives;                                        \
    }

CALL(ssize_t, read, (int file, void *to, size_t size), (file, to, size))
CALL(ssize_t, write, (int file, const void *from, size_t size), (file, from, size))
CALL(int, fsync, (int file), (file))
CALL(int, fdatasync, (int file), (file))
CALL(int, ftruncate, (int file, off_t size), (file, size))
CALL(int, rename, (const char *from, const char *to), (from, to))
CALL(int, flock, (int file, int how), (file, how))
CALL(off_t, lseek, (int file, off_t at, int from), (file, at, from))
CALL(int, fchmod, (int file, mode_t mode), (file, mode))
CALL(int, statx, (int at, const char *path, int flags, unsigned mask, void *to), (at, path, flags, mask, to))

int open(const char *path, int flags, ...) {
    va_list more;
    va_start(more, flags);
    mode_t mode = va_arg(more, mode_t);
    va_end(more);
    if (refused(0)) return errno = EIO, -1;
    int (*real)(const char *, int, ...) = dlsym(RTLD_NEXT, "open");
    return real(path, flags, mode);
}
