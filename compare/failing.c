/* Loaded before the C library: the call of number FAIL_ALLOC that takes memory fails, and so does the read or the write of
   number FAIL_READ or FAIL_WRITE. A read gives at most READ_SIZE bytes. With COUNT_FILE the numbers of these calls are written
   there at the end. */
#define _GNU_SOURCE
#include <dlfcn.h>
#include <errno.h>
#include <stddef.h>
#include <stdio.h>
#include <stdlib.h>
#include <sys/types.h>
#include <sys/uio.h>
#include <unistd.h>

extern void *__libc_malloc(size_t);
extern void *__libc_calloc(size_t, size_t);
extern void *__libc_realloc(void *, size_t);
extern void *__libc_memalign(size_t, size_t);

static unsigned long allocs, reads, writes, fail_alloc, fail_read, fail_write, read_size;
static int on;

static unsigned long number(const char *name) {
    const char *text = getenv(name);
    return text ? strtoul(text, 0, 10) : 0;
}

__attribute__((constructor)) static void begin(void) {
    fail_alloc = number("FAIL_ALLOC");
    fail_read = number("FAIL_READ");
    fail_write = number("FAIL_WRITE");
    read_size = number("READ_SIZE");
    on = 1;
}

__attribute__((destructor)) static void end(void) {
    const char *file = getenv("COUNT_FILE");
    on = 0;
    if (file) {
        FILE *out = fopen(file, "w");
        if (out) {
            fprintf(out, "%lu %lu %lu\n", allocs, reads, writes);
            fclose(out);
        }
    }
}

static int fails(void) {
    if (!on) return 0;
    allocs++;
    if (allocs == fail_alloc) { errno = ENOMEM; return 1; }
    return 0;
}

void *malloc(size_t n) { return fails() ? NULL : __libc_malloc(n); }
void *calloc(size_t n, size_t k) { return fails() ? NULL : __libc_calloc(n, k); }
void *realloc(void *p, size_t n) { return n && fails() ? NULL : __libc_realloc(p, n); }
void *memalign(size_t a, size_t n) { return fails() ? NULL : __libc_memalign(a, n); }
void *aligned_alloc(size_t a, size_t n) { return fails() ? NULL : __libc_memalign(a, n); }
int posix_memalign(void **to, size_t a, size_t n) {
    void *p;
    if (fails()) return ENOMEM;
    p = __libc_memalign(a, n);
    if (!p) return ENOMEM;
    *to = p;
    return 0;
}

ssize_t read(int fd, void *to, size_t n) {
    static ssize_t (*real)(int, void *, size_t);
    if (!real) real = (ssize_t (*)(int, void *, size_t))dlsym(RTLD_NEXT, "read");
    if (on && fd == 0 && ++reads == fail_read) { errno = EIO; return -1; }
    return real(fd, to, fd == 0 && read_size && read_size < n ? read_size : n);
}

ssize_t write(int fd, const void *from, size_t n) {
    static ssize_t (*real)(int, const void *, size_t);
    if (!real) real = (ssize_t (*)(int, const void *, size_t))dlsym(RTLD_NEXT, "write");
    if (on && fd == 1 && ++writes == fail_write) { errno = EIO; return -1; }
    return real(fd, from, n);
}
