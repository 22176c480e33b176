/* What the library asks of malloc: a program that links libtenphsar.a links this too. */
#include <stdbool.h>
#include <stddef.h>
#include <stdlib.h>

/* Whether there was memory, and where; where there was none, a place that is not NULL and is not used. */
struct tried {
    bool ok;
    void *at;
};

static struct tried tried(void *at) {
    static char nowhere;
    return (struct tried){at != NULL, at ? at : &nowhere};
}

/* A block of `size` bytes, aligned to `align`, which divides 16, as malloc aligns. */
struct tried rattle_alloc(size_t size, size_t align) { return tried(malloc(size ? size : align)); }

/* The same block with another size; its first bytes stay, and where there is no memory all of it does. */
struct tried rattle_realloc(void *at, size_t kept, size_t size, size_t align) {
    (void)kept;
    return tried(realloc(at, size ? size : align));
}

void rattle_dealloc(void *at) { free(at); }
