#include "heap.h"
#include <stdbool.h>
#include <stdlib.h>

struct tried {
    bool ok;
    void *at;
};

/* Before each block; 16 bytes, so that the block is aligned as malloc aligns. */
struct head {
    size_t size;
    size_t unused;
};

static unsigned long calls, failing;
static size_t blocks, bytes;

void soak_fail_at(unsigned long number) {
    failing = number;
    calls = 0;
}

unsigned long soak_calls(void) { return calls; }
size_t soak_blocks(void) { return blocks; }
size_t soak_bytes(void) { return bytes; }

static struct tried none(void) {
    static char nowhere;
    return (struct tried){false, &nowhere};
}

struct tried rattle_alloc(size_t size, size_t align) {
    (void)align;
    struct head *head = ++calls == failing ? NULL : malloc(size + sizeof *head);
    if (!head) return none();
    head->size = size;
    blocks++;
    bytes += size;
    return (struct tried){true, head + 1};
}

struct tried rattle_realloc(void *at, size_t kept, size_t size, size_t align) {
    (void)kept, (void)align;
    struct head *head = (struct head *)at - 1;
    size_t before = head->size;
    head = ++calls == failing ? NULL : realloc(head, size + sizeof *head);
    if (!head) return none();
    head->size = size;
    bytes += size - before;
    return (struct tried){true, head + 1};
}

void rattle_dealloc(void *at) {
    struct head *head = (struct head *)at - 1;
    blocks--;
    bytes -= head->size;
    free(head);
}
