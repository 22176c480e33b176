/* The heap of the WebAssembly module: what the library asks of malloc, over the module's own memory. A block has a
 * head of 16 bytes with its size, which is one of four between two powers of two. One that is given back is kept for
 * the next of its size. Beside it stands what the compiler leaves to a library: numbers of 128 bits. */
typedef __SIZE_TYPE__ size_t;
typedef unsigned __int128 wide;

#define NULL ((void *)0)
#define EXPORTED __attribute__((visibility("default")))
#define PAGE ((size_t)65536)

/* Whether there was memory, and where; where there was none, a place that is not NULL and is not used. */
struct tried {
    size_t ok;
    void *at;
};

/* Before each block; while it is free, the next free block of its size stands in `next`. */
struct head {
    size_t size;
    struct head *next;
};

extern unsigned char __heap_base; /* the linker's: where memory begins that nothing else has */
static struct head *spare[4 * 64];
static unsigned char *unused, *end; /* memory that no block has had yet */

/* The step between sizes at this one: a quarter of the power of two below it, and 16 at least. */
static size_t step_at(size_t size) {
    int log = 63 - __builtin_clzll(size);
    return log < 6 ? 16 : (size_t)1 << (log - 2);
}

/* The place in `spare` of a block's size. */
static size_t place_of(size_t size) {
    int log = 63 - __builtin_clzll(size);
    return (size_t)log * 4 + ((size >> (log - 2)) & 3);
}

/* Moves `end` up so that `size` bytes are unused, if the host gives that much. */
static int grow(size_t size) {
    size_t have = (size_t)(end - unused);
    if (have >= size) return 1;
    size_t pages = (size - have + PAGE - 1) / PAGE;
    if (__builtin_wasm_memory_grow(0, pages < 16 ? 16 : pages) == (size_t)-1) return 0;
    end = (unsigned char *)(__builtin_wasm_memory_size(0) * PAGE);
    return 1;
}

/* A block of at least `size` bytes behind its head, or NULL. */
static void *take(size_t size) {
    if (size > (size_t)-1 / 4) return NULL;
    size += sizeof(struct head);
    size_t step = step_at(size);
    size = (size + step - 1) / step * step;
    struct head **kept = &spare[place_of(size)];
    struct head *head = *kept;
    if (head) {
        *kept = head->next;
        return head + 1;
    }
    if (!unused) {
        unused = (unsigned char *)(((size_t)&__heap_base + 15) & ~(size_t)15);
        end = (unsigned char *)(__builtin_wasm_memory_size(0) * PAGE);
    }
    if (!grow(size)) return NULL;
    head = (struct head *)unused;
    unused += size;
    head->size = size;
    return head + 1;
}

static void give(void *at) {
    struct head *head = (struct head *)at - 1;
    struct head **kept = &spare[place_of(head->size)];
    head->next = *kept;
    *kept = head;
}

static struct tried tried(void *at) { return (struct tried){at != NULL, at ? at : (void *)spare}; }

/* A block of `size` bytes, aligned to `align`, which divides 16. */
struct tried rattle_alloc(size_t size, size_t align) { return tried(take(size ? size : align)); }

/* The same block with another size; its first bytes stay, and where there is no memory all of it does. */
struct tried rattle_realloc(void *at, size_t kept, size_t size, size_t align) {
    struct head *head = (struct head *)at - 1;
    if (size <= head->size - sizeof(struct head)) return tried(at);
    void *other = take(size ? size : align);
    if (!other) return tried(NULL);
    __builtin_memcpy(other, at, kept);
    give(at);
    return tried(other);
}

void rattle_dealloc(void *at) { give(at); }

/* For the host, which puts texts in and takes answers out: `size` bytes of the module's memory, or NULL; and back. */
EXPORTED void *tenphsar_take(size_t size) { return take(size); }
EXPORTED void tenphsar_give(void *at) { give(at); }

/* The product of two numbers of 128 bits, modulo 2^128. */
wide __multi3(wide left, wide right) {
    size_t low_left = (size_t)left, low_right = (size_t)right;
    size_t a = low_left & 0xffffffff, b = low_left >> 32, c = low_right & 0xffffffff, d = low_right >> 32;
    size_t middle = b * c + ((a * c) >> 32), other = a * d + (middle & 0xffffffff);
    size_t low = (other << 32) | ((a * c) & 0xffffffff);
    size_t high = b * d + (middle >> 32) + (other >> 32);
    high += low_left * (size_t)(right >> 64) + (size_t)(left >> 64) * low_right;
    return (wide)high << 64 | low;
}

/* A number of 128 bits by its halves. */
union halves {
    wide whole;
    size_t half[2];
};

/* Moved to the left by `by` bits, which are fewer than 128. */
wide __ashlti3(wide number, int by) {
    union halves from = {number}, to = {0};
    to.half[1] = by >= 64 ? from.half[0] << (by - 64) : from.half[1] << by | (by ? from.half[0] >> (64 - by) : 0);
    to.half[0] = by >= 64 ? 0 : from.half[0] << by;
    return to.whole;
}

/* Moved to the right by `by` bits, which are fewer than 128. */
wide __lshrti3(wide number, int by) {
    union halves from = {number}, to = {0};
    to.half[0] = by >= 64 ? from.half[1] >> (by - 64) : from.half[0] >> by | (by ? from.half[1] << (64 - by) : 0);
    to.half[1] = by >= 64 ? 0 : from.half[1] >> by;
    return to.whole;
}
