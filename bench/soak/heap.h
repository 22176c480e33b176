/* A heap for tests, in place of embed/heap.c: it counts, and one of its calls fails. */
#ifndef SOAK_HEAP_H
#define SOAK_HEAP_H
#include <stddef.h>

/* From now on the call of this number that takes memory fails, counted from 1; 0 is none. The count begins anew. */
void soak_fail_at(unsigned long number);

/* How many calls took memory since then, those that failed too. */
unsigned long soak_calls(void);

/* How many blocks are taken and not given back, and of how many bytes they are. */
size_t soak_blocks(void);
size_t soak_bytes(void);

#endif
