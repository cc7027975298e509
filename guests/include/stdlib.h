// What the kit has of the C library's stdlib.h; guests/build --libc has more of it.
#ifndef KIT_STDLIB_H
#define KIT_STDLIB_H

#include <stddef.h>

// Memory from the heap, at a multiple of 16, or a null pointer where there is no more: the memory of a process grows to
// 256 pages at most.
void *malloc(size_t size);
void *calloc(size_t count, size_t size);
void *realloc(void *memory, size_t size);

// Gives it back. That the pointer came from the heap, and was not given back before, nothing checks.
void free(void *memory);

// Ends the process as a trap, `unreachable`.
_Noreturn void abort(void);

#endif
