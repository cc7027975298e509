// The heap. It lies behind the guest's variables and stack, where the linker says, and the memory grows for it. None of
// its functions makes a call of the library, so no other thread runs in the midst of them.
#include "include/stdlib.h"
#include "include/string.h"

#include <stdint.h>

enum { PAGE = 65536, MOST_PAGES = 256 };

// The head of a piece of the heap. Those that are free are in a list, in order of their addresses.
struct piece {
    _Alignas(16) struct piece *next;
    // How long it is, in heads, with its own.
    size_t length;
};

// The linker's: where the heap begins.
extern uint8_t __heap_base;

static struct piece *first_free;
static uintptr_t heap_end;

// Makes a free piece and the next one a single piece where no byte is between them.
static void join(struct piece *piece) {
    struct piece *next = piece->next;
    if (next == NULL || piece + piece->length != next)
        return;
    piece->length += next->length;
    piece->next = next->next;
}

static void put(struct piece *piece) {
    struct piece *before = NULL, *next = first_free;
    while (next != NULL && next < piece) {
        before = next;
        next = next->next;
    }
    piece->next = next;
    if (before == NULL)
        first_free = piece;
    else
        before->next = piece;
    join(piece);
    if (before != NULL)
        join(before);
}

// Takes the end of the first free piece that is long enough, or all of it.
static struct piece *take(size_t length) {
    struct piece **place = &first_free;
    while (*place != NULL && (*place)->length < length)
        place = &(*place)->next;
    struct piece *found = *place;
    if (found == NULL)
        return NULL;
    if (found->length == length) {
        *place = found->next;
        return found;
    }
    found->length -= length;
    found += found->length;
    found->length = length;
    return found;
}

// Has the heap reach the end of the memory, which grows where it is too short: 0, or -1 where it may not.
static int grow(size_t length) {
    if (heap_end == 0)
        heap_end = ((uintptr_t)&__heap_base + sizeof(struct piece) - 1) / sizeof(struct piece) * sizeof(struct piece);
    uintptr_t wanted = heap_end + length * sizeof(struct piece);
    uintptr_t pages = __builtin_wasm_memory_size(0), wanted_pages = (wanted + PAGE - 1) / PAGE;
    if (wanted_pages > pages) {
        if (__builtin_wasm_memory_grow(0, wanted_pages - pages) == SIZE_MAX)
            return -1;
        pages = wanted_pages;
    }
    struct piece *piece = (struct piece *)heap_end;
    heap_end = pages * PAGE;
    piece->length = (heap_end - (uintptr_t)piece) / sizeof(struct piece);
    put(piece);
    return 0;
}

void *malloc(size_t size) {
    if (size > PAGE * MOST_PAGES)
        return NULL;
    size_t length = 1 + (size + sizeof(struct piece) - 1) / sizeof(struct piece);
    struct piece *piece = take(length);
    if (piece == NULL && grow(length) == 0)
        piece = take(length);
    return piece == NULL ? NULL : piece + 1;
}

void free(void *memory) {
    if (memory != NULL)
        put((struct piece *)memory - 1);
}

void *calloc(size_t count, size_t size) {
    if (size != 0 && count > SIZE_MAX / size)
        return NULL;
    void *memory = malloc(count * size);
    return memory == NULL ? NULL : memset(memory, 0, count * size);
}

void *realloc(void *memory, size_t size) {
    void *moved = malloc(size);
    if (memory == NULL || moved == NULL)
        return moved;
    size_t old = (((struct piece *)memory - 1)->length - 1) * sizeof(struct piece);
    memcpy(moved, memory, old < size ? old : size);
    free(memory);
    return moved;
}

void abort(void) {
    __builtin_trap();
}
