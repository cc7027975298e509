// Takes pieces of the heap and gives them back in an order that is drawn, and notes what it finds of their bytes.
#include "runtime.h"

#include <stdlib.h>

enum { PIECES = 16, TURNS = 50, LARGEST = 4000, STEP = 61, ROOM = 60000, WHOLE = 256 * 65536 };

static struct piece {
    uint8_t *bytes;
    uint32_t size;
} pieces[PIECES];

static uint32_t chance, wrong;

static uint32_t draw(uint32_t below) {
    chance = chance * 1103515245 + 12345;
    return (chance >> 8) % below;
}

static void fill(struct piece *piece, uint32_t size) {
    wrong += (uintptr_t)piece->bytes % 16;
    piece->size = size;
    memset(piece->bytes, (int)(piece - pieces), size);
}

// Looks at the last byte and at some of those before.
static void check(const struct piece *piece, uint32_t size, uint8_t wanted) {
    for (uint32_t left = size; left > 0; left = left > STEP ? left - STEP : 0)
        wrong += piece->bytes[left - 1] != wanted;
}

static void change(struct piece *piece) {
    uint32_t size = draw(LARGEST), kept = size < piece->size ? size : piece->size;
    uint8_t number = (uint8_t)(piece - pieces);
    if (piece->bytes == NULL) {
        piece->bytes = calloc(1, size);
        check(piece, size, 0);
    } else {
        check(piece, piece->size, number);
        piece->bytes = realloc(piece->bytes, size);
        check(piece, kept, number);
    }
    fill(piece, size);
    if (draw(2) == 0)
        return;
    free(piece->bytes);
    piece->bytes = NULL;
}

// ROOM is nearly what the heap has at first, so that the memory has to grow.
static uint32_t pages_after_turns(void) {
    void *room = malloc(ROOM);
    chance = 1;
    for (uint32_t turn = 0; turn < TURNS; turn++) {
        change(&pieces[draw(PIECES)]);
        // A thread may not run for long without a call.
        liblog_yield();
    }
    for (uint32_t i = 0; i < PIECES; i++) {
        free(pieces[i].bytes);
        pieces[i].bytes = NULL;
    }
    free(room);
    return __builtin_wasm_memory_size(0);
}

void _start(void) {
    uint32_t before = __builtin_wasm_memory_size(0), pages = pages_after_turns();
    liblog_note(wrong);
    liblog_note(pages > before);
    // The same once more takes no further memory, and all that was given back is one piece again.
    liblog_note(pages_after_turns() - pages);
    void *most = malloc((pages - 2) * 65536);
    liblog_note(most != NULL && __builtin_wasm_memory_size(0) == pages);
    liblog_note(malloc(WHOLE) == NULL && malloc(SIZE_MAX) == NULL && calloc(65536, 65536) == NULL);
    abort();
}
