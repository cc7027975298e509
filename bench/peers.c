// EVENTS times some 1,100 instructions of WebAssembly, and a note of what they computed from all before.
#include "liblog.h"

// Not a constant for the compiler, so that the loop is the same for each count.
uint32_t events = EVENTS;
static uint32_t table[256];

static uint32_t mixed(uint32_t state) {
    for (int turn = 0; turn < 29; turn++) {
        state ^= state << 13;
        state ^= state >> 17;
        state ^= state << 5;
        uint32_t *place = &table[state >> 24];
        *place += state;
        state += *place >> 7;
    }
    return state;
}

void guest_start(void) {
    uint32_t state = 2463534242u;
    for (uint32_t left = events; left > 0; left--) {
        state = mixed(state);
        liblog_note(state);
    }
}
