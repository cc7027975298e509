// Sorts COUNT numbers by a heap.
#include "liblog.h"

static uint32_t numbers[COUNT];

static void sift(uint32_t from, uint32_t count) {
    uint32_t number = numbers[from];
    for (uint32_t child = 2 * from + 1; child < count; child = 2 * from + 1) {
        if (child + 1 < count && numbers[child + 1] > numbers[child]) {
            child++;
        }
        if (number >= numbers[child]) {
            break;
        }
        numbers[from] = numbers[child];
        from = child;
    }
    numbers[from] = number;
}

static void fill(void) {
    uint32_t state = 2463534242u;
    for (uint32_t i = 0; i < COUNT; i++) {
        state ^= state << 13;
        state ^= state >> 17;
        state ^= state << 5;
        numbers[i] = state;
    }
}

static int is_sorted(void) {
    for (uint32_t i = 1; i < COUNT; i++) {
        if (numbers[i - 1] > numbers[i]) {
            return 0;
        }
    }
    return 1;
}

// A burst is 4,096 numbers at most.
static void rest(uint32_t i) {
    if (i % 4096 == 0) {
        liblog_yield();
    }
}

void _start(void) {
    fill();
    for (uint32_t i = COUNT / 2; i-- > 0;) {
        sift(i, COUNT);
        rest(i);
    }
    for (uint32_t count = COUNT; count-- > 1;) {
        uint32_t greatest = numbers[0];
        numbers[0] = numbers[count];
        sift(0, count);
        numbers[count] = greatest;
        rest(count);
    }
    if (!is_sorted()) {
        __builtin_trap();
    }
}
