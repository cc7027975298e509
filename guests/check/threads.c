// Threads that each keep numbers on their stack through calls in which the others run. The sum of all is noted.
#include "runtime.h"

enum { LOCK = 1, THREADS = 3, NUMBERS = 16, STACK = 2048 };

static _Alignas(16) uint8_t stacks[THREADS][STACK];
static int64_t sum;

// The number again, from its text, which lies on the stack while other threads run.
__attribute__((noinline)) static int64_t spelled(int64_t number) {
    char text[LONGEST_NUMBER];
    uint32_t count = number_to_text(text, number), start = text[0] == '-';
    int64_t value = 0;
    liblog_yield();
    for (uint32_t i = start; i < count; i++)
        value = 10 * value + text[i] - '0';
    return start ? -value : value;
}

static void work(int32_t thread) {
    int64_t numbers[NUMBERS];
    for (uint32_t i = 0; i < NUMBERS; i++) {
        liblog_yield();
        numbers[i] = spelled((thread + 1) * (int64_t)(i * i) - 7);
    }
    liblog_lock(LOCK);
    for (uint32_t i = 0; i < NUMBERS; i++)
        sum += numbers[i];
    liblog_unlock(LOCK);
}

void _start(void) {
    int32_t threads[THREADS];
    for (int32_t i = 0; i < THREADS; i++)
        threads[i] = thread_start(work, i, stacks[i], STACK);
    work(THREADS);
    for (uint32_t i = 0; i < THREADS; i++)
        liblog_join((uint32_t)threads[i]);
    liblog_note(sum);
}
