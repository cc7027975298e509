// As many threads as a process can make. Each works on a part of some numbers; the sum of all parts is noted.
#include "liblog.h"

enum { THREADS = 63, NUMBERS = 1000 };

static int64_t parts[THREADS];

static void add(int32_t thread) {
    for (int64_t n = thread; n < NUMBERS; n += THREADS)
        parts[thread] = parts[thread] * 31 + n;
}

void _start(void) {
#ifdef __wasm__
    for (int32_t thread = 0; thread < THREADS; thread++)
        liblog_spawn(add, thread);
    for (uint32_t thread = 1; thread <= THREADS; thread++)
        liblog_join(thread);
#else
    for (int32_t thread = 0; thread < THREADS; thread++)
        add(thread);
#endif
    int64_t sum = 0;
    for (uint32_t thread = 0; thread < THREADS; thread++)
        sum += parts[thread];
    liblog_note(sum);
}
