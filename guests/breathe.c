// With build --breathe clang has this called wherever a path of the program divides or joins. A thread may run 10,000,000
// instructions between two calls: this makes one in time.
#include "threads.h"

enum { STEPS = 50000 };

void __sanitizer_cov_trace_pc(void) {
    static uint32_t steps;
    if (++steps < STEPS)
        return;
    steps = 0;
    liblog_yield();
}
