// Calls within calls, for tools/checks/check_frames.py: 71 deep, and three deep where a process divides by its number, which may be 0.
#include "runtime.h"

enum { DEEP = 70 };

__attribute__((noinline)) static void go_down(int32_t left) {
    if (left > 0) {
        go_down(left - 1);
    }
    // It is made on the way out, so this is no loop.
    liblog_note(left);
}

__attribute__((noinline)) static int32_t divide(int32_t number, int32_t by) {
    return number / by;
}

__attribute__((noinline)) static int32_t compute(int32_t by) {
    return divide(100, by) + 1;
}

__attribute__((noinline)) static int32_t answer_for(int32_t process) {
    return 2 * compute(process);
}

void _start(void) {
    go_down(DEEP);
    liblog_note(answer_for(liblog_me()));
}
