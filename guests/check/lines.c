// Threads that come to calls in functions of all kinds, for tools/checks/check_lines.py: it finds the lines by what stands in them.
#include "lines.h"
#include "runtime.h"

enum { FROM_OUTSIDE = 5, WANTED = 2, LATE = 1000, STACK = 2048 };

static _Alignas(16) uint8_t late_stack[STACK], part_stack[STACK];

static inline int32_t inlined(int32_t number) {
    liblog_note(number);
    return number + 1;
}

__attribute__((noinline)) static void wait_for(int64_t time) {
    liblog_sleep_until(time);
}

static void late(int32_t time) {
    wait_for(time);
}

static void take_signal(int32_t signal) {
    liblog_note(-signal);
}

static void act(void *with) {
    (void)with;
    liblog_yield();
}

static struct retry retry = {.act = act, .period = 10};

void _start(void) {
    uint32_t number, from;
    liblog_on_signal(FROM_OUTSIDE, take_signal);
    thread_start(late, LATE, late_stack, STACK);
    thread_start(wait_in_header, WANTED, part_stack, STACK);
    retry_begin(&retry);
    retry_set(&retry, 1);
    // The note itself is made behind those of its argument.
    liblog_note(10 * inlined(inlined(7)));
    print_text("noted\n");
    liblog_recv(&number, sizeof number, &from);
}
