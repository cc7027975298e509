#include "threads.h"

#ifdef LIBLOG_LINES
const uint32_t *volatile liblog_last_call;
#endif

// What a thread begins with. It stands above its stack.
struct first {
    liblog_function *start;
    int32_t argument;
};

// Has no locals in memory, since the stack that it is called with is another thread's.
static void begin(int32_t place) {
    const struct first *first = (const struct first *)place;
    set_stack_pointer((uint32_t)place);
    first->start(first->argument);
#ifdef LIBLOG_LINES
    // It has ended, so it stands nowhere.
    liblog_last_call = 0;
#endif
}

int32_t (thread_start)(liblog_function *start, int32_t argument, void *stack, uint32_t size) {
    // A stack ends at a multiple of 16, as clang has it.
    uint32_t top = ((uint32_t)stack + size - sizeof(struct first)) & ~15u;
    *(struct first *)top = (struct first){start, argument};
    return KEEP_STACK((liblog_spawn)(begin, (int32_t)top));
}
