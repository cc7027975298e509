// The end of the stack, for the crate, which cannot name a global of WebAssembly.
#include "threads.h"

uint32_t liblog_stack(void) {
    return stack_pointer();
}

void liblog_set_stack(uint32_t place) {
    set_stack_pointer(place);
}
