// Where a guest with a main begins: thread 0 runs it, and its end is the end of the process.
#include <stdlib.h>

// main, as clang names the one without arguments and wasi-libc the way to the one with them; and the linker's, which runs the
// constructors of static objects.
int __main_void(void);
void __wasm_call_ctors(void);

void _start(void) {
    __wasm_call_ctors();
    exit(__main_void());
}
