// Threads, each with a stack of its own. Every file of a guest with threads includes this in place of liblog.h.
//
// Locals whose address is taken lie on a stack in memory, and a global says where that ends. The threads of a process
// share the global, and in each call another thread may run and leave its own stack in it. So each call puts it back.
#ifndef THREADS_H
#define THREADS_H

#include "liblog.h"

#ifdef __wasm__

static inline uint32_t stack_pointer(void) {
    uint32_t place;
    __asm__ volatile(".globaltype __stack_pointer, i32\n\tglobal.get __stack_pointer\n\tlocal.set %0" : "=r"(place));
    return place;
}

static inline void set_stack_pointer(uint32_t place) {
    __asm__ volatile("local.get %0\n\tglobal.set __stack_pointer" : : "r"(place) : "memory");
}

#else

static inline uint32_t stack_pointer(void) {
    return 0;
}

static inline void set_stack_pointer(uint32_t place) {
    (void)place;
}

#endif

// Starts a thread on the `size` bytes at `stack`, which are its own from then on: its number, or -1.
int32_t thread_start(liblog_function *start, int32_t argument, void *stack, uint32_t size);

// With build --lines the call within it has the place of its caller, as where runtime.h has such a macro.
#define thread_start(start, argument, stack, size) thread_start(start, argument, stack, LIBLOG_LAST(uint32_t, size))

#define KEEP_STACK(call)                               \
    ({                                                 \
        uint32_t liblog_kept_stack = stack_pointer();  \
        __auto_type liblog_answer = (call);            \
        set_stack_pointer(liblog_kept_stack);          \
        liblog_answer;                                 \
    })
#define KEEP_STACK_OF_VOID(call)                       \
    do {                                               \
        uint32_t liblog_kept_stack = stack_pointer();  \
        (call);                                        \
        set_stack_pointer(liblog_kept_stack);          \
    } while (0)

#define liblog_exit(code) liblog_exit(LIBLOG_LAST(int32_t, code))
#define liblog_note(value) KEEP_STACK_OF_VOID(liblog_note(LIBLOG_LAST(int64_t, value)))
#define liblog_print(bytes, count) KEEP_STACK(liblog_print(bytes, LIBLOG_LAST(uint32_t, count)))
#define liblog_now() KEEP_STACK((LIBLOG_HERE, liblog_now()))
#define liblog_sleep_until(time) KEEP_STACK(liblog_sleep_until(LIBLOG_LAST(int64_t, time)))
#define liblog_random(bytes, count) KEEP_STACK(liblog_random(bytes, LIBLOG_LAST(uint32_t, count)))
#define liblog_me() KEEP_STACK((LIBLOG_HERE, liblog_me()))
#define liblog_thread() KEEP_STACK((LIBLOG_HERE, liblog_thread()))
#define liblog_send(to, bytes, count) KEEP_STACK(liblog_send(to, bytes, LIBLOG_LAST(uint32_t, count)))
#define liblog_recv(bytes, room, from) KEEP_STACK(liblog_recv(bytes, room, LIBLOG_LAST(uint32_t *, from)))
#define liblog_try_recv(bytes, room, from) KEEP_STACK(liblog_try_recv(bytes, room, LIBLOG_LAST(uint32_t *, from)))
#define liblog_spawn(start, argument) KEEP_STACK(liblog_spawn(start, LIBLOG_LAST(int32_t, argument)))
#define liblog_yield() KEEP_STACK_OF_VOID((LIBLOG_HERE, liblog_yield()))
#define liblog_join(thread) KEEP_STACK(liblog_join(LIBLOG_LAST(uint32_t, thread)))
#define liblog_lock(lock) KEEP_STACK(liblog_lock(LIBLOG_LAST(uint32_t, lock)))
#define liblog_unlock(lock) KEEP_STACK(liblog_unlock(LIBLOG_LAST(uint32_t, lock)))
#define liblog_on_signal(signal, handler) KEEP_STACK(liblog_on_signal(signal, LIBLOG_LAST(liblog_function *, handler)))

#endif
