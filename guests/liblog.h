// The calls that a guest makes: what it imports from the module `liblog`. Each call is an event of its log.
#ifndef LIBLOG_H
#define LIBLOG_H

#include <stdint.h>

#ifdef __wasm__
#define LIBLOG(call) __attribute__((import_module("liblog"), import_name(#call)))
#else
#define LIBLOG(call)
#endif

// Keeps a variable whole and in memory, so that the debugger can read it. Without this clang takes out what the guest
// itself never reads, and splits or shrinks what only one file uses.
#define LIBLOG_WATCHED __attribute__((used))

// The first function of a thread and that of a signal. As pointers they are places in the table.
typedef void liblog_function(int32_t);

// Takes the handler of a signal away.
#define LIBLOG_NO_HANDLER ((liblog_function *)(uintptr_t)UINT32_MAX)

// What try_recv answers where no datagram has come.
#define LIBLOG_EMPTY (-2)

// Ends the process.
LIBLOG(exit) _Noreturn void liblog_exit(int32_t code);

// Notes a number, and writes bytes: at most 60,000, as in each call below. The count, or -1 where
// the bytes do not lie in memory.
LIBLOG(note) void liblog_note(int64_t value);
LIBLOG(print) int32_t liblog_print(const void *bytes, uint32_t count);

// The wall time, now and once it is at least so late.
LIBLOG(now) int64_t liblog_now(void);
LIBLOG(sleep_until) int64_t liblog_sleep_until(int64_t time);

// Takes random bytes: their count, or -1.
LIBLOG(random) int32_t liblog_random(void *bytes, uint32_t count);

// The number of the process in its group, and of the thread in its process.
LIBLOG(me) int32_t liblog_me(void);
LIBLOG(thread) int32_t liblog_thread(void);

// Sends a datagram to a process: its length, or -1.
LIBLOG(send) int32_t liblog_send(uint32_t to, const void *bytes, uint32_t count);

// Takes the next datagram, which recv waits for, and writes no more of it than there is room for:
// how much was written, or -1. The sender is UINT32_MAX where it is not known.
LIBLOG(recv) int32_t liblog_recv(void *bytes, uint32_t room, uint32_t *from);
LIBLOG(try_recv) int32_t liblog_try_recv(void *bytes, uint32_t room, uint32_t *from);

// Starts a thread: its number, or -1.
LIBLOG(spawn) int32_t liblog_spawn(liblog_function *start, int32_t argument);

// Lets other threads run, and waits for the end of another thread: 0, or -1 where there is no such thread.
LIBLOG(yield) void liblog_yield(void);
LIBLOG(join) int32_t liblog_join(uint32_t thread);

// Takes a lock once it is free, and gives it back: 0, or -1 where the thread held it already, or did not.
LIBLOG(lock) int32_t liblog_lock(uint32_t lock);
LIBLOG(unlock) int32_t liblog_unlock(uint32_t lock);

// Has a function called for a signal from 1 to 31: 0, or -1.
LIBLOG(on_signal) int32_t liblog_on_signal(uint32_t signal, liblog_function *handler);

// With build --lines a variable points to the line of the last call, which is the one that waits for its event. By that
// address NAME.places tells the file and the function too.
#ifdef LIBLOG_LINES
extern const uint32_t *volatile liblog_last_call;
#define LIBLOG_HERE                                   \
    ({                                                \
        static const uint32_t liblog_call = __LINE__; \
        liblog_last_call = &liblog_call;              \
    })
// The last argument of a call. Calls that are made for an argument are over by then.
#define LIBLOG_LAST(type, value)      \
    ({                                \
        type liblog_last = (value);   \
        LIBLOG_HERE;                  \
        liblog_last;                  \
    })
#else
#define LIBLOG_HERE ((void)0)
#define LIBLOG_LAST(type, value) (value)
#endif

#endif
