// A loop in which the handler of a signal is called, as often as the signal comes. What it adds is noted at the end.
#include "liblog.h"

enum { SIGNAL = 5, ROUNDS = 20, SIGNALS = 7 };

static int64_t heard;

static void hear(int32_t signal) {
    heard = heard * 3 + signal;
}

#ifdef __wasm__
void _start(void) {
    liblog_on_signal(SIGNAL, hear);
    for (uint32_t round = 0; round < ROUNDS; round++)
        liblog_yield();
    liblog_on_signal(SIGNAL, LIBLOG_NO_HANDLER);
    liblog_note(heard);
}
#else
void _start(void) {
    for (uint32_t signal = 0; signal < SIGNALS; signal++)
        hear(SIGNAL);
    liblog_note(heard);
}
#endif
