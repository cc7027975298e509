// wasi-libc's signals, and sigaction with sets of them, which hold nothing back.
#ifndef KIT_SIGNAL_H
#define KIT_SIGNAL_H

#include_next <signal.h>

#ifndef SA_RESTART
#define SA_NOCLDSTOP 1
#define SA_RESTART 0x10000000

typedef unsigned long kit_sigset_t;
#define sigset_t kit_sigset_t

struct sigaction {
    void (*sa_handler)(int);
    sigset_t sa_mask;
    int sa_flags;
};

#ifdef __cplusplus
extern "C" {
#endif

int sigaction(int number, const struct sigaction *__restrict action, struct sigaction *__restrict before);

static inline int sigemptyset(sigset_t *set) {
    *set = 0;
    return 0;
}

static inline int sigfillset(sigset_t *set) {
    *set = ~0ul;
    return 0;
}

static inline int sigaddset(sigset_t *set, int number) {
    *set |= 1ul << (number & 31);
    return 0;
}

#ifdef __cplusplus
}
#endif
#endif

#endif
