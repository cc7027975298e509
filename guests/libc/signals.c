// Signals, which a schedule sends. A handler runs at a call, on the stack of the thread that ran last.
#include <errno.h>
#include <signal.h>
#include <stdlib.h>

#include "threads.h"

enum { SIGNALS = 32, DEATH = 128 };

static void (*handlers[SIGNALS])(int);

void __SIG_IGN(int number) {
    (void)number;
}

void __SIG_ERR(int number) {
    (void)number;
    abort();
}

static int is_signal(int number) {
    if (number >= 1 && number < SIGNALS)
        return 1;
    errno = EINVAL;
    return 0;
}

void (*signal(int number, void (*handler)(int)))(int) {
    if (!is_signal(number))
        return SIG_ERR;
    void (*before)(int) = handlers[number];
    handlers[number] = handler;
    liblog_on_signal(number, handler == SIG_DFL ? LIBLOG_NO_HANDLER : handler);
    return before;
}

int sigaction(int number, const struct sigaction *restrict action, struct sigaction *restrict before) {
    if (!is_signal(number))
        return -1;
    if (before != NULL)
        *before = (struct sigaction){.sa_handler = handlers[number]};
    if (action != NULL)
        signal(number, action->sa_handler);
    return 0;
}

int raise(int number) {
    if (!is_signal(number))
        return -1;
    if (handlers[number] == SIG_DFL)
        _Exit(DEATH + number);
    handlers[number](number);
    return 0;
}
