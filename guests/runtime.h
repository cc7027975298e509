// A small runtime for guests in C. guests/build links what a guest uses of it.
#ifndef RUNTIME_H
#define RUNTIME_H

#include "include/string.h"
#include "threads.h"

// How many bytes the longest number has in decimal digits.
enum { LONGEST_NUMBER = 20 };

// Writes a number in decimal digits, with a minus in front where it is below 0, and answers how many bytes it has.
uint32_t number_to_text(char *to, int64_t number);

// Prints a text up to its zero byte, as liblog_print does.
int32_t print_text(const char *text);
#define print_text(text) print_text(LIBLOG_LAST(const char *, text))

enum { RETRY_STACK = 4096 };

// A timer that acts again and again until it is stopped: it sends a request until the answer has come, say. It acts on a
// thread of its own, which never ends, so a guest with a timer ends by liblog_exit.
struct retry {
    void (*act)(void *with);
    void *with;
    // The wall time from one act to the next.
    int64_t period;
    // When it acts next, and how many times it does yet.
    int64_t next;
    uint32_t left;
    _Alignas(16) uint8_t stack[RETRY_STACK];
};

// Makes the thread of a timer, once for each: 0, or -1 where the process has all its threads.
int32_t retry_begin(struct retry *retry);
#define retry_begin(timer) retry_begin(LIBLOG_LAST(struct retry *, timer))

// Has it act so many times, first when a period has passed from now on. It acts no more once it is stopped.
void retry_set(struct retry *retry, uint32_t times);
#define retry_set(timer, times) retry_set(timer, LIBLOG_LAST(uint32_t, times))
void retry_stop(struct retry *retry);

#endif
