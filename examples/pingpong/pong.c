// Answers each number with its double, for ever.
#include "liblog.h"

void _start(void) {
    for (;;) {
        uint32_t number = 0, from;
        liblog_recv(&number, sizeof number, &from);
        number *= 2;
        liblog_send(from, &number, sizeof number);
    }
}
