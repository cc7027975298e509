// Asks pong for the double of 1, 2, .. ROUNDS, one after the other, and ends with 0 where all answers came to
// what they should. It takes each datagram for the answer to what it asked last, which is its fault: an
// answer that comes twice is taken for the next one.
#include "liblog.h"

enum { PONG = 1, ROUNDS = 3 };

void _start(void) {
    int64_t sum = 0;
    for (uint32_t round = 1; round <= ROUNDS; round++) {
        uint32_t answer = 0, from;
        liblog_send(PONG, &round, sizeof round);
        liblog_recv(&answer, sizeof answer, &from);
        liblog_note(answer);
        sum += answer;
    }
    liblog_exit(sum == ROUNDS * (ROUNDS + 1) ? 0 : 1);
}
