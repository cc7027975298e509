// A producer and a consumer that share a short queue under a lock. The numbers that the consumer takes are summed,
// and their sum is noted.
#include "liblog.h"

enum { LOCK = 1, ROOM = 4, COUNT = 40 };

static int32_t queue[ROOM];
static uint32_t put, taken;
static int64_t sum;

static int32_t number(uint32_t place) {
    return (int32_t)(place * place) - 300;
}

#ifdef __wasm__
static void produce(int32_t count) {
    for (uint32_t place = 0; place < (uint32_t)count;) {
        liblog_lock(LOCK);
        if (put - taken < ROOM)
            queue[put++ % ROOM] = number(place++);
        liblog_unlock(LOCK);
    }
}

static void consume(int32_t count) {
    for (int32_t left = count; left > 0;) {
        liblog_lock(LOCK);
        if (put != taken) {
            sum += queue[taken++ % ROOM];
            left--;
        }
        liblog_unlock(LOCK);
    }
}

void _start(void) {
    int32_t producer = liblog_spawn(produce, COUNT);
    int32_t consumer = liblog_spawn(consume, COUNT);
    liblog_join((uint32_t)producer);
    liblog_join((uint32_t)consumer);
    liblog_note(sum);
}
#else
void _start(void) {
    for (uint32_t place = 0; place < COUNT; place++)
        sum += number(place);
    liblog_note(sum);
}
#endif
