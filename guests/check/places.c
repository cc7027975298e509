// Variables of many types. It notes the values that some have at its end, each beside a path to it, so that check.sh can
// read the value at the place of the path.
#include "runtime.h"

enum { PEERS = 3 };
enum mood { CALM = 1, BUSY = 70000 };

struct peer {
    int8_t distance;
    uint16_t ports[2];
    struct peer *next;
    int64_t seen;
    unsigned is_known : 1;
    unsigned tries : 5;
    int trust : 4;
};

typedef struct {
    int16_t low;
    union {
        uint32_t whole;
        uint8_t bytes[4];
    };
} split;

static LIBLOG_WATCHED struct peer peers[PEERS];
static LIBLOG_WATCHED struct peer *head;
static LIBLOG_WATCHED uint32_t only_written;
static LIBLOG_WATCHED enum mood mood;
static LIBLOG_WATCHED int32_t table[2][3];
static LIBLOG_WATCHED uint32_t place;
static LIBLOG_WATCHED struct peer **ways[2];
// clang splits the first of these into its fields, and keeps the second as a byte of 0 or 1.
static struct {
    int32_t left;
    uint32_t count;
} pair;
static int32_t step = -5;
split shared;

static void fill(uint32_t seed) {
    for (uint32_t i = 0; i < PEERS; i++) {
        struct peer peer = {.distance = (int8_t)(-3 * i - seed), .ports = {(uint16_t)(65000 + i), (uint16_t)i}, .next = head};
        peer.seen = -(int64_t)(seed + i) << 40;
        peer.is_known = i != 1;
        peer.tries = 30 + (i & 1);
        peer.trust = (int)i - 7;
        peers[i] = peer;
        head = &peers[i];
    }
    for (uint32_t i = 0; i < 6; i++)
        table[i / 3][i % 3] = (int32_t)(100 * seed - i);
    ways[1] = &head;
    shared = (split){.low = (int16_t)(seed - 9), .whole = 0x80FF1234u};
}

static uint32_t next_call(void) {
    static uint32_t calls;
    return ++calls;
}

void _start(void) {
    uint32_t seed = (uint32_t)liblog_me() + 1;
    fill(seed);
    only_written = 17 * seed;
    mood = seed == 1 ? BUSY : CALM;
    for (uint32_t i = 0; i < 4; i++) {
        pair.left -= (int32_t)liblog_now() + 3;
        pair.count += next_call();
        place = i % 2 + 1;
    }
    step = 9;
    liblog_yield();
    if (step != 9)
        liblog_note(step);
    step = -5;
    liblog_note(peers[1].distance); // peers[1].distance
    liblog_note(peers[2].ports[0]); // peers[2].ports[0]
    liblog_note(head->next->seen); // head->next->seen
    liblog_note((uint32_t)head->next); // head->next
    liblog_note(head->next->next->ports[1]); // head->next->next->ports[1]
    liblog_note((*ways[1])->distance); // ways[1][0]->distance
    liblog_note(peers[1].is_known); // peers[1].is_known
    liblog_note(peers[1].tries); // peers[1].tries
    liblog_note(head->trust); // head->trust
    liblog_note(peers[0].trust); // peers[0].trust
    liblog_note(peers[place].tries); // peers[{place}].tries
    liblog_note(only_written); // only_written
    liblog_note(mood); // mood
    liblog_note(table[1][2]); // table[1][2]
    liblog_note(table[0][place]); // table[0][{place}]
    liblog_note(pair.left); // pair.left
    liblog_note(pair.count); // places::pair.count
    liblog_note(step); // step
    liblog_note(shared.low); // shared.low
    liblog_note(shared.whole); // shared.whole
    liblog_note(shared.bytes[3]); // shared.bytes[3]
    liblog_note(next_call()); // calls
}
