// Byte streams over datagrams that are lost, repeated and late: two from `a` to `b`, two back, and one to `store`, to which
// `a` hands on what it reads of the first of those from `b`. Each datagram carries a chunk, a piece of one stream with the
// number of bytes before it. A writer sends on while no more than a window is without a receipt, and sends that window again
// where no receipt comes for a while; the pieces may then be other ones than before. A reader keeps what comes too early,
// reads what it has in order, and says in a receipt how far it is.
//
// The streams' counts are kept here by the guests themselves: what `friday streams` reports has to be the same.
#include "../print_two.h"

enum { A, B, STORE, PROCESSES };

// In bytes: the longest piece and the window. In the wall time: how long a process waits, how long without a receipt, and how
// long it answers at the end; and how many bytes a stream gets in a unit of it.
enum { PIECE = 24, WINDOW = 4 * PIECE, TURN = 10, PATIENCE = 60, LINGER = 400, RATE = 2 };

struct __attribute__((packed)) chunk {
    uint8_t magic[4];
    uint16_t stream;
    uint64_t offset;
    uint8_t bytes[PIECE];
};

enum { HEAD = sizeof(struct chunk) - PIECE };

// How far the reader of a stream is.
struct __attribute__((packed)) receipt {
    uint8_t magic[4];
    uint16_t stream;
    uint64_t read;
};

static const uint8_t chunk_magic[4] = "STRM", receipt_magic[4] = "READ";

static const struct stream {
    uint32_t from, to;
    uint16_t number;
    uint32_t length;
} streams[] = {{A, B, 1, 400}, {A, B, 2, 150}, {A, STORE, 1, 200}, {B, A, 1, 200}, {B, A, 2, 100}};

enum { STREAMS = sizeof streams / sizeof *streams, COPY = 2, ORIGINAL = 3, ORIGINAL_LENGTH = 200 };

static uint32_t me;
static int64_t began;

// Of each stream: what its writer wrote and knows to be read, and what its reader read.
static LIBLOG_WATCHED uint64_t written[STREAMS], confirmed[STREAMS], taken[STREAMS];

// When the writer sends its window again. What came too early: the byte, and whether it is there.
static int64_t again_at[STREAMS];
static uint8_t early[STREAMS][WINDOW], is_early[STREAMS][WINDOW];

// What was read of the stream that is handed on.
static uint8_t original[ORIGINAL_LENGTH];

static uint64_t lesser(uint64_t one, uint64_t other) {
    return one < other ? one : other;
}

// What stands in a stream at this place.
static uint8_t byte_of(uint32_t place, uint64_t at) {
    if (place == COPY)
        return original[at];
    return (uint8_t)('a' + (at + 5 * place) % 26);
}

// How many bytes of a stream its writer has by now.
static uint64_t made(uint32_t place, int64_t now) {
    uint64_t count = place == COPY ? taken[ORIGINAL] : (uint64_t)(now - began) * RATE;
    return lesser(count, streams[place].length);
}

// Sends the piece from this place on, up to an end: how many bytes it has.
static uint64_t send_piece(uint32_t place, uint64_t at, uint64_t end) {
    struct chunk chunk = {.stream = streams[place].number, .offset = at};
    uint64_t count = lesser(PIECE, end - at);
    memcpy(chunk.magic, chunk_magic, sizeof chunk_magic);
    for (uint64_t i = 0; i < count; i++)
        chunk.bytes[i] = byte_of(place, at + i);
    liblog_send(streams[place].to, &chunk, (uint32_t)(HEAD + count));
    return count;
}

// Sends what has no receipt again, where it is time, and what the window has room for.
static void write_stream(uint32_t place, int64_t now) {
    if (confirmed[place] < written[place] && now >= again_at[place]) {
        for (uint64_t at = confirmed[place]; at < written[place];)
            at += send_piece(place, at, written[place]);
        again_at[place] = now + PATIENCE;
    }
    uint64_t end = lesser(made(place, now), confirmed[place] + WINDOW);
    while (written[place] < end) {
        written[place] += send_piece(place, written[place], end);
        again_at[place] = now + PATIENCE;
    }
}

// The stream of this number from one process to another, or STREAMS where there is none.
static uint32_t place_of(uint32_t from, uint32_t to, uint16_t number) {
    uint32_t place = 0;
    while (place < STREAMS && (streams[place].from != from || streams[place].to != to || streams[place].number != number))
        place++;
    return place;
}

// Reads the next byte of a stream.
static void read_byte(uint32_t place, uint8_t byte) {
    if (place == ORIGINAL)
        original[taken[place]] = byte;
    else if (place != COPY && byte != byte_of(place, taken[place]))
        liblog_exit(1);
    taken[place]++;
}

static void take_chunk(const struct chunk *chunk, uint32_t count, uint32_t from) {
    uint32_t place = place_of(from, me, chunk->stream);
    if (place == STREAMS)
        return;
    for (uint32_t i = 0; i < count; i++) {
        uint64_t at = chunk->offset + i;
        if (at < taken[place] || at >= taken[place] + WINDOW)
            continue;
        early[place][at % WINDOW] = chunk->bytes[i];
        is_early[place][at % WINDOW] = 1;
    }
    while (is_early[place][taken[place] % WINDOW]) {
        is_early[place][taken[place] % WINDOW] = 0;
        read_byte(place, early[place][taken[place] % WINDOW]);
    }
    struct receipt receipt = {.stream = chunk->stream, .read = taken[place]};
    memcpy(receipt.magic, receipt_magic, sizeof receipt_magic);
    liblog_send(from, &receipt, sizeof receipt);
}

static void take_receipt(const struct receipt *receipt, uint32_t from) {
    uint32_t place = place_of(me, from, receipt->stream);
    if (place < STREAMS && receipt->read > confirmed[place])
        confirmed[place] = receipt->read;
}

static void take_all(void) {
    union {
        struct chunk chunk;
        struct receipt receipt;
    } room;
    uint32_t from;
    int32_t count;
    while ((count = liblog_try_recv(&room, sizeof room, &from)) != LIBLOG_EMPTY) {
        if (count >= HEAD && memcmp(room.chunk.magic, chunk_magic, sizeof chunk_magic) == 0)
            take_chunk(&room.chunk, (uint32_t)count - HEAD, from);
        else if (count == sizeof room.receipt && memcmp(room.receipt.magic, receipt_magic, sizeof receipt_magic) == 0)
            take_receipt(&room.receipt, from);
    }
}

// Whether all that this process writes has its receipt, and all that it reads was read.
static int is_through(void) {
    for (uint32_t place = 0; place < STREAMS; place++) {
        if (streams[place].from == me && confirmed[place] < streams[place].length)
            return 0;
        if (streams[place].to == me && taken[place] < streams[place].length)
            return 0;
    }
    return 1;
}

static uint64_t sum_of(const uint64_t *counts) {
    uint64_t sum = 0;
    for (uint32_t place = 0; place < STREAMS; place++)
        sum += counts[place];
    return sum;
}

void _start(void) {
    me = (uint32_t)liblog_me();
    int64_t now = began = liblog_now(), until = INT64_MAX;
    while (now < until) {
        take_all();
        for (uint32_t place = 0; place < STREAMS; place++)
            if (streams[place].from == me)
                write_stream(place, now);
        // The last receipts may have been lost, so the process answers for a while.
        if (until == INT64_MAX && is_through())
            until = now + LINGER;
        now = liblog_sleep_until(now + TURN);
    }
    print_two("wrote ", (int64_t)sum_of(written), " bytes and read ", (int64_t)sum_of(taken));
    liblog_exit(0);
}
