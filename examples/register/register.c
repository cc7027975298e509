// A register that three replicas keep together. The writer has a write stored by a majority of them before it tells
// the reader of it, and the reader asks a majority for what they hold. Any two majorities have a replica in common,
// so the reader sees each write that it was told of. Requests are sent again where no answer comes, so datagrams may
// be lost, late or repeated.
//
// The fault: `ask` counts answers and not the replicas that gave them. An answer that comes twice makes a majority
// of one replica, and the reader can then find two replicas that know nothing of the write.
#include "../print_two.h"

// many.c is the same with more readers and writes.
#ifndef READERS
#define READERS 1
#define WRITES 4
#endif

enum { REPLICAS = 3, MAJORITY = 2, WRITER = 3, READER = 4, PROCESSES = READER + READERS };
enum { PATIENCE = 300, FAREWELLS = 3 };

// Each answer's kind is that of its question and one.
enum kind { STORE = 2, STORED, FETCH = 4, FETCHED, WRITTEN = 6, SEEN, END = 8 };

struct message {
    uint32_t kind;
    uint32_t request;
    uint32_t write;
    uint32_t value;
};

// Whom a question goes to: processes that follow each other in number, and how many of them have to answer.
struct group {
    uint32_t first, count, enough;
};

static const struct group replicas = {0, REPLICAS, MAJORITY};
static const struct group readers = {READER, READERS, READERS};

// What a replica holds: the number of the last write that it stored, and its value.
static LIBLOG_WATCHED uint32_t held_write, held_value;

// The last write that the writer takes for stored, and the last one that the reader was told of and that it read.
static LIBLOG_WATCHED uint32_t complete_write, told_write, read_write;

// The question that waits for answers, how many came, and the newest write among them.
static LIBLOG_WATCHED struct message question, newest;
static LIBLOG_WATCHED struct group asked;
static LIBLOG_WATCHED uint32_t answers, waiting;

static _Alignas(16) uint8_t remind_stack[512];

static int receive(struct message *message, uint32_t *from) {
    return liblog_recv(message, sizeof *message, from) == sizeof *message && *from < PROCESSES;
}

static void answer(uint32_t to, const struct message *to_what, uint32_t write, uint32_t value) {
    struct message message = {to_what->kind + 1, to_what->request, write, value};
    liblog_send(to, &message, sizeof message);
}

// A replica stores what is newer than what it holds, and says what it holds.
static void replicate(void) {
    for (;;) {
        struct message message;
        uint32_t from;
        if (!receive(&message, &from))
            continue;
        if (message.kind == END)
            liblog_exit(0);
        if (message.kind == STORE && message.write > held_write) {
            held_write = message.write;
            held_value = message.value;
        }
        if (message.kind == STORE || message.kind == FETCH)
            answer(from, &message, held_write, held_value);
    }
}

static void send_question(void) {
    for (uint32_t place = 0; place < asked.count; place++)
        liblog_send(asked.first + place, &question, sizeof question);
}

// Sends the question again where it is still the same after a while. A thread of its own.
static void remind(int32_t patience) {
    for (;;) {
        uint32_t request = question.request;
        liblog_sleep_until(liblog_now() + patience);
        if (waiting && question.request == request)
            send_question();
    }
}

// Asks a group until enough have answered. The newest write of the answers is in `newest` then.
static void ask(const struct group *group, enum kind kind, uint32_t write, uint32_t value) {
    question = (struct message){kind, question.request + 1, write, value};
    newest = (struct message){0, 0, 0, 0};
    asked = *group;
    answers = 0;
    waiting = 1;
    send_question();
    while (answers < asked.enough) {
        struct message message;
        uint32_t from;
        if (!receive(&message, &from))
            continue;
        if (message.request != question.request || message.kind != (uint32_t)kind + 1)
            continue;
        answers++;
        if (message.write > newest.write)
            newest = message;
    }
    waiting = 0;
}

static uint32_t value_of(uint32_t write) {
    return 100 + write * write;
}

// Tells all others that no write follows, several times, since nobody answers this.
static void say_end(void) {
    struct message end = {END, 0, 0, 0};
    for (uint32_t turn = 0; turn < FAREWELLS; turn++)
        for (uint32_t process = 0; process < PROCESSES; process++)
            if (process != WRITER)
                liblog_send(process, &end, sizeof end);
}

// Stores one write after the other, and lets the reader see each before the next.
static void write_all(void) {
    for (uint32_t write = 1; write <= WRITES; write++) {
        ask(&replicas, STORE, write, value_of(write));
        complete_write = write;
        print_two("write ", write, " is stored, with value ", value_of(write));
        ask(&readers, WRITTEN, write, 0);
    }
    say_end();
    liblog_exit(0);
}

// Reads the register once, and ends where a write is missing that it was told of.
static void read_register(void) {
    ask(&replicas, FETCH, 0, 0);
    read_write = newest.write;
    print_two("read write ", newest.write, ", with value ", newest.value);
    if (read_write < told_write) {
        print_two("stale: write ", told_write, " was stored before, and read was write ", read_write);
        liblog_exit(1);
    }
}

// Reads the register whenever the writer tells of a write, and says so once it has.
static void read_all(void) {
    for (;;) {
        struct message message;
        uint32_t from;
        if (!receive(&message, &from))
            continue;
        if (message.kind == END)
            liblog_exit(0);
        if (message.kind != WRITTEN)
            continue;
        if (message.write > told_write) {
            told_write = message.write;
            read_register();
        }
        answer(WRITER, &message, read_write, 0);
    }
}

void _start(void) {
    int32_t me = liblog_me();
    if (me < REPLICAS)
        replicate();
    thread_start(remind, PATIENCE, remind_stack, sizeof remind_stack);
    if (me == WRITER)
        write_all();
    read_all();
}
