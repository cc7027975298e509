// Three nodes elect a leader for each term. A node that has not heard of a leader for a while stands for the next
// term: it votes for itself and asks the others. Each node has one vote in a term, so a majority makes one leader in
// it at most, however many datagrams are lost, late or repeated.
//
// The fault: the thread that waits for a leader's silence works out the next term before it sleeps, and stands for it
// afterwards. Where it wakes late, the node may have voted in that term meanwhile, and gives its vote a second time.
#include "../print_two.h"

enum { NODES = 3, MAJORITY = 2, NOBODY = 255 };
enum { SHORTEST = 150, HEARTBEAT = 100, LAST_TIME = 2000 };
enum { STATE = 1 };
enum kind { REQUEST = 1, VOTE, LEADING };

struct message {
    uint32_t kind;
    uint32_t term;
};

static LIBLOG_WATCHED uint32_t me;

// The newest term that the node knows of, whom it voted for in it, and the leader that it heard of.
static LIBLOG_WATCHED uint32_t term, voted_for = NOBODY, leader = NOBODY;

// The term that the node leads, or 0, and the term that it stands for, or 0, with the nodes that voted for it.
static LIBLOG_WATCHED uint32_t leads_term, stands_term, voters;

// When the node stands for the next term if it hears nothing.
static LIBLOG_WATCHED int64_t deadline;

static _Alignas(16) uint8_t watch_stack[1024], beat_stack[1024];

// What follows, up to `handle`, is called by a thread that holds the lock STATE.
static void tell(uint32_t to, enum kind kind) {
    struct message message = {kind, term};
    liblog_send(to, &message, sizeof message);
}

static void tell_others(enum kind kind) {
    for (uint32_t node = 0; node < NODES; node++)
        if (node != me)
            tell(node, kind);
}

// Each wait has its own length, so that two nodes seldom stand for the same term.
static void wait_anew(void) {
    uint8_t byte = 0;
    liblog_random(&byte, sizeof byte);
    deadline = liblog_now() + SHORTEST + 2 * byte;
}

static void enter_term(uint32_t newer) {
    term = newer;
    voted_for = NOBODY;
    leader = NOBODY;
    leads_term = 0;
    stands_term = 0;
}

static void vote_for(uint32_t node) {
    voted_for = node;
    print_two("votes for node ", node, " in term ", term);
    if (node != me)
        tell(node, VOTE);
}

static void stand_for(uint32_t next_term) {
    enter_term(next_term);
    stands_term = term;
    voters = 1u << me;
    vote_for(me);
    tell_others(REQUEST);
}

static void count_vote(uint32_t from) {
    if (stands_term == 0 || leads_term != 0)
        return;
    voters |= 1u << from;
    if (__builtin_popcount(voters) < MAJORITY)
        return;
    leads_term = term;
    leader = me;
    print_two("leads term ", term, " as node ", me);
    tell_others(LEADING);
}

static void hear_leader(uint32_t from) {
    if (leads_term != 0) {
        print_two("two leaders in term ", term, ": this node, and node ", from);
        liblog_exit(1);
    }
    leader = from;
    stands_term = 0;
    wait_anew();
}

static void handle(const struct message *message, uint32_t from) {
    if (message->term < term)
        return;
    if (message->term > term)
        enter_term(message->term);
    if (message->kind == REQUEST && (voted_for == NOBODY || voted_for == from)) {
        vote_for(from);
        wait_anew();
    }
    if (message->kind == VOTE)
        count_vote(from);
    if (message->kind == LEADING)
        hear_leader(from);
}

// Stands for the next term where no leader was heard of in time. A thread of its own.
static void watch_leader(int32_t unused) {
    (void)unused;
    for (;;) {
        uint32_t next_term = term + 1;
        int64_t time = liblog_sleep_until(deadline);
        liblog_lock(STATE);
        if (time >= deadline) {
            wait_anew();
            if (leads_term == 0)
                stand_for(next_term);
        }
        liblog_unlock(STATE);
    }
}

// Tells the others of a leader, and ends the node at last. A thread of its own.
static void beat(int32_t unused) {
    (void)unused;
    int64_t time = liblog_now();
    while (time < LAST_TIME) {
        liblog_lock(STATE);
        if (leads_term != 0)
            tell_others(LEADING);
        liblog_unlock(STATE);
        time = liblog_sleep_until(time + HEARTBEAT);
    }
    print_two("ends in term ", term, " with leader ", leader);
    liblog_exit(0);
}

void _start(void) {
    me = (uint32_t)liblog_me();
    wait_anew();
    thread_start(watch_leader, 0, watch_stack, sizeof watch_stack);
    thread_start(beat, 0, beat_stack, sizeof beat_stack);
    for (;;) {
        struct message message;
        uint32_t from;
        if (liblog_recv(&message, sizeof message, &from) != sizeof message || from >= NODES)
            continue;
        liblog_lock(STATE);
        handle(&message, from);
        liblog_unlock(STATE);
    }
}
