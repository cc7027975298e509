// Asks process 1 for the doubles of 1, 2, .. ROUNDS, each again and again until its answer has come, and notes them.
#include "runtime.h"

enum { ANSWERER = 1, ROUNDS = 5, PERIOD = 100, TRIES = 1000 };

struct message {
    uint32_t round;
    int32_t number;
};

static LIBLOG_WATCHED uint32_t round, asked;

static void ask(void *with) {
    char text[LONGEST_NUMBER];
    struct message question = {round, (int32_t)round};
    (void)with;
    liblog_print(text, number_to_text(text, (int64_t)++asked));
    liblog_send(ANSWERER, &question, sizeof question);
}

static struct retry retry = {.act = ask, .period = PERIOD};

static int32_t answer_of_round(void) {
    struct message answer = {0, 0};
    uint32_t from;
    while (answer.round != round || from != ANSWERER)
        liblog_recv(&answer, sizeof answer, &from);
    return answer.number;
}

void _start(void) {
    retry_begin(&retry);
    for (round = 1; round <= ROUNDS; round++) {
        ask(0);
        retry_set(&retry, TRIES);
        int32_t answer = answer_of_round();
        retry_stop(&retry);
        liblog_note(answer);
    }
    liblog_exit(0);
}
