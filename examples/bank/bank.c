// Three branches of a bank. Two tellers of each, threads of their own, send money from accounts here to accounts of
// the other branches. What a transfer takes from an account is on its way until the other branch has put it on one;
// it is sent again where no receipt comes, and put on the account once however often it comes. A lock is held from
// when a balance is read until its new value stands, since the journal is written in between. A signal asks for a
// statement, a note of what lies on all accounts. At the end each branch compares its balances with what was paid in
// and out.
//
// The fault: the statement takes the lock and gives it back, also where the thread that the signal stopped held it
// already. So that thread goes on without its lock, and another one changes the balance that it is about to write.
#include "../print_two.h"

enum { BRANCHES = 3, ACCOUNTS = 2, TELLERS = 2, TRANSFERS = 3 };
enum { SENT = TELLERS * TRANSFERS, FIRST_BALANCE = 100 };
enum { LEDGER = 1, STATEMENT = 5, PATIENCE = 250, LINGER = 300, GLANCE = 25 };
enum kind { TRANSFER = 1, RECEIPT };

struct message {
    uint32_t kind;
    uint32_t number;
    uint32_t account;
    uint32_t amount;
};

struct transfer {
    uint32_t to;
    uint32_t on_its_way;
    struct message message;
};

static LIBLOG_WATCHED uint32_t me;

// The balances, and what was paid into and out of all accounts of the branch.
static LIBLOG_WATCHED int64_t balances[ACCOUNTS] = {FIRST_BALANCE, FIRST_BALANCE};
static LIBLOG_WATCHED int64_t paid_in, paid_out;

// What the branch sent, how many of these have no receipt, and what it took of each other branch.
static LIBLOG_WATCHED struct transfer transfers[SENT];
static LIBLOG_WATCHED uint32_t without_receipt = SENT;
static LIBLOG_WATCHED uint8_t taken[BRANCHES][SENT];
static LIBLOG_WATCHED uint32_t taken_count;

static _Alignas(16) uint8_t take_stack[1024], remind_stack[1024], teller_stacks[TELLERS][1024];

static int64_t all_balances(void) {
    int64_t sum = 0;
    for (uint32_t account = 0; account < ACCOUNTS; account++)
        sum += balances[account];
    return sum;
}

static void write_journal(uint32_t account, int64_t amount) {
    print_two("account ", account, " changes by ", amount);
}

// Changes a balance. The journal is written first, so that no change is without its line.
static void change(uint32_t account, int64_t amount) {
    liblog_lock(LEDGER);
    int64_t balance = balances[account] + amount;
    write_journal(account, amount);
    balances[account] = balance;
    if (amount > 0)
        paid_in += amount;
    else
        paid_out -= amount;
    liblog_unlock(LEDGER);
}

// Notes what lies on all accounts. The handler of a signal, so it has no locals in memory.
static void state_balances(int32_t signal) {
    (void)signal;
    liblog_lock(LEDGER);
    liblog_note(all_balances());
    liblog_unlock(LEDGER);
}

static void send_transfer(const struct transfer *transfer) {
    liblog_send(transfer->to, &transfer->message, sizeof transfer->message);
}

// Sends money from this branch's accounts to another branch. A thread of its own.
static void serve(int32_t teller) {
    for (uint32_t turn = 0; turn < TRANSFERS; turn++) {
        uint32_t number = (uint32_t)teller * TRANSFERS + turn;
        uint32_t amount = 10 + 3 * number;
        change((me + turn) % ACCOUNTS, -(int64_t)amount);
        struct transfer *transfer = &transfers[number];
        transfer->to = (me + 1 + (uint32_t)teller) % BRANCHES;
        transfer->message = (struct message){TRANSFER, number, turn % ACCOUNTS, amount};
        transfer->on_its_way = 1;
        send_transfer(transfer);
    }
}

// Sends again what has no receipt. A thread of its own.
static void remind(int32_t patience) {
    for (;;) {
        liblog_sleep_until(liblog_now() + patience);
        for (uint32_t number = 0; number < SENT; number++)
            if (transfers[number].on_its_way)
                send_transfer(&transfers[number]);
    }
}

static void take_transfer(const struct message *message, uint32_t from) {
    if (!taken[from][message->number]) {
        change(message->account, message->amount);
        taken[from][message->number] = 1;
        taken_count++;
    }
    struct message receipt = {RECEIPT, message->number, 0, 0};
    liblog_send(from, &receipt, sizeof receipt);
}

static void take_receipt(const struct message *message) {
    if (transfers[message->number].on_its_way) {
        transfers[message->number].on_its_way = 0;
        without_receipt--;
    }
}

// Takes what the other branches send. A thread of its own.
static void take_all(int32_t unused) {
    (void)unused;
    for (;;) {
        struct message message;
        uint32_t from;
        if (liblog_recv(&message, sizeof message, &from) != sizeof message || from >= BRANCHES)
            continue;
        if (message.number >= SENT || message.account >= ACCOUNTS)
            continue;
        if (message.kind == TRANSFER)
            take_transfer(&message, from);
        if (message.kind == RECEIPT)
            take_receipt(&message);
    }
}

// Compares the balances with what was paid in and out, and says whether they agree.
static int books_agree(void) {
    int64_t wanted = ACCOUNTS * FIRST_BALANCE + paid_in - paid_out;
    int64_t found = all_balances();
    if (found == wanted)
        print_two("the books agree: ", found, " on accounts: ", ACCOUNTS);
    else
        print_two("lost update: the accounts hold ", found, ", and by the journal it is ", wanted);
    return found == wanted;
}

void _start(void) {
    me = (uint32_t)liblog_me();
    liblog_on_signal(STATEMENT, state_balances);
    thread_start(take_all, 0, take_stack, sizeof take_stack);
    thread_start(remind, PATIENCE, remind_stack, sizeof remind_stack);
    for (int32_t teller = 0; teller < TELLERS; teller++)
        thread_start(serve, teller, teller_stacks[teller], sizeof teller_stacks[teller]);

    // Each branch is sent as many transfers as it sends.
    int64_t time = liblog_now();
    while (without_receipt > 0 || taken_count < SENT)
        time = liblog_sleep_until(time + GLANCE);
    int32_t code = books_agree() ? 0 : 1;

    // The last receipts may have been lost, so the branch answers for a while.
    liblog_sleep_until(time + LINGER);
    liblog_exit(code);
}
