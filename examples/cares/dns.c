// A client that looks up names by c-ares, and two name servers. A server answers each third question with an empty datagram, as
// anybody on the way can send one, and after it with the answer.
#include <arpa/inet.h>
#include <netdb.h>
#include <stdint.h>
#include <stdio.h>
#include <string.h>
#include <sys/select.h>
#include <sys/socket.h>
#include <unistd.h>

#include "ares.h"
#include "liblog.h"

enum { SERVERS = 2, DNS_PORT = 53, NAMES = 9, HEAD = 12, LARGEST = 512, ANSWER = 16 };

// How many names were found, and how many were not.
static LIBLOG_WATCHED uint32_t found, failed;
// The client's: all that c-ares keeps is behind it.
static ares_channel channel;

// ---- A name server ----

// The end of the question that a datagram has, or 0.
static size_t question_end(const uint8_t *bytes, size_t count) {
    size_t at = HEAD;
    while (at < count && bytes[at] != 0)
        at += 1u + bytes[at];
    return at + 5 <= count ? at + 5 : 0;
}

// Makes of a question its answer: the address 10.1.0.N of the name hostN.
static size_t answer(uint8_t *bytes, size_t end) {
    static const uint8_t record[ANSWER] = {0xc0, HEAD, 0, 1, 0, 1, 0, 0, 0, 60, 0, 4, 10, 1, 0, 0};
    unsigned number = 0;
    sscanf((const char *)bytes + HEAD + 1, "host%u", &number);
    bytes[2] |= 0x80;
    bytes[7] = 1;
    // Nothing of what comes after the question is in the answer.
    memset(bytes + 8, 0, 4);
    memcpy(bytes + end, record, ANSWER);
    bytes[end + ANSWER - 1] = (uint8_t)number;
    return end + ANSWER;
}

static int serve(void) {
    struct sockaddr_in own = {.sin_family = AF_INET, .sin_port = htons(DNS_PORT)}, from;
    int file = socket(AF_INET, SOCK_DGRAM, 0);
    uint8_t bytes[LARGEST];
    if (bind(file, (struct sockaddr *)&own, sizeof own) != 0)
        return 2;
    for (uint32_t questions = 1;; questions++) {
        socklen_t length = sizeof from;
        ssize_t count = recvfrom(file, bytes, sizeof bytes - ANSWER, 0, (struct sockaddr *)&from, &length);
        size_t end = count > HEAD ? question_end(bytes, (size_t)count) : 0;
        if (end == 0)
            continue;
        if (questions % 3 == 0)
            sendto(file, "", 0, 0, (struct sockaddr *)&from, length);
        sendto(file, bytes, answer(bytes, end), 0, (struct sockaddr *)&from, length);
    }
}

// ---- The client ----

static void on_host(void *name, int status, int timeouts, struct hostent *host) {
    if (status == ARES_SUCCESS) {
        char text[INET_ADDRSTRLEN];
        found++;
        printf("%s is %s\n", (char *)name, inet_ntop(AF_INET, host->h_addr_list[0], text, sizeof text));
    } else {
        failed++;
        printf("%s: %s after %d timeouts\n", (char *)name, ares_strerror(status), timeouts);
    }
}

static void wait_for_answers(void) {
    for (;;) {
        fd_set to_read, to_write;
        struct timeval time, *least;
        FD_ZERO(&to_read);
        FD_ZERO(&to_write);
        int count = ares_fds(channel, &to_read, &to_write);
        if (count == 0)
            return;
        least = ares_timeout(channel, NULL, &time);
        select(count, &to_read, &to_write, NULL, least);
        ares_process(channel, &to_read, &to_write);
    }
}

static int look_up(void) {
    static char names[NAMES][16];
    struct ares_options options = {.timeout = 200, .tries = 3, .lookups = "b", .flags = ARES_FLAG_NOSEARCH};
    if (ares_library_init(ARES_LIB_INIT_ALL) != ARES_SUCCESS ||
        ares_init_options(&channel, &options, ARES_OPT_TIMEOUTMS | ARES_OPT_TRIES | ARES_OPT_LOOKUPS | ARES_OPT_FLAGS) != ARES_SUCCESS ||
        ares_set_servers_csv(channel, "10.0.0.0,10.0.0.1") != ARES_SUCCESS)
        return 3;
    for (int i = 0; i < NAMES; i++) {
        snprintf(names[i], sizeof names[i], "host%d.example", i);
        ares_gethostbyname(channel, names[i], AF_INET, on_host, names[i]);
        // Three at a time.
        if (i % 3 == 2)
            wait_for_answers();
    }
    printf("found %u, failed %u\n", found, failed);
    return failed != 0;
}

int main(void) {
    return liblog_me() < SERVERS ? serve() : look_up();
}
