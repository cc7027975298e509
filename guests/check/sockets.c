// A question and an answer over sockets of datagrams, as a program for UDP asks them: process 0 answers, process 1 asks.
#include <arpa/inet.h>
#include <ctype.h>
#include <errno.h>
#include <fcntl.h>
#include <netdb.h>
#include <poll.h>
#include <stdio.h>
#include <string.h>
#include <sys/select.h>
#include <sys/socket.h>
#include <sys/time.h>
#include <unistd.h>

enum { PORT = 5353, ROUNDS = 3 };

static int answer(void) {
    struct sockaddr_in own = {.sin_family = AF_INET, .sin_port = htons(PORT)}, asker;
    int file = socket(AF_INET, SOCK_DGRAM, 0);
    char question[100];
    if (bind(file, (struct sockaddr *)&own, sizeof own) != 0 || bind(socket(AF_INET, SOCK_DGRAM, 0), (struct sockaddr *)&own, sizeof own) == 0)
        return 1;
    for (int i = 0; i < ROUNDS; i++) {
        socklen_t length = sizeof asker;
        ssize_t count = recvfrom(file, question, sizeof question, 0, (struct sockaddr *)&asker, &length);
        printf("asked by %s: %.*s\n", inet_ntoa(asker.sin_addr), (int)count, question);
        for (ssize_t at = 0; at < count; at++)
            question[at] = toupper(question[at]);
        if (sendto(file, question, count, 0, (struct sockaddr *)&asker, length) != count)
            return 2;
    }
    return close(file);
}

static int wait_by_select(int file) {
    fd_set files;
    FD_ZERO(&files);
    FD_SET(file, &files);
    return select(file + 1, &files, NULL, NULL, &(struct timeval){.tv_sec = 5}) == 1 && FD_ISSET(file, &files);
}

static int ask(void) {
    struct addrinfo *found, hints = {.ai_family = AF_INET, .ai_socktype = SOCK_DGRAM};
    char text[100];
    if (getaddrinfo("10.0.0.0", "5353", &hints, &found) != 0 || getaddrinfo("nowhere.example", "5353", &hints, &found) == 0)
        return 3;
    int file = socket(found->ai_family, found->ai_socktype, found->ai_protocol);
    if (connect(file, found->ai_addr, found->ai_addrlen) != 0 || fcntl(file, F_SETFL, O_NONBLOCK) != 0)
        return 4;
    freeaddrinfo(found);
    if (recv(file, text, sizeof text, 0) != -1 || errno != EAGAIN || !(fcntl(file, F_GETFL) & O_NONBLOCK))
        return 5;
    for (int i = 0; i < ROUNDS; i++) {
        int length = snprintf(text, sizeof text, "question %d", i);
        struct iovec pieces[] = {{text, 3}, {text + 3, length - 3}};
        struct msghdr message = {.msg_iov = pieces, .msg_iovlen = 2};
        if (i == 1 ? write(file, text, length) != length : sendmsg(file, &message, 0) != length)
            return 6;
        struct pollfd waits = {.fd = file, .events = POLLIN};
        if (i == 2 ? poll(&waits, 1, 5000) != 1 || waits.revents != POLLIN : !wait_by_select(file))
            return 7;
        memset(text, 0, sizeof text);
        if (recvmsg(file, &message, 0) != 3 + length - 3)
            return 8;
        printf("answered: %.*s\n", length, text);
    }
    return close(file);
}

int main(void) {
    char name[10];
    gethostname(name, sizeof name);
    return strcmp(name, "p0") == 0 ? answer() : ask();
}
