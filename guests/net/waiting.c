// select and poll, for sockets and times.
#include <errno.h>
#include <poll.h>
#include <string.h>
#include <sys/select.h>
#include <time.h>

#include "sockets.h"
#include "threads.h"

static int64_t end_after(int64_t time) {
    return time < 0 ? INT64_MAX : time == 0 ? 0 : liblog_now() + time;
}

// Whether the wait is over; otherwise waits for what may come. A time of 0 asks no clock.
static int is_over(int64_t end) {
    if (end == 0 || (end != INT64_MAX && liblog_now() >= end))
        return 1;
    wait_for_datagram(end);
    return 0;
}

static short events_of(const struct pollfd *asked) {
    if (asked->fd < 0)
        return 0;
    if (!socket_is_open(asked->fd))
        return asked->fd <= 2 ? asked->events & POLLOUT : POLLNVAL;
    return (short)((asked->events & POLLOUT) | (asked->events & POLLIN && socket_is_ready(asked->fd) ? POLLIN : 0));
}

int poll(struct pollfd *asked, nfds_t count, int timeout) {
    int64_t end = end_after(timeout);
    for (;;) {
        int found = 0;
        for (nfds_t i = 0; i < count; i++) {
            asked[i].revents = events_of(&asked[i]);
            found += asked[i].revents != 0;
        }
        if (found != 0 || is_over(end))
            return found;
    }
}

// Those of a set that are ready, into another one: how many, or -1 where one is no file.
static int ready_of(int count, const fd_set *asked, fd_set *ready, int to_read) {
    int found = 0;
    for (int file = 0; file < count; file++) {
        if (!FD_ISSET(file, asked))
            continue;
        if (!socket_is_open(file) && file > 2) {
            errno = EBADF;
            return -1;
        }
        if (to_read ? socket_is_open(file) && socket_is_ready(file) : file != 0) {
            FD_SET(file, ready);
            found++;
        }
    }
    return found;
}

static int select_until(int count, fd_set *to_read, fd_set *to_write, fd_set *failed, int64_t end) {
    fd_set nothing, reads, writes;
    FD_ZERO(&nothing);
    for (;;) {
        FD_ZERO(&reads);
        FD_ZERO(&writes);
        int may_read = ready_of(count, to_read != NULL ? to_read : &nothing, &reads, 1);
        int may_write = ready_of(count, to_write != NULL ? to_write : &nothing, &writes, 0);
        if (may_read < 0 || may_write < 0)
            return -1;
        if (may_read + may_write == 0 && !is_over(end))
            continue;
        if (to_read != NULL)
            *to_read = reads;
        if (to_write != NULL)
            *to_write = writes;
        if (failed != NULL)
            FD_ZERO(failed);
        return may_read + may_write;
    }
}

int select(int count, fd_set *restrict to_read, fd_set *restrict to_write, fd_set *restrict failed, struct timeval *restrict time) {
    return select_until(count, to_read, to_write, failed, end_after(time == NULL ? -1 : time->tv_sec * 1000 + (time->tv_usec + 999) / 1000));
}

int pselect(int count, fd_set *restrict to_read, fd_set *restrict to_write, fd_set *restrict failed, const struct timespec *restrict time,
            const sigset_t *restrict signals) {
    (void)signals;
    return select_until(count, to_read, to_write, failed, end_after(time == NULL ? -1 : time->tv_sec * 1000 + (time->tv_nsec + 999999) / 1000000));
}
