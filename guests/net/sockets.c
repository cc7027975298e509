// Sockets of datagrams over liblog. What is sent has the ports that it comes from and goes to in front, in two bytes each. A
// process takes its datagrams in the order in which they come, and each goes to the socket of its port, where it waits.
#include "sockets.h"

#include <arpa/inet.h>
#include <errno.h>
#include <fcntl.h>
#include <netinet/in.h>
#include <stdlib.h>
#include <string.h>
#include <sys/socket.h>
#include <sys/time.h>

#include "threads.h"

enum { LONGEST_DATAGRAM = 60000, PORTS = 4, LONGEST = LONGEST_DATAGRAM - PORTS, WAITING = 64, FIRST_PORT = 49152, LAST_PORT = 65535 };
// While it waits for a datagram or a time, a thread looks for the datagram as often.
enum { TICK = 10 };

struct packet {
    struct packet *next;
    uint32_t from;
    uint16_t port, length;
    uint8_t bytes[];
};

static struct socket {
    uint8_t is_open, is_bound, is_connected, returns_at_once;
    uint16_t port, peer_port;
    uint32_t peer;
    // How long it waits for a datagram, if not forever: 0.
    int64_t patience;
    uint32_t count;
    struct packet *first, **last;
} sockets[SOCKETS];

static uint16_t next_port = FIRST_PORT;
// The bytes of a datagram that has come or goes out, from the heap, so that guests without sockets have none.
static uint8_t *datagram;
// Whether a thread waits in `recv`. It gets what comes, and gives it to the others' sockets.
static uint8_t waits_for_all;

static struct socket *socket_of(int file) {
    if (file < FIRST_SOCKET || file >= FIRST_SOCKET + SOCKETS || !sockets[file - FIRST_SOCKET].is_open) {
        errno = EBADF;
        return NULL;
    }
    return &sockets[file - FIRST_SOCKET];
}

int socket_is_open(int file) {
    return file >= FIRST_SOCKET && file < FIRST_SOCKET + SOCKETS && sockets[file - FIRST_SOCKET].is_open;
}

// ---- Addresses ----

static void tell_address(struct sockaddr *to, socklen_t *room, uint32_t process, uint16_t port) {
    struct sockaddr_in address = {.sin_family = AF_INET, .sin_port = htons(port), .sin_addr.s_addr = htonl(10u << 24 | process)};
    if (to == NULL || room == NULL)
        return;
    memcpy(to, &address, *room < sizeof address ? *room : sizeof address);
    *room = sizeof address;
}

// The process and the port of an address: 0, or -1 where no process can have it. 0.0.0.0 and 127.0.0.1 are one's own.
static int read_address(const struct sockaddr *from, socklen_t length, uint32_t *process, uint16_t *port) {
    const struct sockaddr_in *address = (const struct sockaddr_in *)from;
    if (length < sizeof *address || address->sin_family != AF_INET) {
        errno = length < sizeof *address ? EINVAL : EAFNOSUPPORT;
        return -1;
    }
    uint32_t number = ntohl(address->sin_addr.s_addr);
    *port = ntohs(address->sin_port);
    if (number == INADDR_ANY || number >> 24 == 127) {
        *process = liblog_me();
        return 0;
    }
    *process = number & 0xff;
    if (number >> 8 == 10u << 16)
        return 0;
    errno = ENETUNREACH;
    return -1;
}

static int port_is_free(uint16_t port) {
    for (int i = 0; i < SOCKETS; i++)
        if (sockets[i].is_open && sockets[i].is_bound && sockets[i].port == port)
            return 0;
    return 1;
}

static int bind_to(struct socket *socket, uint16_t port) {
    for (int tries = 0; port == 0 && tries <= LAST_PORT - FIRST_PORT; tries++) {
        port = port_is_free(next_port) ? next_port : 0;
        next_port = next_port == LAST_PORT ? FIRST_PORT : next_port + 1;
    }
    if (port == 0 || !port_is_free(port)) {
        errno = EADDRINUSE;
        return -1;
    }
    socket->port = port;
    socket->is_bound = 1;
    return 0;
}

// ---- Datagrams that come ----

static void keep(struct socket *socket, uint32_t from, uint16_t port, const uint8_t *bytes, uint32_t length) {
    if (socket->count == WAITING || (socket->is_connected && (socket->peer != from || socket->peer_port != port)))
        return;
    struct packet *packet = malloc(sizeof *packet + length);
    if (packet == NULL)
        return;
    *packet = (struct packet){.from = from, .port = port, .length = length};
    memcpy(packet->bytes, bytes, length);
    *socket->last = packet;
    socket->last = &packet->next;
    socket->count++;
}

static uint16_t port_at(const uint8_t *bytes) {
    return (uint16_t)(bytes[0] | bytes[1] << 8);
}

// A datagram goes to the socket of its port, or nowhere.
static void give(int32_t count, uint32_t from) {
    if (count < PORTS)
        return;
    for (int i = 0; i < SOCKETS; i++)
        if (sockets[i].is_open && sockets[i].is_bound && sockets[i].port == port_at(datagram + 2))
            keep(&sockets[i], from, port_at(datagram), datagram + PORTS, (uint32_t)count - PORTS);
}

static void take_all(void) {
    uint32_t from;
    int32_t count;
    while (!waits_for_all && (count = liblog_try_recv(datagram, LONGEST_DATAGRAM, &from)) != LIBLOG_EMPTY)
        give(count, from);
}

void wait_for_datagram(int64_t end) {
    uint32_t from;
    if (end != INT64_MAX || waits_for_all) {
        int64_t now = liblog_now();
        liblog_sleep_until(end - now < TICK ? end : now + TICK);
        return;
    }
    waits_for_all = 1;
    int32_t count = liblog_recv(datagram, LONGEST_DATAGRAM, &from);
    waits_for_all = 0;
    give(count, from);
}

int socket_is_ready(int file) {
    struct socket *socket = &sockets[file - FIRST_SOCKET];
    if (socket->count == 0)
        take_all();
    return socket->count != 0;
}

static void drop_first(struct socket *socket) {
    struct packet *packet = socket->first;
    socket->first = packet->next;
    if (socket->first == NULL)
        socket->last = &socket->first;
    socket->count--;
    free(packet);
}

// ---- The calls ----

int socket(int domain, int type, int protocol) {
    int kind = type & ~(SOCK_NONBLOCK | SOCK_CLOEXEC);
    if (domain != AF_INET || kind != SOCK_DGRAM || (protocol != 0 && protocol != IPPROTO_UDP)) {
        errno = domain != AF_INET ? EAFNOSUPPORT : EPROTONOSUPPORT;
        return -1;
    }
    if (datagram == NULL && (datagram = malloc(LONGEST_DATAGRAM)) == NULL)
        return -1;
    for (int i = 0; i < SOCKETS; i++)
        if (!sockets[i].is_open) {
            sockets[i] = (struct socket){.is_open = 1, .returns_at_once = (type & SOCK_NONBLOCK) != 0, .last = &sockets[i].first};
            return FIRST_SOCKET + i;
        }
    errno = EMFILE;
    return -1;
}

int socketpair(int domain, int type, int protocol, int files[2]) {
    (void)domain, (void)type, (void)protocol, (void)files;
    errno = EOPNOTSUPP;
    return -1;
}

int bind(int file, const struct sockaddr *address, socklen_t length) {
    struct socket *socket = socket_of(file);
    uint32_t process;
    uint16_t port;
    if (socket == NULL || read_address(address, length, &process, &port) != 0)
        return -1;
    if (socket->is_bound) {
        errno = EINVAL;
        return -1;
    }
    if (process != (uint32_t)liblog_me()) {
        errno = EADDRNOTAVAIL;
        return -1;
    }
    return bind_to(socket, port);
}

int connect(int file, const struct sockaddr *address, socklen_t length) {
    struct socket *socket = socket_of(file);
    if (socket == NULL)
        return -1;
    if (length >= sizeof address->sa_family && address->sa_family == AF_UNSPEC) {
        socket->is_connected = 0;
        return 0;
    }
    if (read_address(address, length, &socket->peer, &socket->peer_port) != 0 || (!socket->is_bound && bind_to(socket, 0) != 0))
        return -1;
    socket->is_connected = 1;
    return 0;
}

// There are no streams.
int listen(int file, int backlog) {
    (void)backlog;
    if (socket_of(file) != NULL)
        errno = EOPNOTSUPP;
    return -1;
}

int accept(int file, struct sockaddr *address, socklen_t *length) {
    (void)address, (void)length;
    return listen(file, 0);
}

int getsockname(int file, struct sockaddr *address, socklen_t *length) {
    struct socket *socket = socket_of(file);
    if (socket == NULL)
        return -1;
    tell_address(address, length, liblog_me(), socket->port);
    return 0;
}

int getpeername(int file, struct sockaddr *address, socklen_t *length) {
    struct socket *socket = socket_of(file);
    if (socket == NULL)
        return -1;
    if (!socket->is_connected) {
        errno = ENOTCONN;
        return -1;
    }
    tell_address(address, length, socket->peer, socket->peer_port);
    return 0;
}

// The time that a socket waits counts; the rest is taken and changes nothing.
int setsockopt(int file, int level, int option, const void *value, socklen_t length) {
    struct socket *socket = socket_of(file);
    const struct timeval *time = value;
    if (socket == NULL)
        return -1;
    if (level == SOL_SOCKET && option == SO_RCVTIMEO && length >= sizeof *time)
        socket->patience = time->tv_sec * 1000 + (time->tv_usec + 999) / 1000;
    return 0;
}

int getsockopt(int file, int level, int option, void *value, socklen_t *length) {
    if (socket_of(file) == NULL)
        return -1;
    memset(value, 0, *length);
    if (level == SOL_SOCKET && option == SO_TYPE && *length >= sizeof(int))
        *(int *)value = SOCK_DGRAM;
    return 0;
}

int shutdown(int file, int how) {
    (void)how;
    return socket_of(file) == NULL ? -1 : 0;
}

ssize_t sendmsg(int file, const struct msghdr *message, int flags) {
    struct socket *socket = socket_of(file);
    size_t count = 0;
    (void)flags;
    if (socket == NULL)
        return -1;
    uint32_t peer = socket->peer;
    uint16_t port = socket->peer_port;
    if (message->msg_name != NULL ? read_address(message->msg_name, message->msg_namelen, &peer, &port) != 0 : !socket->is_connected) {
        errno = message->msg_name != NULL ? errno : EDESTADDRREQ;
        return -1;
    }
    if (!socket->is_bound && bind_to(socket, 0) != 0)
        return -1;
    for (int i = 0; i < message->msg_iovlen; i++)
        count += message->msg_iov[i].iov_len;
    // Of its own, since another thread may take a datagram while this one goes out.
    uint8_t *out = count > LONGEST ? NULL : malloc(PORTS + count);
    if (out == NULL) {
        errno = count > LONGEST ? EMSGSIZE : ENOBUFS;
        return -1;
    }
    uint8_t *end = out;
    *end++ = (uint8_t)socket->port, *end++ = socket->port >> 8, *end++ = (uint8_t)port, *end++ = port >> 8;
    for (int i = 0; i < message->msg_iovlen; i++) {
        memcpy(end, message->msg_iov[i].iov_base, message->msg_iov[i].iov_len);
        end += message->msg_iov[i].iov_len;
    }
    liblog_send(peer, out, PORTS + count);
    free(out);
    return (ssize_t)count;
}

ssize_t sendto(int file, const void *bytes, size_t count, int flags, const struct sockaddr *address, socklen_t length) {
    struct iovec piece = {(void *)bytes, count};
    return sendmsg(file, &(struct msghdr){.msg_name = (void *)address, .msg_namelen = length, .msg_iov = &piece, .msg_iovlen = 1}, flags);
}

ssize_t send(int file, const void *bytes, size_t count, int flags) {
    return sendto(file, bytes, count, flags, NULL, 0);
}

// Waits for a datagram of a socket: 0, or -1 where it waits no longer.
static int await(int file, struct socket *socket, int flags) {
    int waits = !socket->returns_at_once && !(flags & MSG_DONTWAIT);
    int64_t end = waits && socket->patience != 0 ? liblog_now() + socket->patience : INT64_MAX;
    while (!socket_is_ready(file)) {
        if (!waits || (end != INT64_MAX && liblog_now() >= end)) {
            errno = EAGAIN;
            return -1;
        }
        wait_for_datagram(end);
    }
    return 0;
}

ssize_t recvmsg(int file, struct msghdr *message, int flags) {
    struct socket *socket = socket_of(file);
    if (socket == NULL || (!socket->is_bound && bind_to(socket, 0) != 0) || await(file, socket, flags) != 0)
        return -1;
    struct packet *packet = socket->first;
    size_t taken = 0;
    for (int i = 0; i < message->msg_iovlen; i++) {
        size_t left = packet->length - taken, room = message->msg_iov[i].iov_len;
        memcpy(message->msg_iov[i].iov_base, packet->bytes + taken, left < room ? left : room);
        taken += left < room ? left : room;
    }
    if (message->msg_name != NULL)
        tell_address(message->msg_name, &message->msg_namelen, packet->from, packet->port);
    message->msg_controllen = 0;
    message->msg_flags = taken < packet->length ? MSG_TRUNC : 0;
    if (!(flags & MSG_PEEK))
        drop_first(socket);
    return (ssize_t)taken;
}

ssize_t recvfrom(int file, void *bytes, size_t room, int flags, struct sockaddr *address, socklen_t *length) {
    struct iovec piece = {bytes, room};
    struct msghdr message = {.msg_name = address, .msg_namelen = length == NULL ? 0 : *length, .msg_iov = &piece, .msg_iovlen = 1};
    ssize_t taken = recvmsg(file, &message, flags);
    if (taken >= 0 && length != NULL)
        *length = message.msg_namelen;
    return taken;
}

ssize_t recv(int file, void *bytes, size_t room, int flags) {
    return recvfrom(file, bytes, room, flags, NULL, NULL);
}

// ---- As a file ----

int32_t socket_close(int32_t file) {
    struct socket *socket = socket_of(file);
    if (socket == NULL)
        return __WASI_ERRNO_BADF;
    while (socket->count > 0)
        drop_first(socket);
    socket->is_open = 0;
    return 0;
}

int32_t socket_write(int32_t file, const __wasi_ciovec_t *pieces, size_t count, size_t *written) {
    ssize_t sent = sendmsg(file, &(struct msghdr){.msg_iov = (struct iovec *)pieces, .msg_iovlen = (int)count}, 0);
    *written = sent < 0 ? 0 : (size_t)sent;
    return sent < 0 ? errno : 0;
}

int32_t socket_read(int32_t file, const __wasi_iovec_t *pieces, size_t count, size_t *read) {
    ssize_t taken = recvmsg(file, &(struct msghdr){.msg_iov = (struct iovec *)pieces, .msg_iovlen = (int)count}, 0);
    *read = taken < 0 ? 0 : (size_t)taken;
    return taken < 0 ? errno : 0;
}

int32_t socket_stat(int32_t file, __wasi_fdstat_t *stat) {
    struct socket *socket = socket_of(file);
    if (socket == NULL)
        return __WASI_ERRNO_BADF;
    *stat = (__wasi_fdstat_t){
        .fs_filetype = __WASI_FILETYPE_SOCKET_DGRAM,
        .fs_flags = socket->returns_at_once ? __WASI_FDFLAGS_NONBLOCK : 0,
        .fs_rights_base = __WASI_RIGHTS_FD_READ | __WASI_RIGHTS_FD_WRITE | __WASI_RIGHTS_FD_FDSTAT_SET_FLAGS | __WASI_RIGHTS_POLL_FD_READWRITE,
    };
    return 0;
}

int32_t socket_set_flags(int32_t file, int32_t flags) {
    struct socket *socket = socket_of(file);
    if (socket == NULL)
        return __WASI_ERRNO_BADF;
    socket->returns_at_once = (flags & __WASI_FDFLAGS_NONBLOCK) != 0;
    return 0;
}
