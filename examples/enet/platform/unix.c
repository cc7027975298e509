// ENet's functions of a platform, by the calls of liblog. A process has one mailbox, so its one socket is number 0.
#include "enet/enet.h"

enum { PORT = 1, LARGEST_DATAGRAM = ENET_PROTOCOL_MAXIMUM_MTU, GLANCE = 20 };

int enet_initialize(void) {
    return 0;
}

void enet_deinitialize(void) {
}

enet_uint32 enet_host_random_seed(void) {
    enet_uint32 seed;
    liblog_random(&seed, sizeof seed);
    return seed;
}

enet_uint32 enet_time_get(void) {
    return (enet_uint32)liblog_now();
}

ENetSocket enet_socket_create(ENetSocketType type) {
    return type == ENET_SOCKET_TYPE_DATAGRAM ? 0 : ENET_SOCKET_NULL;
}

int enet_socket_bind(ENetSocket socket, const ENetAddress *address) {
    (void)socket;
    (void)address;
    return 0;
}

int enet_socket_get_address(ENetSocket socket, ENetAddress *address) {
    (void)socket;
    *address = (ENetAddress){(enet_uint32)liblog_me(), PORT};
    return 0;
}

int enet_socket_set_option(ENetSocket socket, ENetSocketOption option, int value) {
    (void)socket;
    (void)option;
    (void)value;
    return 0;
}

void enet_socket_destroy(ENetSocket socket) {
    (void)socket;
}

// One datagram of all buffers: its length, or 0 where it is too long for one, as if the socket had no room now.
int enet_socket_send(ENetSocket socket, const ENetAddress *address, const ENetBuffer *buffers, size_t count) {
    enet_uint8 datagram[LARGEST_DATAGRAM];
    size_t length = 0;
    (void)socket;
    for (size_t i = 0; i < count; i++) {
        if (buffers[i].dataLength > sizeof datagram - length)
            return 0;
        memcpy(datagram + length, buffers[i].data, buffers[i].dataLength);
        length += buffers[i].dataLength;
    }
    return liblog_send(address->host, datagram, length);
}

// The next datagram, or 0 where none has come. ENet gives one buffer.
int enet_socket_receive(ENetSocket socket, ENetAddress *address, ENetBuffer *buffers, size_t count) {
    (void)socket;
    (void)count;
    address->port = PORT;
    int32_t length = liblog_try_recv(buffers->data, buffers->dataLength, &address->host);
    return length == LIBLOG_EMPTY ? 0 : length;
}

// No call waits for a datagram and for a time, so this waits for a short time, and then ENet looks for a datagram.
int enet_socket_wait(ENetSocket socket, enet_uint32 *condition, enet_uint32 timeout) {
    (void)socket;
    liblog_sleep_until(liblog_now() + (timeout < GLANCE ? timeout : GLANCE));
    *condition = ENET_SOCKET_WAIT_RECEIVE;
    return 0;
}
