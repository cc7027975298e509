// What ENet asks of a platform, in place of its own unix.h. A datagram is one of liblog here, and the address of a host
// the number of its process. unix.c has the functions.
#ifndef ENET_UNIX_H
#define ENET_UNIX_H

#include <stdlib.h>

#include "runtime.h"

typedef int ENetSocket;

#define ENET_SOCKET_NULL (-1)

#define ENET_HOST_TO_NET_16(value) (__builtin_bswap16(value))
#define ENET_HOST_TO_NET_32(value) (__builtin_bswap32(value))
#define ENET_NET_TO_HOST_16(value) (__builtin_bswap16(value))
#define ENET_NET_TO_HOST_32(value) (__builtin_bswap32(value))

typedef struct {
    void *data;
    size_t dataLength;
} ENetBuffer;

#define ENET_CALLBACK
#define ENET_API extern

// ENet itself waits for one socket alone.
typedef struct {
    ENetSocket socket;
} ENetSocketSet;

#endif
