// What the files of this folder share, and what libc/system.c asks for files that are none of the standard ones.
#ifndef KIT_SOCKETS_H
#define KIT_SOCKETS_H

#include <stdint.h>
#include <wasi/api.h>

// The numbers of sockets, above those that programs keep for files.
enum { FIRST_SOCKET = 16, SOCKETS = 64 };

// Whether a datagram is there for a socket, and whether the number is one of a socket.
int socket_is_ready(int file);
int socket_is_open(int file);

// Waits until a datagram has come or it is at least so late, by the wall time; INT64_MAX is never. Others may have taken the datagram.
void wait_for_datagram(int64_t end);

// What a socket does as a file. They are weak in libc/system.c, so guests without sockets have nothing of them.
int32_t socket_close(int32_t file);
int32_t socket_write(int32_t file, const __wasi_ciovec_t *pieces, size_t count, size_t *written);
int32_t socket_read(int32_t file, const __wasi_iovec_t *pieces, size_t count, size_t *read);
int32_t socket_stat(int32_t file, __wasi_fdstat_t *stat);
int32_t socket_set_flags(int32_t file, int32_t flags);

#endif
