// Sockets of datagrams between the processes of a group: process N is 10.0.0.N. wasi-libc has the types.
#ifndef KIT_SYS_SOCKET_H
#define KIT_SYS_SOCKET_H

// wasi-libc leaves out the options of sockets with this file, and has MSG_ words of its own for what it knows.
#include_next <sys/socket.h>

#include <sys/types.h>
#include <sys/uio.h>

#ifdef __cplusplus
extern "C" {
#endif

#ifndef SO_REUSEADDR
#define SO_DEBUG 1
#define SO_REUSEADDR 2
#define SO_ERROR 4
#define SO_DONTROUTE 5
#define SO_BROADCAST 6
#define SO_SNDBUF 7
#define SO_RCVBUF 8
#define SO_KEEPALIVE 9
#define SO_LINGER 13
#define SO_REUSEPORT 15
#endif
#ifndef SO_RCVTIMEO
#define SO_RCVTIMEO 66
#define SO_SNDTIMEO 67
#endif
// wasi-libc's own names a constant that it has not.
#undef MSG_TRUNC
#define MSG_TRUNC 0x20
#ifndef MSG_DONTWAIT
#define MSG_DONTWAIT 0x40
#endif
#ifndef MSG_NOSIGNAL
#define MSG_NOSIGNAL 0x4000
#endif
#ifndef PF_INET
#define PF_UNSPEC AF_UNSPEC
#define PF_INET AF_INET
#define PF_INET6 AF_INET6
#define PF_UNIX AF_UNIX
#endif
#ifndef SOMAXCONN
#define SOMAXCONN 128
#endif

// Nothing comes beside a datagram.
#ifndef CMSG_DATA
struct cmsghdr {
    socklen_t cmsg_len;
    int cmsg_level, cmsg_type;
};
#define CMSG_ALIGN(length) (((length) + 3u) & ~3u)
#define CMSG_SPACE(length) (CMSG_ALIGN(length) + sizeof(struct cmsghdr))
#define CMSG_LEN(length) (sizeof(struct cmsghdr) + (length))
#define CMSG_DATA(header) ((unsigned char *)((struct cmsghdr *)(header) + 1))
#define CMSG_FIRSTHDR(message) ((message)->msg_controllen >= sizeof(struct cmsghdr) ? (struct cmsghdr *)(message)->msg_control : (struct cmsghdr *)0)
#define CMSG_NXTHDR(message, header) ((void)(message), (void)(header), (struct cmsghdr *)0)
#endif

int socket(int domain, int type, int protocol);
int socketpair(int domain, int type, int protocol, int files[2]);
int bind(int file, const struct sockaddr *address, socklen_t length);
int connect(int file, const struct sockaddr *address, socklen_t length);
int listen(int file, int backlog);
int accept(int file, struct sockaddr *address, socklen_t *length);
int getsockname(int file, struct sockaddr *address, socklen_t *length);
int getpeername(int file, struct sockaddr *address, socklen_t *length);
int setsockopt(int file, int level, int option, const void *value, socklen_t length);
int getsockopt(int file, int level, int option, void *value, socklen_t *length);
int shutdown(int file, int how);
ssize_t send(int file, const void *bytes, size_t count, int flags);
ssize_t sendto(int file, const void *bytes, size_t count, int flags, const struct sockaddr *address, socklen_t length);
ssize_t sendmsg(int file, const struct msghdr *message, int flags);
ssize_t recv(int file, void *bytes, size_t room, int flags);
ssize_t recvfrom(int file, void *bytes, size_t room, int flags, struct sockaddr *address, socklen_t *length);
ssize_t recvmsg(int file, struct msghdr *message, int flags);

#ifdef __cplusplus
}
#endif

#endif
