// A process has one interface, number 1, which sends datagrams to the others of its group.
#ifndef KIT_NET_IF_H
#define KIT_NET_IF_H

#include <sys/socket.h>

#ifdef __cplusplus
extern "C" {
#endif

#define IFNAMSIZ 16
#define IF_NAMESIZE IFNAMSIZ
#define IFF_UP 0x1
#define IFF_BROADCAST 0x2
#define IFF_LOOPBACK 0x8
#define IFF_RUNNING 0x40
#define IFF_MULTICAST 0x1000
#define SIOCGIFADDR 0x8915
#define SIOCGIFINDEX 0x8933

struct ifreq {
    char ifr_name[IFNAMSIZ];
    union {
        struct sockaddr_storage ifr_storage;
        int ifr_ifindex;
        short ifr_flags;
    };
};
#define ifr_addr ifr_storage

unsigned if_nametoindex(const char *name);
char *if_indextoname(unsigned number, char *name);

#ifdef __cplusplus
}
#endif

#endif
