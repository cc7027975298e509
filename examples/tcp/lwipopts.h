// What lwIP is here: TCP over IPv4 without an operating system, whose functions are called back.
#define NO_SYS 1
#define SYS_LIGHTWEIGHT_PROT 0
#define LWIP_NETCONN 0
#define LWIP_SOCKET 0

// A datagram carries a packet of IP, without Ethernet below it.
#define LWIP_ARP 0
#define IP_REASSEMBLY 0
#define IP_FRAG 0

#define LWIP_UDP 0
#define LWIP_RAW 0
#define LWIP_ICMP 0
#define LWIP_STATS 0

#define MEM_ALIGNMENT 8
#define MEM_SIZE 8192
#define PBUF_POOL_BUFSIZE 256
