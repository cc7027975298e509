// Names of hosts and services that are numbers: 10.0.0.N, or localhost; and the names p0, p1 and so on, which gethostname tells.
#include <arpa/inet.h>
#include <errno.h>
#include <net/if.h>
#include <netdb.h>
#include <stdio.h>
#include <stdlib.h>
#include <string.h>
#include <unistd.h>

#include "threads.h"

static const char INTERFACE[] = "lo0";

// The number that a text is, or -1.
static long number_of(const char *text, long most) {
    char *end;
    long number = strtol(text, &end, 10);
    return *text >= '0' && *text <= '9' && *end == '\0' && number <= most ? number : -1;
}

static int find_host(const char *name, struct in_addr *address) {
    long process = name[0] == 'p' ? number_of(name + 1, 255) : -1;
    address->s_addr = htonl(process >= 0 ? 10u << 24 | (uint32_t)process : INADDR_LOOPBACK);
    return process >= 0 || strcmp(name, "localhost") == 0 || inet_pton(AF_INET, name, address) == 1;
}

int getaddrinfo(const char *restrict host, const char *restrict service, const struct addrinfo *restrict hints, struct addrinfo **restrict found) {
    struct answer {
        struct addrinfo info;
        struct sockaddr_in address;
        char name[64];
    };
    int family = hints == NULL ? AF_UNSPEC : hints->ai_family, flags = hints == NULL ? 0 : hints->ai_flags;
    int kind = hints == NULL || hints->ai_socktype == 0 ? SOCK_DGRAM : hints->ai_socktype;
    long port = service == NULL ? 0 : number_of(service, 65535);
    struct in_addr address = {htonl(flags & AI_PASSIVE ? INADDR_ANY : INADDR_LOOPBACK)};
    if (host == NULL && service == NULL)
        return EAI_NONAME;
    if (family != AF_UNSPEC && family != AF_INET)
        return EAI_FAMILY;
    if (kind != SOCK_DGRAM)
        return EAI_SOCKTYPE;
    if (port < 0)
        return EAI_SERVICE;
    if (host != NULL && !find_host(host, &address))
        return EAI_NONAME;
    struct answer *answer = calloc(1, sizeof *answer);
    if (answer == NULL)
        return EAI_MEMORY;
    answer->address = (struct sockaddr_in){.sin_family = AF_INET, .sin_port = htons((uint16_t)port), .sin_addr = address};
    snprintf(answer->name, sizeof answer->name, "%s", host == NULL ? "localhost" : host);
    answer->info = (struct addrinfo){.ai_flags = flags, .ai_family = AF_INET, .ai_socktype = kind, .ai_protocol = IPPROTO_UDP,
        .ai_addrlen = sizeof answer->address, .ai_addr = (struct sockaddr *)&answer->address,
        .ai_canonname = flags & AI_CANONNAME ? answer->name : NULL};
    *found = &answer->info;
    return 0;
}

void freeaddrinfo(struct addrinfo *info) {
    free(info);
}

const char *gai_strerror(int error) {
    return error == EAI_SERVICE ? "a service is a number" : error == EAI_NONAME ? "a host is 10.0.0.N" : "there is no such address";
}

int getnameinfo(const struct sockaddr *restrict address, socklen_t length, char *restrict host, socklen_t host_room, char *restrict service,
                socklen_t service_room, int flags) {
    const struct sockaddr_in *in = (const struct sockaddr_in *)address;
    if (length < sizeof *in || in->sin_family != AF_INET)
        return EAI_FAMILY;
    if (flags & NI_NAMEREQD)
        return EAI_NONAME;
    if (host != NULL && host_room > 0 && inet_ntop(AF_INET, &in->sin_addr, host, host_room) == NULL)
        return EAI_OVERFLOW;
    if (service != NULL && service_room > 0 && snprintf(service, service_room, "%d", ntohs(in->sin_port)) >= (int)service_room)
        return EAI_OVERFLOW;
    return 0;
}

struct hostent *gethostbyname(const char *name) {
    static struct in_addr address;
    static char *addresses[2], *no_names[1], kept[64];
    static struct hostent host;
    if (!find_host(name, &address))
        return NULL;
    snprintf(kept, sizeof kept, "%s", name);
    addresses[0] = (char *)&address;
    host = (struct hostent){.h_name = kept, .h_aliases = no_names, .h_addrtype = AF_INET, .h_length = sizeof address, .h_addr_list = addresses};
    return &host;
}

struct servent *getservbyname(const char *name, const char *protocol) {
    (void)name, (void)protocol;
    return NULL;
}

struct servent *getservbyport(int port, const char *protocol) {
    (void)port, (void)protocol;
    return NULL;
}

in_addr_t inet_addr(const char *text) {
    struct in_addr address;
    return inet_pton(AF_INET, text, &address) == 1 ? address.s_addr : INADDR_NONE;
}

char *inet_ntoa(struct in_addr address) {
    static char text[INET_ADDRSTRLEN];
    return (char *)inet_ntop(AF_INET, &address, text, sizeof text);
}

int gethostname(char *to, size_t room) {
    if (snprintf(to, room, "p%d", (int)liblog_me()) < (int)room)
        return 0;
    errno = ENAMETOOLONG;
    return -1;
}

unsigned if_nametoindex(const char *name) {
    return strcmp(name, INTERFACE) == 0;
}

char *if_indextoname(unsigned number, char *name) {
    if (number == 1)
        return strcpy(name, INTERFACE);
    errno = ENXIO;
    return NULL;
}
