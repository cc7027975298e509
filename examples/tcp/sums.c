// Three processes over TCP by lwIP: a server and two clients. A client asks the server to add six numbers, each by a line such as
// `add 3`, a line every turn, and the server answers each by the sum. The client ends when all are answered.
//
// Process N is 10.0.0.N. lwIP makes packets of IP, and each goes as a datagram of liblog. What the network loses, repeats or delays is
// lwIP's to mend.
#include <stdio.h>

#include "liblog.h"
#include "lwip/init.h"
#include "lwip/ip.h"
#include "lwip/netif.h"
#include "lwip/tcp.h"
#include "lwip/timeouts.h"

enum { SERVER, PROCESSES = 3, PORT = 7000, MTU = 1500 };
enum { TURN = 100, DEADLINE = 12000, LINGER = 1000 };
enum { REQUESTS = 6, LONGEST = 16 };

// The wall time of this turn: lwIP asks for it often, and each call would be an event.
static uint32_t now;
// When the process ends.
static uint32_t end = DEADLINE;

// A client's: its connection, how many requests it has made and how many are answered, and how many of their bytes the server's TCP
// has acknowledged.
static LIBLOG_WATCHED struct tcp_pcb *connection;
static LIBLOG_WATCHED uint32_t made, answered, acknowledged;
static uint8_t is_connected;

// The server's, of each client.
struct client {
    struct tcp_pcb *connection;
    uint32_t requests, sum;
    uint8_t has_closed;
};
static LIBLOG_WATCHED struct client clients[PROCESSES];

u32_t sys_now(void) {
    return now;
}

// ---- Packets of IP as datagrams ----

static struct netif wire;

static err_t send_packet(struct netif *netif, struct pbuf *packet, const ip4_addr_t *to) {
    uint8_t bytes[MTU];
    (void)netif;
    liblog_send(ip4_addr4(to), bytes, pbuf_copy_partial(packet, bytes, sizeof bytes, 0));
    return ERR_OK;
}

static err_t begin_wire(struct netif *netif) {
    netif->output = send_packet;
    netif->mtu = MTU;
    return ERR_OK;
}

static void take_packets(void) {
    static uint8_t bytes[MTU];
    uint32_t from;
    int32_t count;
    while ((count = liblog_try_recv(bytes, sizeof bytes, &from)) != LIBLOG_EMPTY) {
        struct pbuf *packet = pbuf_alloc(PBUF_RAW, (u16_t)count, PBUF_POOL);
        // A packet without room is one that the network lost.
        if (packet == NULL)
            continue;
        pbuf_take(packet, bytes, (u16_t)count);
        if (wire.input(packet, &wire) != ERR_OK)
            pbuf_free(packet);
    }
}

static ip4_addr_t address_of(uint32_t process) {
    ip4_addr_t address;
    IP4_ADDR(&address, 10, 0, 0, process);
    return address;
}

static void begin_network(void) {
    ip4_addr_t own = address_of(liblog_me()), mask, none = {0};
    IP4_ADDR(&mask, 255, 255, 255, 0);
    now = (uint32_t)liblog_now();
    lwip_init();
    netif_add(&wire, &own, &mask, &none, NULL, begin_wire, ip_input);
    netif_set_default(&wire);
    netif_set_link_up(&wire);
    netif_set_up(&wire);
}

// ---- The server ----

static void obey(struct client *client, const char *request) {
    char answer[LONGEST];
    unsigned number;
    if (sscanf(request, "add %u", &number) != 1)
        return;
    client->requests++;
    client->sum += number;
    tcp_write(client->connection, answer, (u16_t)snprintf(answer, sizeof answer, "sum %u\n", client->sum), TCP_WRITE_FLAG_COPY);
}

static err_t on_request(void *argument, struct tcp_pcb *pcb, struct pbuf *bytes, err_t error) {
    struct client *client = argument;
    char request[LONGEST];
    (void)error;
    if (bytes == NULL) {
        client->has_closed = 1;
        return tcp_close(pcb);
    }
    // A client writes a request at once, so that is what has come.
    request[pbuf_copy_partial(bytes, request, LONGEST - 1, 0)] = 0;
    obey(client, request);
    tcp_recved(pcb, bytes->tot_len);
    pbuf_free(bytes);
    return ERR_OK;
}

static err_t on_client(void *argument, struct tcp_pcb *pcb, err_t error) {
    (void)argument;
    if (error != ERR_OK)
        return error;
    struct client *client = &clients[ip4_addr4(&pcb->remote_ip) % PROCESSES];
    client->connection = pcb;
    tcp_nagle_disable(pcb);
    tcp_arg(pcb, client);
    tcp_recv(pcb, on_request);
    return ERR_OK;
}

static void begin_server(void) {
    struct tcp_pcb *listening = tcp_new();
    tcp_bind(listening, IP4_ADDR_ANY, PORT);
    tcp_accept(tcp_listen(listening), on_client);
}

static int have_closed(void) {
    for (uint32_t client = SERVER + 1; client < PROCESSES; client++)
        if (!clients[client].has_closed)
            return 0;
    return 1;
}

static int end_server(void) {
    int is_right = 1;
    for (uint32_t client = SERVER + 1; client < PROCESSES; client++) {
        printf("client %u: %u requests, sum %u\n", client, clients[client].requests, clients[client].sum);
        is_right &= clients[client].requests == REQUESTS;
    }
    return !is_right;
}

// ---- A client ----

// Each answer has one end of a line, in whatever pieces they come.
static err_t on_answer(void *argument, struct tcp_pcb *pcb, struct pbuf *bytes, err_t error) {
    (void)argument, (void)error;
    if (bytes == NULL)
        return ERR_OK;
    for (u16_t i = 0; i < bytes->tot_len; i++)
        answered += pbuf_get_at(bytes, i) == '\n';
    tcp_recved(pcb, bytes->tot_len);
    pbuf_free(bytes);
    return ERR_OK;
}

static err_t on_acknowledged(void *argument, struct tcp_pcb *pcb, u16_t count) {
    (void)argument, (void)pcb;
    acknowledged += count;
    return ERR_OK;
}

static err_t on_connected(void *argument, struct tcp_pcb *pcb, err_t error) {
    (void)argument, (void)pcb;
    is_connected = error == ERR_OK;
    return ERR_OK;
}

// lwIP has freed the connection.
static void on_error(void *argument, err_t error) {
    (void)argument, (void)error;
    is_connected = 0;
    end = now;
}

static void begin_client(void) {
    ip4_addr_t server = address_of(SERVER);
    connection = tcp_new();
    tcp_nagle_disable(connection);
    tcp_recv(connection, on_answer);
    tcp_sent(connection, on_acknowledged);
    tcp_err(connection, on_error);
    tcp_connect(connection, &server, PORT, on_connected);
}

// The request that is due, in one write, and the end of the connection when all are answered.
static void act_as_client(void) {
    char request[LONGEST];
    if (!is_connected)
        return;
    if (made < REQUESTS) {
        made++;
        tcp_write(connection, request, (u16_t)snprintf(request, sizeof request, "add %u\n", made), TCP_WRITE_FLAG_COPY);
        tcp_output(connection);
    } else if (answered == REQUESTS) {
        is_connected = 0;
        tcp_close(connection);
        end = now + LINGER;
    }
}

static int end_client(void) {
    printf("made %u, answered %u\n", made, answered);
    return answered != REQUESTS;
}

int main(void) {
    int is_server = liblog_me() == SERVER;
    begin_network();
    if (is_server)
        begin_server();
    else
        begin_client();
    while (now < end) {
        take_packets();
        sys_check_timeouts();
        if (!is_server)
            act_as_client();
        else if (end == DEADLINE && have_closed())
            end = now + LINGER;
        now = (uint32_t)liblog_sleep_until(now + TURN);
    }
    return is_server ? end_server() : end_client();
}
