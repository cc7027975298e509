// Three processes over ENet, a library for reliable datagrams in C: a server and two clients. A client sends numbered
// packets on two channels, its orders on one and its reports on the other. ENet sends a packet again until it is
// acknowledged, and delivers the packets of a channel in order and each once, whatever the network loses, repeats or
// delays. Each channel counts its packets by itself, so an order and a report can have the same number.
//
// A client ends once ENet has let go of all its packets as acknowledged, the server once all were delivered, and both
// when that takes too long. build.sh builds this with ENet as it is, and with a fault in its code for acknowledgements.
#include "../print_two.h"
#include "enet/enet.h"

// The files of ENet as they are, which have parameters that nobody uses.
#pragma clang diagnostic push
#pragma clang diagnostic ignored "-Wunused-parameter"
#include "callbacks.c"
#include "host.c"
#include "list.c"
#include "packet.c"
#include "peer.c"
#include "protocol.c"
#pragma clang diagnostic pop
#include "unix.c"

enum { SERVER, PROCESSES = 3 };
enum { ORDERS, REPORTS, CHANNELS };
enum { TURN = 20, DEADLINE = 1500, LINGER = 400 };

struct message {
    uint32_t channel;
    uint32_t number;
};

// What a client sends on a channel: so many packets, the first so long after the connection was made, then one each
// period.
enum { ALL_ORDERS = 6, ALL_REPORTS = 2 };
static const struct plan {
    uint32_t count, first, period;
} plans[CHANNELS] = {[ORDERS] = {ALL_ORDERS, 0, 60}, [REPORTS] = {ALL_REPORTS, 40, 240}};

static LIBLOG_WATCHED ENetHost *host;

// Of the server: each client as ENet has it, how many packets of its channels were delivered, and how many of all of
// them were not the next one.
static LIBLOG_WATCHED ENetPeer *clients[PROCESSES];
static LIBLOG_WATCHED uint32_t delivered[PROCESSES][CHANNELS];
static LIBLOG_WATCHED uint32_t out_of_order;

// Of a client: the server as ENet has it, how many packets it sent on each channel, and how many of them, from the
// first on, were acknowledged.
static LIBLOG_WATCHED ENetPeer *server;
static LIBLOG_WATCHED uint32_t sent[CHANNELS], confirmed[CHANNELS];
static uint8_t acknowledged[CHANNELS][ALL_ORDERS + 1];

// ENet gives a packet back, as one that is through or since the connection is gone.
static void take_back(ENetPacket *packet) {
    const struct message *message = (const struct message *)packet->data;
    uint32_t channel = message->channel;
    if ((packet->flags & ENET_PACKET_FLAG_SENT) == 0)
        return;
    acknowledged[channel][message->number] = 1;
    while (confirmed[channel] < sent[channel] && acknowledged[channel][confirmed[channel] + 1])
        confirmed[channel]++;
}

// Sends the packet that is due on a channel, where so much time has passed since the connection was made.
static void send_due(uint32_t channel, uint32_t passed) {
    const struct plan *plan = &plans[channel];
    if (sent[channel] == plan->count || passed < plan->first + sent[channel] * plan->period)
        return;
    struct message message = {channel, ++sent[channel]};
    ENetPacket *packet = enet_packet_create(&message, sizeof message, ENET_PACKET_FLAG_RELIABLE);
    packet->freeCallback = take_back;
    enet_peer_send(server, (enet_uint8)channel, packet);
}

static int32_t run_client(void) {
    const ENetAddress address = {.host = SERVER, .port = PORT};
    uint32_t connected_at = 0;
    host = enet_host_create(NULL, 1, CHANNELS, 0, 0);
    server = enet_host_connect(host, &address, CHANNELS, 0);
    while (confirmed[ORDERS] < ALL_ORDERS || confirmed[REPORTS] < ALL_REPORTS) {
        ENetEvent event;
        while (enet_host_service(host, &event, 0) > 0)
            if (event.type == ENET_EVENT_TYPE_CONNECT)
                connected_at = host->serviceTime;
        if (host->serviceTime >= DEADLINE)
            break;
        if (connected_at > 0)
            for (uint32_t channel = 0; channel < CHANNELS; channel++)
                send_due(channel, host->serviceTime - connected_at);
        liblog_sleep_until(host->serviceTime + TURN);
    }
    print_two("acknowledged: orders ", confirmed[ORDERS], ", reports ", confirmed[REPORTS]);
    return host->serviceTime >= DEADLINE;
}

static void take_packet(const ENetEvent *event) {
    const struct message *message = (const struct message *)event->packet->data;
    uint32_t *count = &delivered[event->peer->address.host][event->channelID];
    if (message->channel != event->channelID || message->number != ++*count)
        out_of_order++;
    enet_packet_destroy(event->packet);
}

static int all_delivered(void) {
    for (uint32_t client = SERVER + 1; client < PROCESSES; client++)
        for (uint32_t channel = 0; channel < CHANNELS; channel++)
            if (delivered[client][channel] < plans[channel].count)
                return 0;
    return 1;
}

static int32_t run_server(void) {
    const ENetAddress address = {.host = SERVER, .port = PORT};
    uint32_t until = DEADLINE, is_through = 0;
    host = enet_host_create(&address, PROCESSES, CHANNELS, 0, 0);
    while (host->serviceTime < until) {
        ENetEvent event;
        if (enet_host_service(host, &event, TURN) <= 0)
            continue;
        if (event.type == ENET_EVENT_TYPE_CONNECT)
            clients[event.peer->address.host] = event.peer;
        if (event.type == ENET_EVENT_TYPE_RECEIVE)
            take_packet(&event);
        // The last acknowledgements may be lost, so the server answers for a while.
        if (!is_through && all_delivered()) {
            is_through = 1;
            until = host->serviceTime + LINGER;
        }
    }
    print_two("delivered of client 1: orders ", delivered[1][ORDERS], ", reports ", delivered[1][REPORTS]);
    print_two("delivered of client 2: orders ", delivered[2][ORDERS], ", reports ", delivered[2][REPORTS]);
    return !is_through || out_of_order > 0;
}

void _start(void) {
    liblog_exit(liblog_me() == SERVER ? run_server() : run_client());
}
