// A server and a client of CoAP, by libcoap: the client makes four orders, each by a POST that is repeated until it is acknowledged,
// and the server counts what it was told to do.
#include <coap3/coap.h>
#include <stdio.h>
#include <string.h>

#include "liblog.h"

enum { SERVER, PORT = 5683, ORDERS = 4, PROCESSES = 16, PATIENCE = 60 };

// The server's: how many orders each process has made, as it was told. The client's: how many it has made, and how many are answered.
static LIBLOG_WATCHED uint32_t of_client[PROCESSES], made, answered;
static LIBLOG_WATCHED coap_context_t *context;

static coap_address_t address_of(uint32_t process, uint16_t port) {
    coap_address_t address;
    coap_address_init(&address);
    address.size = sizeof address.addr.sin;
    address.addr.sin.sin_family = AF_INET;
    address.addr.sin.sin_port = htons(port);
    address.addr.sin.sin_addr.s_addr = htonl(10u << 24 | process);
    return address;
}

static void on_order(coap_resource_t *resource, coap_session_t *session, const coap_pdu_t *request, const coap_string_t *query, coap_pdu_t *response) {
    uint32_t client = ntohl(coap_session_get_addr_remote(session)->addr.sin.sin_addr.s_addr) & (PROCESSES - 1);
    (void)resource, (void)request, (void)query;
    of_client[client]++;
    printf("order %u of client %u\n", of_client[client], client);
    coap_pdu_set_code(response, COAP_RESPONSE_CODE_CHANGED);
}

static int serve(void) {
    coap_address_t own = address_of(SERVER, PORT);
    coap_resource_t *resource = coap_resource_init(coap_make_str_const("order"), 0);
    if (coap_new_endpoint(context, &own, COAP_PROTO_UDP) == NULL)
        return 2;
    coap_register_handler(resource, COAP_REQUEST_POST, on_order);
    coap_add_resource(context, resource);
    for (;;)
        coap_io_process(context, COAP_IO_WAIT);
}

static coap_response_t on_answer(coap_session_t *session, const coap_pdu_t *sent, const coap_pdu_t *received, const coap_mid_t number) {
    (void)session, (void)sent, (void)received, (void)number;
    answered++;
    return COAP_RESPONSE_OK;
}

static int order(coap_session_t *session) {
    coap_pdu_t *pdu = coap_new_pdu(COAP_MESSAGE_CON, COAP_REQUEST_CODE_POST, session);
    if (pdu == NULL || !coap_add_option(pdu, COAP_OPTION_URI_PATH, strlen("order"), (const uint8_t *)"order"))
        return -1;
    made++;
    return coap_send(session, pdu) == COAP_INVALID_MID ? -1 : 0;
}

static int make_orders(void) {
    coap_address_t server = address_of(SERVER, PORT);
    coap_session_t *session = coap_new_client_session(context, NULL, &server, COAP_PROTO_UDP);
    if (session == NULL)
        return 3;
    coap_register_response_handler(context, on_answer);
    for (int i = 0; i < ORDERS; i++) {
        if (order(session) != 0)
            return 4;
        for (int turns = 0; answered < made && turns < PATIENCE; turns++)
            coap_io_process(context, 1000);
    }
    printf("made %u, answered %u\n", made, answered);
    coap_session_release(session);
    return answered != made;
}

int main(void) {
    coap_startup();
    context = coap_new_context(NULL);
    if (context == NULL)
        return 1;
    return liblog_me() == SERVER ? serve() : make_orders();
}
