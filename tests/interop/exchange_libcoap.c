/* exchange.c by libcoap 4.3.5: its own functions of OSCORE, as its tests call them, over sessions that have no socket.

       exchange_libcoap LENGTH ROUNDS */
#define _GNU_SOURCE
#include "exchange.h"
#include "coap3/coap_libcoap_build.h"

#define KEYS "master_secret,hex,\"0102030405060708090a0b0c0d0e0f10\"\nmaster_salt,hex,\"9e7ca92223786340\"\n"

typedef struct end {
    coap_context_t *context;
    coap_session_t *session;
} end;

static void need(int holds, const char *what) {
    if (holds) return;
    fprintf(stderr, "exchange_libcoap: %s\n", what);
    exit(1);
}

static end begin(const char *configuration, coap_session_type_t type) {
    const coap_str_const_t words = {strlen(configuration), (const uint8_t *)configuration};
    end made = {coap_new_context(NULL), calloc(1, sizeof(coap_session_t))};
    coap_oscore_conf_t *conf = coap_new_oscore_conf(words, NULL, NULL, FIRST_NUMBER);
    need(made.context && made.session && conf && coap_context_oscore_server(made.context, conf), "a context");
    made.session->context = made.context;
    made.session->proto = COAP_PROTO_UDP;
    made.session->type = type;
    made.session->recipient_ctx = made.context->p_osc_ctx->recipient_chain;
    made.session->recipient_ctx->initial_state = 0;
    return made;
}

/* Seals a plain message. The bytes are written to `out`. */
static size_t seal(const end *from, const uint8_t *plain, size_t len, uint8_t *out) {
    coap_pdu_t *message = coap_pdu_init(0, 0, 0, MOST), *sealed;
    need(message && coap_pdu_parse(COAP_PROTO_UDP, plain, len, message), "a plain message is read");
    sealed = coap_oscore_new_pdu_encrypted(from->session, message, NULL, OSCORE_SEND_NO_IV);
    need(sealed && coap_pdu_encode_header(sealed, COAP_PROTO_UDP), "a message is sealed");
    size_t sealed_len = sealed->hdr_size + sealed->used_size;
    memcpy(out, sealed->token - sealed->hdr_size, sealed_len);
    coap_delete_pdu(message), coap_delete_pdu(sealed);
    return sealed_len;
}

/* Opens a sealed message, and answers the length of its payload. */
static size_t open_message(const end *to, const uint8_t *bytes, size_t len) {
    coap_pdu_t *message = coap_pdu_init(0, 0, 0, MOST), *opened;
    const uint8_t *payload;
    size_t payload_len = 0;
    need(message && coap_pdu_parse(COAP_PROTO_UDP, bytes, len, message), "a sealed message is read");
    opened = coap_oscore_decrypt_pdu(to->session, message);
    need(opened != NULL, "a message is opened");
    coap_get_data(opened, &payload_len, &payload);
    coap_delete_pdu(message), coap_delete_pdu(opened);
    return payload_len;
}

int main(int count, char **words) {
    static uint8_t request[MOST], response[MOST];
    long rounds = count > 2 ? atol(words[2]) : 0;
    if (count != 3) return 2;
    size_t response_len = prepare_response((size_t)atol(words[1])), len;
    coap_startup();
    coap_set_log_level(COAP_LOG_EMERG);
    end client = begin(KEYS "sender_id,hex,\"\"\nrecipient_id,hex,\"01\"\n", COAP_SESSION_TYPE_CLIENT);
    end server = begin(KEYS "sender_id,hex,\"01\"\nrecipient_id,hex,\"\"\nrfc8613_b_1_2,bool,false\n", COAP_SESSION_TYPE_SERVER);
    uint64_t began = nanoseconds();
    for (long left = rounds; left > 0; left--) {
        len = seal(&client, PLAIN_REQUEST, sizeof PLAIN_REQUEST, request);
        open_message(&server, request, len);
        size_t request_len = len;
        len = seal(&server, plain_response, response_len, response);
        if (left == rounds) compare_first(request, request_len, response, len);
        need(open_message(&client, response, len) == (size_t)atol(words[1]), "the response's payload");
    }
    printf("%.1f\n", (double)(nanoseconds() - began) / (double)rounds);
    return 0;
}
