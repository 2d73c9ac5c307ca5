/* One end of observations by libcoap, over UDP on 127.0.0.1, as aiocoap_losses.py is one by aiocoap: the same lines are taken, and printed.

       libcoap_losses caller CONFIGURATION PORT
       libcoap_losses observed CONFIGURATION PORT

   CONFIGURATION is a file in libcoap's words for a context, which begins at the number 0. coap-client can't ask while it observes, and
   neither it nor coap-server can be told to wait less than two seconds before it sends something again. */
#define _GNU_SOURCE
#include "coap3/coap_libcoap_build.h"
#include <poll.h>
#include <stdio.h>
#include <unistd.h>

enum { MOST_LINE = 64, MOST_CONFIGURATION = 1000, STEP_MS = 10, HASTY_MS = 100, PATIENT = 10 };

static const char PATH[] = "temperature";
static char temperature[MOST_LINE];
static uint8_t token_bytes[8];
static coap_binary_t observed = {0, token_bytes};
static int cancels;

static void need(int holds, const char *what) {
    if (holds) return;
    fprintf(stderr, "libcoap_losses: %s\n", what);
    exit(1);
}

static coap_oscore_conf_t *configuration(const char *name) {
    static uint8_t words[MOST_CONFIGURATION];
    FILE *file = fopen(name, "r");
    need(file != NULL, "the configuration");
    const coap_str_const_t read = {fread(words, 1, sizeof words, file), words};
    fclose(file);
    coap_oscore_conf_t *made = coap_new_oscore_conf(read, NULL, NULL, 0);
    need(made != NULL, "a configuration that is good");
    return made;
}

/* What is confirmable is sent again sooner, and more often, than RFC 7252, 4.8 has it by default. The call for the first takes no time below
   a second. */
static void hasten(coap_session_t *session) {
    session->ack_timeout = (coap_fixed_point_t){HASTY_MS / 1000, HASTY_MS % 1000};
    coap_session_set_max_retransmit(session, PATIENT);
}

static int begins(coap_session_t *session, const coap_event_t event) {
    if (event == COAP_EVENT_SERVER_SESSION_NEW) hasten(session);
    return 0;
}

static void show(const char *what, const coap_pdu_t *message) {
    const uint8_t *payload = NULL;
    size_t len = 0;
    coap_pdu_code_t code = coap_pdu_get_code(message);
    coap_get_data(message, &len, &payload);
    if (!strcmp(what, "heard")) printf("heard %.*s\n", (int)len, (const char *)payload);
    else if (!strcmp(what, "last")) printf("last %d.%02d\n", code >> 5, code & 31);
    else printf("%s %d.%02d %.*s\n", what, code >> 5, code & 31, (int)len, (const char *)payload);
    fflush(stdout);
}

static coap_response_t hear(coap_session_t *session, const coap_pdu_t *sent, const coap_pdu_t *received, const coap_mid_t mid) {
    (void)session, (void)sent, (void)mid;
    coap_opt_iterator_t iterator;
    coap_bin_const_t token = coap_pdu_get_token(received);
    int ours = token.length == observed.length && !memcmp(token.s, token_bytes, token.length);
    int notifies = coap_check_option(received, COAP_OPTION_OBSERVE, &iterator) != NULL;
    show(!ours ? "answered" : notifies ? "heard" : cancels ? "cancelled" : "last", received);
    return COAP_RESPONSE_OK;
}

static void fails(coap_session_t *session, const coap_pdu_t *sent, const coap_nack_reason_t reason, const coap_mid_t mid) {
    (void)session, (void)sent, (void)mid;
    printf("failed %d\n", reason);
    fflush(stdout);
}

static void ask(coap_session_t *session, int registers) {
    uint8_t token[8];
    size_t len;
    coap_pdu_t *request = coap_new_pdu(COAP_MESSAGE_CON, COAP_REQUEST_CODE_GET, session);
    coap_session_new_token(session, &len, token);
    need(request && coap_add_token(request, len, token), "a request");
    if (registers) {
        memcpy(token_bytes, token, len);
        observed.length = len, cancels = 0;
        coap_add_option(request, COAP_OPTION_OBSERVE, 0, NULL);
    }
    coap_add_option(request, COAP_OPTION_URI_PATH, strlen(PATH), (const uint8_t *)PATH);
    need(coap_send(session, request) != COAP_INVALID_MID, "a request that is sent");
}

static void call(coap_session_t *session, const char *line) {
    if (!strcmp(line, "cancel")) {
        cancels = 1;
        need(coap_cancel_observe(session, &observed, COAP_MESSAGE_CON), "an observation that is cancelled");
    } else {
        ask(session, !strcmp(line, "register"));
    }
}

static void get(coap_resource_t *resource, coap_session_t *session, const coap_pdu_t *request, const coap_string_t *query,
                coap_pdu_t *response) {
    (void)resource, (void)session, (void)request, (void)query;
    coap_pdu_set_code(response, temperature[0] ? COAP_RESPONSE_CODE_CONTENT : COAP_RESPONSE_CODE_NOT_FOUND);
    if (temperature[0]) coap_add_data(response, strlen(temperature), (const uint8_t *)temperature);
}

/* Without a temperature what is observed is over: then libcoap's server sends a 4.04, and has no observer any more. */
static void measure(coap_resource_t *resource, const char *line) {
    temperature[0] = '\0';
    if (strcmp(line, "gone")) sscanf(line, "%*s %63s", temperature);
    coap_resource_notify_observers(resource, NULL);
    puts("done");
    fflush(stdout);
}

static void take_line(coap_session_t *session, coap_resource_t *resource) {
    char line[MOST_LINE];
    if (!fgets(line, sizeof line, stdin)) exit(0);
    line[strcspn(line, "\n")] = '\0';
    if (session) call(session, line);
    else measure(resource, line);
}

static coap_resource_t *serve(coap_context_t *context, const char *configured, coap_address_t *own) {
    coap_resource_t *resource = coap_resource_init(coap_make_str_const(PATH), COAP_RESOURCE_FLAGS_NOTIFY_CON);
    need(coap_context_oscore_server(context, configuration(configured)), "a context");
    need(coap_new_endpoint(context, own, COAP_PROTO_UDP) != NULL, "a port");
    coap_register_event_handler(context, begins);
    coap_register_request_handler(resource, COAP_REQUEST_GET, get);
    coap_resource_set_get_observable(resource, 1);
    coap_add_resource(context, resource);
    return resource;
}

static coap_session_t *meet(coap_context_t *context, const char *configured, coap_address_t *other) {
    coap_session_t *session = coap_new_client_session_oscore(context, NULL, other, COAP_PROTO_UDP, configuration(configured));
    need(session != NULL, "a session");
    coap_register_response_handler(context, hear);
    coap_register_nack_handler(context, fails);
    hasten(session);
    return session;
}

int main(int count, char **words) {
    need(count == 4, "libcoap_losses caller|observed CONFIGURATION PORT");
    coap_address_t there;
    coap_startup();
    coap_set_log_level(COAP_LOG_EMERG);
    setvbuf(stdin, NULL, _IONBF, 0);
    coap_address_init(&there);
    there.addr.sin.sin_family = AF_INET;
    there.addr.sin.sin_addr.s_addr = htonl(INADDR_LOOPBACK);
    there.addr.sin.sin_port = htons((uint16_t)atoi(words[3]));
    coap_context_t *context = coap_new_context(NULL);
    need(context != NULL, "libcoap's context");
    coap_context_set_block_mode(context, COAP_BLOCK_USE_LIBCOAP | COAP_BLOCK_SINGLE_BODY);
    int calls = !strcmp(words[1], "caller");
    coap_session_t *session = calls ? meet(context, words[2], &there) : NULL;
    coap_resource_t *resource = calls ? NULL : serve(context, words[2], &there);
    puts("ready");
    fflush(stdout);
    for (;;) {
        struct pollfd lines = {.fd = STDIN_FILENO, .events = POLLIN};
        need(coap_io_process(context, STEP_MS) >= 0, "libcoap's own loop");
        if (poll(&lines, 1, 0) == 1) take_line(session, resource);
    }
}
