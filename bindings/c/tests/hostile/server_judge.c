/* Which peer a datagram is for, and what one that serves answers to it, and to an answer that is asked for. */
#include "judge.h"
#include <string.h>

/* What a reply has in front: of a confirmable request it is the acknowledgement (RFC 7252, 4.2 and 5.2.1). */
static struct head reply_head(uint8_t code, uint8_t kind, uint16_t request_id, uint16_t fresh_id, struct bytes token) {
    bool confirmable = kind == CON;
    return (struct head){confirmable ? ACK : NON, code, confirmable ? request_id : fresh_id, token};
}

/* An error isn't protected, and has Max-Age 0, of no byte (RFC 8613, 7.4 and 8.2). */
static void write_error(const struct handed *handed, struct judged *judged) {
    static const struct {
        uint32_t status;
        uint8_t code;
        const char *text;
    } errors[] = {
        {OSCORE_UNDECODABLE, 0x82, "Failed to decode COSE"},
        {OSCORE_NO_CONTEXT, 0x81, "Security context not found"},
        {OSCORE_REPLAY, 0x81, "Replay detected"},
        {OSCORE_TAG, 0x80, "Decryption failed"},
    };
    struct head asked = judged->seen.head;
    for (oscore_size i = 0; i < sizeof errors / sizeof *errors; i++) {
        if (errors[i].status != judged->status) continue;
        struct spelling reply = spell_datagram(reply_head(errors[i].code, asked.kind, asked.message_id, handed->message_id, asked.token));
        spell_option(&reply, MAX_AGE, (struct bytes){NULL, 0});
        judged->written = spell_end(&reply, (struct bytes){(const uint8_t *)errors[i].text, strlen(errors[i].text)});
    }
}

/* A challenge is 4.01 with the Echo value, sealed with a Partial IV of its own (RFC 8613, B.1.2). */
static void write_challenge(const struct life *life, const struct handed *handed, struct judged *judged) {
    struct head asked = judged->seen.head;
    struct sealed_as as = {true, true, judged->opened->as.context, judged->opened->as.request, life->kept.next - 1, false};
    struct spelling plain = spell_datagram((struct head){.code = 0x81});
    spell_option(&plain, ECHO, (struct bytes){life->challenge.echo, sizeof life->challenge.echo});
    struct head head = reply_head(OUTER_RESPONSE, asked.kind, asked.message_id, handed->message_id, asked.token);
    seal_plain(as, head, bytes_of(&plain.text), &judged->sealed);
    judged->has_sealed = true;
    judged->written = judged->sealed.datagram;
}

/* The place of the context that a request names, by its kid and its kid context alike (RFC 8613, 8.2). */
static oscore_size named(const struct value *value) {
    for (oscore_size i = 0; i < CONTEXTS; i++) {
        struct bytes id_context = AGREED[i].id_context;
        bool is_its = value->has_kid_context == (id_context.len > 0) && is_same(value->kid_context, id_context);
        if (is_its && is_same(value->kid, AGREED[i].client)) return i;
    }
    return CONTEXTS;
}

/* Reads what a request says outside, or tells what refuses it. */
static uint32_t read_request(struct bytes datagram, struct judged *judged, struct value *value) {
    uint32_t fault = read_datagram(datagram, &judged->seen, &judged->detail);
    if (fault) return fault;
    if (!is_request(judged->seen.head)) return OSCORE_NOT_THAT_KIND;
    if (!count_of(&judged->seen.body, OSCORE)) return OSCORE_NO_OSCORE;
    /* A request has a Partial IV and a kid (RFC 8613, 5). */
    bool is_whole = usable_value(&judged->seen.body, value) && value->has_number && value->has_kid;
    return is_whole ? OSCORE_DONE : OSCORE_UNDECODABLE;
}

void judge_find(struct bytes datagram, struct judged *judged, oscore_size *found) {
    struct value value;
    *judged = (struct judged){.status = OSCORE_DONE};
    judged->status = read_request(datagram, judged, &value);
    if (judged->status) return;
    *found = named(&value);
    if (*found == CONTEXTS) judged->status = OSCORE_NO_CONTEXT;
}

/* Opens a request to a peer, or tells what refuses it. */
static uint32_t open_request(const struct life *life, oscore_size peer, const struct handed *handed, struct judged *judged) {
    struct value value;
    uint32_t refused = read_request(handed->datagram, judged, &value);
    if (refused) return refused;
    if (named(&value) != peer) return OSCORE_NO_CONTEXT;
    if (is_replay(life, value.number)) return OSCORE_REPLAY;
    struct sealed_as as = {.context = peer, .request = value.number};
    judged->opened = opens(as, judged->seen.body.payload);
    return judged->opened ? OSCORE_DONE : OSCORE_TAG;
}

/* Judges what opened: what may not stand inside spends its number too. */
static uint32_t admit(struct life *life, const struct handed *handed, struct judged *judged) {
    uint8_t code = 0;
    struct body inner;
    struct bytes echo = {NULL, 0};
    judged->request = judged->opened->as.request;
    if (!read_inner(bytes_of(&judged->opened->plaintext), allowed_as(judged->opened->as), &code, &inner) || !is_request_code(code)) {
        spend(life, judged->request);
        return OSCORE_INNER;
    }
    judged->registers = allowed_as(judged->opened->as).observe && is_registration(code, &inner);
    bool has_echo = first_of(&inner, ECHO, &echo);
    if (admits(life, has_echo, echo)) {
        save_received(&life->kept, judged->request, judged);
        deliver_in(life, judged->request);
        return OSCORE_DONE;
    }
    if (!challenge_in(life)) return OSCORE_SEQUENCE_EXHAUSTED;
    write_challenge(life, handed, judged);
    return OSCORE_CHALLENGE;
}

void judge_take(struct server_judge *judge, oscore_size peer, const struct handed *handed, struct judged *judged) {
    struct life *life = &judge->lives[peer];
    *judged = (struct judged){.status = OSCORE_DONE};
    /* As long as it waits for an Echo value, a number may be needed for each datagram. */
    save_first(&life->kept, !life->is_open, judged);
    if (life->clock < handed->now) life->clock = handed->now;
    judged->status = open_request(life, peer, handed, judged);
    if (!judged->status) judged->status = admit(life, handed, judged);
    write_error(handed, judged);
}

/* What refuses a ticket, and a plain message that is none. */
static uint32_t refuses_ticket(const struct server_judge *judge, const struct answer *answer, struct judged *judged) {
    const oscore_ticket *ticket = &answer->ticket;
    if (ticket->answered) return OSCORE_TICKET_SPENT;
    if (ticket->number >= NUMBER_LIMIT || ticket->observes > 1) return OSCORE_BAD_HANDLE;
    uint32_t fault = read_datagram(answer->plain, &judged->seen, &judged->detail);
    if (fault) return fault;
    bool is_stale = ticket->context != judge->names[answer->peer] || ticket->life != judge->lives[answer->peer].kept.life;
    return is_stale ? OSCORE_STALE_TICKET : OSCORE_DONE;
}

/* The answer to a registration has a Partial IV of its own always (RFC 8613, 4.1.3.5). */
static bool has_own(const struct answer *answer) {
    return answer->own || answer->ticket.observes;
}

/* What refuses an answer before it is sealed. */
static uint32_t refuses(struct server_judge *judge, const struct answer *answer, struct judged *judged) {
    const oscore_ticket *ticket = &answer->ticket;
    const struct seen *plain = &judged->seen;
    uint32_t refused = refuses_ticket(judge, answer, judged);
    if (refused) return refused;
    struct life *life = &judge->lives[answer->peer];
    save_first(&life->kept, has_own(answer), judged);
    if (!is_due(life, ticket->number, has_own(answer))) return OSCORE_TICKET_SPENT;
    /* Of the plain head the code alone is used. */
    if (!is_response_code(plain->head.code)) return OSCORE_NOT_THAT_KIND;
    judged->detail = unsupported_of(&plain->body, allowed_as((struct sealed_as){.is_response = true, .context = answer->peer}));
    if (judged->detail) return OSCORE_UNSUPPORTED;
    return has_own(answer) && life->kept.next >= NUMBER_LIMIT ? OSCORE_SEQUENCE_EXHAUSTED : OSCORE_DONE;
}

void judge_reply(struct server_judge *judge, const struct answer *answer, struct judged *judged) {
    const oscore_ticket *ticket = &answer->ticket;
    *judged = (struct judged){.status = OSCORE_DONE};
    judged->status = refuses(judge, answer, judged);
    if (judged->status) return;
    struct life *life = &judge->lives[answer->peer];
    struct sealed_as as = {.is_response = true, .has_own = has_own(answer), .context = answer->peer, .request = ticket->number};
    if (as.has_own) as.own = life->kept.next;
    struct bytes token = {ticket->token, ticket->token_len};
    struct head head = reply_head(OUTER_RESPONSE, ticket->kind, ticket->message_id, answer->message_id, token);
    seal_plain(as, head, answer->plain, &judged->sealed);
    judged->has_sealed = judged->sealed.datagram.len <= answer->room;
    if (!judged->has_sealed) {
        judged->status = OSCORE_NO_ROOM;
        return;
    }
    judged->written = judged->sealed.datagram;
    answered_in(life, ticket->number);
    life->kept.next += as.has_own;
}

/* What refuses a notification before it is sealed. It doesn't matter whether the request waits for its answer still. */
static uint32_t refuses_to_notify(struct server_judge *judge, const struct answer *answer, struct sealed_as as, struct judged *judged) {
    const struct seen *plain = &judged->seen;
    uint32_t refused = refuses_ticket(judge, answer, judged);
    if (refused) return refused;
    struct kept *kept = &judge->lives[answer->peer].kept;
    save_first(kept, true, judged);
    if (!answer->ticket.observes) return OSCORE_NOT_OBSERVING;
    if (!is_response(plain->head)) return OSCORE_NOT_THAT_KIND;
    judged->detail = unsupported_of(&plain->body, allowed_as(as));
    if (judged->detail) return OSCORE_UNSUPPORTED;
    if (!is_notification(plain->head.code, &plain->body)) return OSCORE_NOT_NOTIFICATION;
    return kept->next >= NUMBER_LIMIT ? OSCORE_SEQUENCE_EXHAUSTED : OSCORE_DONE;
}

void judge_notify(struct server_judge *judge, const struct answer *answer, struct judged *judged) {
    const oscore_ticket *ticket = &answer->ticket;
    struct sealed_as as = {true, true, answer->peer, ticket->number, 0, true};
    *judged = (struct judged){.status = OSCORE_DONE};
    judged->status = refuses_to_notify(judge, answer, as, judged);
    if (judged->status) return;
    struct kept *kept = &judge->lives[answer->peer].kept;
    struct head head = judged->seen.head;
    as.own = kept->next;
    head.code = outer_code(as, true);
    head.token = (struct bytes){ticket->token, ticket->token_len};
    seal_plain(as, head, answer->plain, &judged->sealed);
    judged->has_sealed = judged->sealed.datagram.len <= answer->room;
    if (!judged->has_sealed) {
        judged->status = OSCORE_NO_ROOM;
        return;
    }
    judged->written = judged->sealed.datagram;
    kept->next++;
}
