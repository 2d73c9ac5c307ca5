/* What a peer that asks answers to a datagram, to a request that is asked for, and to a token that is forgotten. */
#include "judge.h"

/* Ends the requests under a token, or, where there is none, those that are older than their life; of those that were notified none is. */
static void end_pending(struct client_judge *judge, const struct bytes *token) {
    oscore_size left = 0;
    for (oscore_size i = 0; i < judge->count; i++) {
        const struct pending *pending = &judge->pending[i];
        bool ends = token ? is_same(bytes_of(&pending->token), *token) : !pending->from && judge->clock - pending->moment > REQUEST_LIFE_MS;
        if (!ends) judge->pending[left++] = *pending;
    }
    judge->count = left;
}

static void advance(struct client_judge *judge, uint64_t now) {
    if (judge->clock < now) judge->clock = now;
    end_pending(judge, NULL);
}

static struct pending *under(struct client_judge *judge, struct bytes token) {
    for (oscore_size i = 0; i < judge->count; i++)
        if (is_same(bytes_of(&judge->pending[i].token), token)) return &judge->pending[i];
    return NULL;
}

/* A registration gives way to a request under its token that registers anew, or cancels (RFC 7641, 3.3.1 and 3.6). */
static bool gives_way(const struct pending *pending, const struct seen *plain) {
    return pending && pending->registers && (is_registration(plain->head.code, &plain->body) || is_cancellation(plain->head.code, &plain->body));
}

/* What refuses a request before it is sealed. */
static uint32_t refuses(struct client_judge *judge, struct judged *judged) {
    const struct seen *plain = &judged->seen;
    const struct pending *holder = under(judge, plain->head.token);
    if (!is_request(plain->head)) return OSCORE_NOT_THAT_KIND;
    judged->detail = unsupported_of(&plain->body, AGREED[0].allowed);
    if (judged->detail) return OSCORE_UNSUPPORTED;
    if (holder && !gives_way(holder, plain)) return OSCORE_TOKEN_IN_USE;
    if (!holder && judge->count >= MOST_PENDING) return OSCORE_PENDING_FULL;
    return judge->kept.next >= NUMBER_LIMIT ? OSCORE_SEQUENCE_EXHAUSTED : OSCORE_DONE;
}

void judge_request(struct client_judge *judge, const struct asked *asked, struct judged *judged) {
    *judged = (struct judged){.status = OSCORE_DONE};
    judged->status = read_datagram(asked->plain, &judged->seen, &judged->detail);
    /* What is no message moves no clock. */
    if (judged->status) return;
    save_first(&judge->kept, true, judged);
    advance(judge, asked->now);
    judged->status = refuses(judge, judged);
    if (judged->status) return;
    struct head head = judged->seen.head;
    struct sealed_as as = {.request = judge->kept.next};
    bool registers = is_registration(head.code, &judged->seen.body);
    head.code = outer_code(as, has_observe(&judged->seen.body));
    seal_plain(as, head, asked->plain, &judged->sealed);
    judged->has_sealed = judged->sealed.datagram.len <= asked->room;
    if (!judged->has_sealed) {
        judged->status = OSCORE_NO_ROOM;
        return;
    }
    judged->written = judged->sealed.datagram;
    judged->takes_place = under(judge, judged->seen.head.token) != NULL;
    end_pending(judge, &judged->seen.head.token);
    struct pending *pending = &judge->pending[judge->count++];
    *pending = (struct pending){.number = judge->kept.next++, .moment = judge->clock, .registers = registers};
    add_bytes(&pending->token, judged->seen.head.token);
}

/* Opens a response, or tells what refuses it. */
static uint32_t open_response(struct client_judge *judge, struct bytes datagram, struct judged *judged, uint64_t *place) {
    struct value value;
    uint32_t fault = read_datagram(datagram, &judged->seen, &judged->detail);
    if (fault) return fault;
    if (!is_response(judged->seen.head)) return OSCORE_NOT_THAT_KIND;
    const struct pending *pending = under(judge, judged->seen.head.token);
    if (!pending) return OSCORE_UNKNOWN_TOKEN;
    if (!count_of(&judged->seen.body, OSCORE)) return OSCORE_NO_OSCORE;
    /* A response has neither kid nor kid context; own rule. */
    if (!usable_value(&judged->seen.body, &value) || value.has_kid || value.has_kid_context) return OSCORE_UNDECODABLE;
    *place = value.has_number ? value.number + 1 : 0;
    if (value.has_number && *place < pending->from) return OSCORE_OLD;
    judged->request = pending->number;
    judged->registers = pending->registers;
    judged->opened = opens((struct sealed_as){true, value.has_number, 0, pending->number, value.number, false}, judged->seen.body.payload);
    return judged->opened ? OSCORE_DONE : OSCORE_TAG;
}

void judge_response(struct client_judge *judge, uint64_t now, struct bytes datagram, struct judged *judged) {
    uint8_t code = 0;
    uint64_t place = 0;
    struct body inner;
    *judged = (struct judged){.status = OSCORE_DONE};
    advance(judge, now);
    judged->status = open_response(judge, datagram, judged, &place);
    if (judged->status) return;
    /* What may not stand inside ends no request. */
    struct sealed_as as = judged->opened->as;
    as.to_registration = judged->registers;
    if (!read_inner(bytes_of(&judged->opened->plaintext), allowed_as(as), &code, &inner) || !is_response_code(code)) {
        judged->status = OSCORE_INNER;
        return;
    }
    /* Later notifications come from the next place on. The last response is none, and ends the registration wherever it stands. */
    struct pending *pending = under(judge, judged->seen.head.token);
    judged->is_notification = judged->registers && is_notification(code, &inner);
    if (judged->is_notification && place < pending->from)
        judged->status = OSCORE_OLD;
    else if (judged->is_notification)
        pending->from = place + 1;
    else
        end_pending(judge, &judged->seen.head.token);
}

void judge_forget(struct client_judge *judge, struct bytes token, struct judged *judged) {
    *judged = (struct judged){.status = under(judge, token) ? OSCORE_DONE : OSCORE_NOT_PENDING};
    end_pending(judge, &token);
}
