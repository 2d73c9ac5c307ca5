/* Peers side by side that serve, one of each context, and what comes to them: requests of the clients of their contexts, and what becomes of
   those on their way; and answers that are asked for. */
#include "sides.h"
#include <string.h>

/* Peers, and room for what their calls are given. */
struct server_end {
    oscore_peer *peers[CONTEXTS];
    struct room handles[CONTEXTS], all, context, index, datagram, options, opened, ticket, plain, out, out_len, record, detail;
};

/* A ticket, and the peer that gave it. */
struct given {
    oscore_ticket ticket;
    oscore_size peer;
};

enum { TICKETS = 16, REPLY_ROOM = 64 };

static struct server_end ends[ENDS];
static struct server_judge judge;
static struct requester requesters[CONTEXTS];
static uint64_t last_moment;
/* The last tickets that were given, and those that observe. */
static struct given tickets[TICKETS], observing[TICKETS];
static oscore_size ticket_count, observing_count;

struct requester *requester_beside(void) {
    return &requesters[0];
}

static void make_rooms(struct server_end *end, int place) {
    const struct {
        struct room *room;
        oscore_size most;
    } rooms[] = {
        {&end->all, sizeof(oscore_peer[CONTEXTS])}, {&end->context, sizeof(oscore_context)}, {&end->index, sizeof(oscore_size)},
        {&end->datagram, 65600}, {&end->options, OPTIONS_ROOM * sizeof(oscore_option)}, {&end->opened, sizeof(oscore_opened)},
        {&end->ticket, sizeof(oscore_ticket)}, {&end->plain, TEXT_ROOM}, {&end->out, OUT_ROOM}, {&end->out_len, sizeof(oscore_size)},
        {&end->record, sizeof(oscore_peer_record)}, {&end->detail, sizeof(oscore_size)},
    };
    for (oscore_size i = 0; i < sizeof rooms / sizeof *rooms; i++) make_end_room(rooms[i].room, place, rooms[i].most);
    for (oscore_size i = 0; i < CONTEXTS; i++) make_end_room(&end->handles[i], place, sizeof(oscore_peer));
}

static const oscore_context *context_of(struct server_end *end, int place, oscore_size which) {
    oscore_context context;
    derive(which, true, place == 0, &context);
    return lay_bytes(&end->context, (struct bytes){(const uint8_t *)&context, sizeof context});
}

/* Peers that have never received a request. */
void begin_serving(void) {
    for (int place = 0; place < ENDS; place++) {
        struct server_end *end = &ends[place];
        make_rooms(end, place);
        for (oscore_size i = 0; i < CONTEXTS; i++) {
            const oscore_context *context = context_of(end, place, i);
            end->peers[i] = lay_zeros(&end->handles[i], sizeof(oscore_peer));
            NEEDS(!oscore_peer_begin_first(end->peers[i], context, AGREED[i].window_places, 0) && !oscore_peer_name(context, &judge.names[i]));
            judge.lives[i] = fresh_life(&AGREED[i]);
            requesters[i].context = i;
        }
    }
}

/* What a peer shows of itself: its clock, its numbers, and what opens and closes it. */
static bool is_state(const oscore_peer *peer, oscore_size which) {
    const oscore_server_context *context = &peer->server.context;
    const struct life *life = &judge.lives[which];
    const struct kept *kept = &life->kept;
    uint8_t gate = life->is_open ? (has_highest(life) ? 3 : 2) : life->is_challenged ? 1 : 0;
    if (peer->server.clock != life->clock || peer->clock != 0 || context->next != kept->next || context->gate != gate) return false;
    if (peer->reserved != kept->reserved || peer->received != kept->received || peer->name != judge.names[which]) return false;
    if (peer->generation != kept->generation || peer->life != kept->life) return false;
    if (gate == 3 && context->at != highest_of(life)) return false;
    return gate != 1 || (context->at == life->challenge.issued && !memcmp(context->echo, life->challenge.echo, 8));
}

static bool is_ticket(const oscore_ticket *ticket, const struct judged *judged) {
    if (judged->status) return is_zero(ticket, sizeof *ticket);
    struct head head = judged->seen.head;
    oscore_size peer = judged->opened->as.context;
    return ticket->context == (oscore_size)judge.names[peer] && ticket->life == judge.lives[peer].kept.life && ticket->number == judged->request
        && ticket->kind == head.kind && ticket->message_id == head.message_id
        && ticket->observes == judged->registers && !ticket->answered && is_same((struct bytes){ticket->token, ticket->token_len}, head.token);
}

/* Has an end find the peer that a datagram is for, behind the judge. */
static struct came find(struct server_end *end, struct bytes handed, const struct judged *judged, oscore_size found) {
    const struct room *const rooms[] = {&end->all, &end->index, &end->datagram, &end->detail, NULL};
    oscore_peer *all = lay(&end->all, sizeof(oscore_peer[CONTEXTS]));
    for (oscore_size i = 0; i < CONTEXTS; i++) all[i] = *end->peers[i];
    const uint8_t *datagram = lay_bytes(&end->datagram, handed);
    oscore_size *index = lay_zeros(&end->index, sizeof *index), *detail = lay(&end->detail, sizeof *detail);
    uint32_t status = oscore_peer_find(all, CONTEXTS, datagram, handed.len, index, detail);
    bool is_left = is_same((struct bytes){datagram, handed.len}, handed);
    for (oscore_size i = 0; i < CONTEXTS; i++) is_left &= !memcmp(&all[i], end->peers[i], sizeof all[i]);
    const char *differs = status != judged->status ? "answer"
        : status && *detail != judged->detail ? "detail"
        : *index != (status ? 0 : found) ? "shown"
        : !is_left ? "left"
        : !are_clean(rooms) ? "behind" : NULL;
    return (struct came){status, {NULL, 0}, differs};
}

/* Lays what a peer is handed, and hands it in. */
static uint32_t call_take(struct server_end *end, oscore_size peer, const struct handed *handed) {
    uint8_t *datagram = lay_bytes(&end->datagram, handed->datagram), *out = lay(&end->out, REPLY_ROOM);
    oscore_option *options = lay_zeros(&end->options, OPTIONS_ROOM * sizeof *options);
    oscore_opened *opened = lay_zeros(&end->opened, sizeof *opened);
    oscore_ticket *ticket = lay_zeros(&end->ticket, sizeof *ticket);
    oscore_peer_record *record = lay_zeros(&end->record, sizeof *record);
    oscore_size *out_len = lay(&end->out_len, sizeof *out_len), *detail = lay(&end->detail, sizeof *detail);
    return oscore_peer_take(end->peers[peer], handed->now, handed->message_id, datagram, handed->datagram.len, options, OPTIONS_ROOM, opened,
                            ticket, out, out_len, record, detail);
}

/* Whether a call to a peer wrote nothing but the record to save, which is saved then. */
static bool is_save(struct server_end *end, oscore_size peer, const oscore_peer *before, uint32_t status, const struct save *save) {
    struct saving saving = {end->peers[peer], before, (oscore_peer_record *)end->record.at, save, judge.names[peer]};
    return is_clean(&end->out, 0) && is_zero(end->out_len.at, end->out_len.len) && is_clean(&end->record, end->record.len)
        && is_saved(&saving, status);
}

/* Hands a datagram to a peer, behind the judge. */
static struct came take(struct server_end *end, oscore_size peer, const struct handed *handed, const struct judged *judged) {
    const struct room *const rooms[] = {&end->handles[peer], &end->datagram, &end->options, &end->opened, &end->ticket, &end->out_len,
                                        &end->record, &end->detail, NULL};
    struct bytes none = {NULL, 0};
    for (oscore_size i = 0; i < judged->save_count; i++) {
        oscore_peer before = *end->peers[peer];
        uint32_t status = call_take(end, peer, handed);
        bool is_as_it_came = is_same((struct bytes){end->datagram.at, end->datagram.len}, handed->datagram) && are_clean(rooms)
            && is_zero(end->ticket.at, end->ticket.len) && is_zero(end->opened.at, end->opened.len) && is_zero(end->options.at, end->options.len);
        if (!is_save(end, peer, &before, status, &judged->saves[i]) || !is_as_it_came) return (struct came){status, none, "save"};
    }
    uint32_t status = call_take(end, peer, handed);
    const oscore_size *out_len = (const oscore_size *)end->out_len.at, *detail = (const oscore_size *)end->detail.at;
    struct bytes left = {end->datagram.at, handed->datagram.len}, written = {end->out.at, *out_len <= REPLY_ROOM ? *out_len : REPLY_ROOM};
    const char *differs = status != judged->status ? "answer"
        : status && *detail != judged->detail ? "detail"
        : *out_len > REPLY_ROOM || !is_same(written, bytes_of(&judged->written)) ? "written"
        : !is_left(left, handed->datagram, judged) ? "left"
        : !is_clean(&end->out, written.len) || !is_zero(end->record.at, end->record.len) || !are_clean(rooms) ? "behind"
        : !is_shown(&(struct shown){(const oscore_opened *)end->opened.at, (const oscore_option *)end->options.at}, left, judged) ? "shown"
        : !is_ticket((const oscore_ticket *)end->ticket.at, judged) ? "ticket"
        : !is_state(end->peers[peer], peer) ? "state" : NULL;
    return (struct came){status, written, differs};
}

/* Lays what an answer or a notification is made of, and asks for it. */
static uint32_t call_reply(struct server_end *end, enum call call, const struct answer *answer) {
    oscore_ticket *ticket = lay_bytes(&end->ticket, (struct bytes){(const uint8_t *)&answer->ticket, sizeof *ticket});
    const uint8_t *plain = lay_bytes(&end->plain, answer->plain);
    uint8_t *out = lay(&end->out, answer->room);
    oscore_peer_record *record = lay_zeros(&end->record, sizeof *record);
    oscore_size *out_len = lay_zeros(&end->out_len, sizeof *out_len), *detail = lay(&end->detail, sizeof *detail);
    oscore_peer *peer = end->peers[answer->peer];
    return call == REPLY ? oscore_peer_reply(peer, ticket, answer->own, answer->message_id, plain, answer->plain.len, out, answer->room, out_len,
                                             record, detail)
        : oscore_peer_notify(peer, ticket, plain, answer->plain.len, out, answer->room, out_len, record, detail);
}

/* Has a peer seal an answer or a notification, behind the judge. A refusal writes nothing. */
static struct came reply(struct server_end *end, enum call call, const struct answer *answer, const struct judged *judged) {
    const struct room *const rooms[] = {&end->handles[answer->peer], &end->ticket, &end->plain, &end->out_len, &end->record, &end->detail, NULL};
    struct bytes none = {NULL, 0};
    for (oscore_size i = 0; i < judged->save_count; i++) {
        oscore_peer before = *end->peers[answer->peer];
        uint32_t status = call_reply(end, call, answer);
        if (!is_save(end, answer->peer, &before, status, &judged->saves[i])) return (struct came){status, none, "save"};
    }
    uint32_t status = call_reply(end, call, answer);
    const oscore_size *out_len = (const oscore_size *)end->out_len.at, *detail = (const oscore_size *)end->detail.at;
    struct bytes written = {end->out.at, *out_len <= answer->room ? *out_len : answer->room};
    /* A reply is marked in its ticket. */
    oscore_ticket ticket = answer->ticket;
    if (call == REPLY && !judged->status) ticket.answered = 1;
    bool is_left = !memcmp(end->ticket.at, &ticket, sizeof ticket)
        && is_same((struct bytes){end->plain.at, answer->plain.len}, answer->plain);
    const char *differs = status != judged->status ? "answer"
        : status && *detail != judged->detail ? "detail"
        : *out_len > answer->room || !is_same(written, bytes_of(&judged->written)) ? "written"
        : !is_left ? "left"
        : !is_clean(&end->out, written.len) || !is_zero(end->record.at, end->record.len) || !are_clean(rooms) ? "behind"
        : !is_state(end->peers[answer->peer], answer->peer) ? "state" : NULL;
    return (struct came){status, written, differs};
}

/* Begins a peer again: all its tickets are stale from then on. */
static void begin_again(oscore_size peer) {
    oscore_peer_record record = draw_record(&judge.lives[peer].kept, judge.names[peer], 4);
    struct came came[ENDS];
    struct judged judged = {.status = judge_begin(&record)};
    if (!judged.status) {
        restart_life(&judge.lives[peer], &record);
        requesters[peer].next = record.received + below(1000);
    }
    for (int i = 0; i < ENDS; i++) {
        const oscore_peer_record *laid = lay_bytes(&ends[i].record, (struct bytes){(const uint8_t *)&record, sizeof record});
        uint32_t status = oscore_peer_begin_again(ends[i].peers[peer], context_of(&ends[i], i, peer), laid, AGREED[peer].window_places, 0);
        const char *differs = status != judged.status ? "answer"
            : memcmp(laid, &record, sizeof record) || !is_clean(&ends[i].record, sizeof record) ? "left"
            : !is_state(ends[i].peers[peer], peer) ? "state" : NULL;
        came[i] = (struct came){status, {NULL, 0}, differs};
    }
    report(BEGIN_SERVING, &judged, came, (struct bytes){NULL, 0});
}

/* The place of a ticket whose request is about to lie too far back, or just does; of the last where there is none. */
static oscore_size edge_ticket(void) {
    for (oscore_size i = 0; i < TICKETS && i < ticket_count; i++) {
        const struct life *life = &judge.lives[tickets[i].peer];
        uint64_t far = highest_of(life) - tickets[i].ticket.number;
        if (life->kept.life == tickets[i].ticket.life && (far == 63 || far == 64)) return i;
    }
    return (ticket_count - 1) % TICKETS;
}

/* A ticket, mostly the last, now and then altered, or at another peer. */
static struct given draw_ticket(void) {
    oscore_size older = below(ticket_count < TICKETS ? ticket_count : TICKETS), which = below(4);
    struct given given = tickets[which == 0 ? older : which == 1 ? edge_ticket() : (ticket_count - 1) % TICKETS];
    oscore_ticket *ticket = &given.ticket;
    switch (below(45)) {
    case 0: ticket->number++; break;
    case 1: ticket->number -= ticket->number > 0; break;
    case 2: ticket->life++; break;
    case 3: ticket->context++; break;
    case 4: ticket->context = 0; break;
    case 5: ticket->message_id ^= 1, ticket->kind ^= 1; break;
    case 6: ticket->observes ^= 1; break;
    case 7: ticket->observes = 2; break;
    case 9: ticket->answered = (uint8_t)(1 + below(255)); break;
    case 8: given.peer = (given.peer + 1) % CONTEXTS; break;
    }
    return given;
}

/* Mostly a ticket that observes in a life that goes on, where there is one; half of the time the last. */
static struct given draw_observing(void) {
    oscore_size among = observing_count < TICKETS ? observing_count : TICKETS, any = below(TICKETS);
    oscore_size first = one_in(2) ? observing_count + TICKETS - 1 : any;
    bool is_any = one_in(6);
    for (oscore_size i = 0; !is_any && i < among; i++) {
        const struct given *given = &observing[(first + among - i) % among];
        if (judge.lives[given->peer].kept.life == given->ticket.life) return *given;
    }
    return draw_ticket();
}

/* Asks a peer of each end for an answer or a notification, mostly a good one. */
static void ask_for(enum call call) {
    static const uint8_t codes[4] = {0x45, 0x44, 0x81, 0xa0};
    uint8_t kind = (uint8_t)below(4), code = codes[below(call == NOTIFY ? 3 : 4)];
    bool is_of_request = one_in(12), is_cut = one_in(10);
    struct text token = draw_text(9);
    struct plain plain = draw_plain(kind, is_of_request ? 0x01 : code, bytes_of(&token));
    if (call == NOTIFY) plain.has_observe = !one_in(8);
    plain.has_proxy = one_in(40);
    struct text datagram = spell_plain(&plain);
    if (is_cut) datagram.len = below(datagram.len);
    struct given given = call == NOTIFY ? draw_observing() : draw_ticket();
    struct answer answer = {.peer = given.peer, .ticket = given.ticket, .plain = bytes_of(&datagram), .room = OUT_ROOM};
    answer.own = one_in(2);
    answer.message_id = (uint16_t)below(1 << 16);
    struct server_judge copy = judge;
    struct judged judged;
    struct came came[ENDS];
    void (*judges)(struct server_judge *, const struct answer *, struct judged *) = call == NOTIFY ? judge_notify : judge_reply;
    judges(&copy, &answer, &judged);
    answer.room = draw_room(judged.written.len);
    judges(&judge, &answer, &judged);
    for (oscore_size i = 0; i < judged.save_count; i++) count_save(call);
    for (int i = 0; i < ENDS; i++) came[i] = reply(&ends[i], call, &answer, &judged);
    report(call, &judged, came, answer.plain);
    judged.sealed.by_library = true;
    if (judged.has_sealed) keep(&judged.sealed);
}

/* The peer that a datagram is for, now and then another; any where it is for none. */
static oscore_size find_peer(struct bytes datagram) {
    oscore_size any = below(CONTEXTS), found = CONTEXTS;
    bool is_any = one_in(20);
    struct judged judged;
    struct came came[ENDS];
    judge_find(datagram, &judged, &found);
    for (int i = 0; i < ENDS; i++) came[i] = find(&ends[i], datagram, &judged, found);
    report(FIND, &judged, came, datagram);
    return judged.status || is_any ? any : found;
}

/* Makes a datagram, hands it to a peer of each end, and compares what came of it; now and then asks for answers and notifications. */
void step_serving(void) {
    oscore_size context = below(CONTEXTS);
    struct life *life = &judge.lives[context];
    struct sealed sealed;
    struct judged judged;
    struct came came[ENDS];
    if (one_in(25)) begin_again(context);
    seal_next_request(&requesters[context], life, &sealed);
    keep(&sealed);
    struct handed handed = {.datagram = delivered(false)};
    handed.now = next_moment(&last_moment, life->is_challenged ? &life->challenge.issued : NULL, CHALLENGE_LIFE_MS);
    handed.message_id = (uint16_t)below(1 << 16);
    oscore_size peer = find_peer(handed.datagram);
    judge_take(&judge, peer, &handed, &judged);
    for (oscore_size i = 0; i < judged.save_count; i++) count_save(TAKE);
    for (int i = 0; i < ENDS; i++) came[i] = take(&ends[i], peer, &handed, &judged);
    report(TAKE, &judged, came, handed.datagram);
    bool is_delivered = came[0].status == OSCORE_DONE, is_registered = is_delivered && judged.registers;
    if (is_delivered) {
        struct given given = {*(const oscore_ticket *)ends[0].ticket.at, peer};
        tickets[ticket_count++ % TICKETS] = given;
        if (is_registered) observing[observing_count++ % TICKETS] = given;
    }
    judged.sealed.by_library = true;
    if (judged.has_sealed) keep(&judged.sealed);
    /* A registration has its answer later: with that, it isn't notified. */
    for (uint64_t times = is_delivered && !is_registered ? below(3) : ticket_count ? one_in(6) : 0; times > 0; times--) ask_for(REPLY);
    for (uint64_t times = ticket_count ? is_registered + below(3) : 0; times > 0; times--) ask_for(NOTIFY);
}
