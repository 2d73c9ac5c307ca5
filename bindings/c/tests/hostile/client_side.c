/* Peers side by side that ask, and what comes to them: calls of an application, responses of the server, and what becomes of those on their
   way. */
#include "sides.h"
#include <string.h>

/* A peer, its places, and room for what its calls are given. */
struct client_end {
    oscore_peer *peer;
    oscore_pending *pending;
    oscore_size *count;
    struct room handle, places, used, context, datagram, options, opened, request, plain, token, out, out_len, record, detail;
};

/* Each window will do where a peer only asks. */
enum { WINDOW = 1 };

static struct client_end ends[ENDS];
static struct client_judge judge;
static uint64_t last_moment, name;
/* The next Sender Sequence Number of the server that the test itself is. */
static uint64_t next_own;

static void make_rooms(struct client_end *end, int place) {
    const struct {
        struct room *room;
        oscore_size most;
    } rooms[] = {
        {&end->handle, sizeof(oscore_peer)}, {&end->places, MOST_PENDING * sizeof(oscore_pending)}, {&end->used, sizeof(oscore_size)},
        {&end->context, sizeof(oscore_context)}, {&end->datagram, 65600}, {&end->options, OPTIONS_ROOM * sizeof(oscore_option)},
        {&end->opened, sizeof(oscore_opened)}, {&end->request, sizeof(uint64_t)}, {&end->plain, TEXT_ROOM}, {&end->token, 8},
        {&end->out, OUT_ROOM}, {&end->out_len, sizeof(oscore_size)}, {&end->record, sizeof(oscore_peer_record)}, {&end->detail, sizeof(oscore_size)},
    };
    for (oscore_size i = 0; i < sizeof rooms / sizeof *rooms; i++) make_end_room(rooms[i].room, place, rooms[i].most);
}

static const oscore_context *context_of(struct client_end *end, int place) {
    oscore_context context;
    derive(0, false, place == 0, &context);
    return lay_bytes(&end->context, (struct bytes){(const uint8_t *)&context, sizeof context});
}

/* No place is used. */
static void lay_places(struct client_end *end) {
    end->pending = lay_zeros(&end->places, MOST_PENDING * sizeof *end->pending);
    end->count = lay_zeros(&end->used, sizeof *end->count);
}

void begin_asking(void) {
    for (int place = 0; place < ENDS; place++) {
        struct client_end *end = &ends[place];
        make_rooms(end, place);
        const oscore_context *context = context_of(end, place);
        end->peer = lay_zeros(&end->handle, sizeof *end->peer);
        lay_places(end);
        NEEDS(!oscore_peer_begin_first(end->peer, context, WINDOW, REQUEST_LIFE_MS) && !oscore_peer_name(context, &name));
    }
    judge.kept = first_kept();
}

/* One of few tokens, so that they come again; of none, one and eight bytes. */
static struct text draw_token(void) {
    struct text token = {.len = 0};
    uint8_t which = (uint8_t)below(13);
    for (oscore_size len = which == 0 ? 0 : which < 10 ? 1 : 8; token.len < len;) add_byte(&token, which);
    return token;
}

static uint64_t draw_moment(void) {
    bool near_oldest = one_in(3);
    return next_moment(&last_moment, near_oldest && judge.count ? &judge.pending[0].moment : NULL, REQUEST_LIFE_MS);
}

/* Token and number of a request that is pending, or of one that never was. */
static struct pending draw_target(void) {
    if (judge.count) return judge.pending[below(judge.count)];
    struct pending none = {.token = draw_token()};
    none.number = below(40);
    return none;
}

/* What a peer shows of itself: its clock, its numbers, and what is pending, oldest first. */
static bool is_state(const struct client_end *end) {
    const oscore_peer *peer = end->peer;
    const struct kept *kept = &judge.kept;
    if (peer->clock != judge.clock || peer->server.clock != 0 || peer->server.context.next != kept->next || *end->count != judge.count) return false;
    if (peer->reserved != kept->reserved || peer->received != kept->received || peer->name != name) return false;
    if (peer->generation != kept->generation || peer->life != kept->life) return false;
    for (oscore_size i = 0; i < judge.count; i++) {
        const oscore_pending *pending = &end->pending[i];
        const struct pending *wanted = &judge.pending[i];
        if (pending->number != wanted->number || pending->moment != wanted->moment) return false;
        if (pending->observes != wanted->registers || pending->from != wanted->from) return false;
        if (!is_same((struct bytes){pending->token, pending->token_len}, bytes_of(&wanted->token))) return false;
    }
    return true;
}

/* Hands a datagram to a peer, behind the judge. */
static struct came hear(struct client_end *end, uint64_t now, struct bytes handed, const struct judged *judged) {
    const struct room *const rooms[] = {&end->handle, &end->places, &end->used, &end->datagram, &end->options, &end->opened, &end->request,
                                        &end->detail, NULL};
    uint8_t *datagram = lay_bytes(&end->datagram, handed);
    oscore_option *options = lay_zeros(&end->options, OPTIONS_ROOM * sizeof *options);
    oscore_opened *opened = lay_zeros(&end->opened, sizeof *opened);
    uint64_t *request = lay_zeros(&end->request, sizeof *request);
    oscore_size *detail = lay(&end->detail, sizeof *detail);
    uint32_t status = oscore_peer_hear(end->peer, end->pending, MOST_PENDING, end->count, now, datagram, handed.len, options, OPTIONS_ROOM, opened,
                                       request, detail);
    struct bytes left = {datagram, handed.len};
    const char *differs = status != judged->status ? "answer"
        : status && *detail != judged->detail ? "detail"
        : !is_left(left, handed, judged) ? "left"
        : !are_clean(rooms) ? "behind"
        : !is_shown(&(struct shown){opened, options}, left, judged) || *request != (status ? 0 : judged->request) ? "shown"
        : !is_state(end) ? "state" : NULL;
    return (struct came){status, {NULL, 0}, differs};
}

/* Lays what a request is made of, and asks for it. */
static uint32_t call_request(struct client_end *end, const struct asked *asked) {
    const uint8_t *plain = lay_bytes(&end->plain, asked->plain);
    uint8_t *out = lay(&end->out, asked->room);
    oscore_peer_record *record = lay_zeros(&end->record, sizeof *record);
    oscore_size *out_len = lay_zeros(&end->out_len, sizeof *out_len), *detail = lay(&end->detail, sizeof *detail);
    return oscore_peer_request(end->peer, end->pending, MOST_PENDING, end->count, asked->now, plain, asked->plain.len, out, asked->room, out_len,
                               record, detail);
}

/* Whether a request that has to save first wrote nothing but the record to save, which is saved then. */
static bool is_save(struct client_end *end, const struct asked *asked, const struct save *save) {
    oscore_peer before = *end->peer;
    oscore_pending pending[MOST_PENDING];
    oscore_size count = *end->count;
    memcpy(pending, end->pending, sizeof pending);
    uint32_t status = call_request(end, asked);
    struct saving saving = {end->peer, &before, (oscore_peer_record *)end->record.at, save, name};
    return is_clean(&end->out, 0) && is_zero(end->out_len.at, end->out_len.len) && is_clean(&end->record, end->record.len)
        && count == *end->count && !memcmp(pending, end->pending, sizeof pending) && is_saved(&saving, status);
}

/* Asks a peer for a request, behind the judge. A refusal writes nothing. */
static struct came request(struct client_end *end, const struct asked *asked, const struct judged *judged) {
    const struct room *const rooms[] = {&end->handle, &end->places, &end->used, &end->plain, &end->out_len, &end->record, &end->detail, NULL};
    struct bytes none = {NULL, 0};
    for (oscore_size i = 0; i < judged->save_count; i++)
        if (!is_save(end, asked, &judged->saves[i])) return (struct came){OSCORE_SAVE_FIRST, none, "save"};
    uint32_t status = call_request(end, asked);
    const oscore_size *out_len = (const oscore_size *)end->out_len.at, *detail = (const oscore_size *)end->detail.at;
    struct bytes written = {end->out.at, *out_len <= asked->room ? *out_len : asked->room};
    const char *differs = status != judged->status ? "answer"
        : status && *detail != judged->detail ? "detail"
        : *out_len > asked->room || !is_same(written, bytes_of(&judged->written)) ? "written"
        : !is_same((struct bytes){end->plain.at, asked->plain.len}, asked->plain) ? "left"
        : !is_clean(&end->out, written.len) || !is_zero(end->record.at, end->record.len) || !are_clean(rooms) ? "behind"
        : !is_state(end) ? "state" : NULL;
    return (struct came){status, written, differs};
}

/* Begins each again; mostly at a number that the server hasn't seen of the other client of this context. Its clock begins anew. */
static void begin_again(void) {
    uint64_t others = requester_beside()->next;
    oscore_peer_record record = draw_record(&judge.kept, name, 6);
    struct came came[ENDS];
    if (one_in(2)) record.sender = others < NUMBER_LIMIT ? others : NUMBER_LIMIT - 1;
    struct judged judged = {.status = judge_begin(&record)};
    if (!judged.status) judge = (struct client_judge){.kept = kept_behind(&record)};
    for (int i = 0; i < ENDS; i++) {
        const oscore_peer_record *laid = lay_bytes(&ends[i].record, (struct bytes){(const uint8_t *)&record, sizeof record});
        uint32_t status = oscore_peer_begin_again(ends[i].peer, context_of(&ends[i], i), laid, WINDOW, REQUEST_LIFE_MS);
        if (!status) lay_places(&ends[i]);
        came[i] = (struct came){status, {NULL, 0}, status != judged.status ? "answer" : !is_state(&ends[i]) ? "state" : NULL};
    }
    report(BEGIN_ASKING, &judged, came, (struct bytes){NULL, 0});
}

/* Has each forget a token. */
static void forget(void) {
    struct pending target = draw_target();
    struct text other = draw_token();
    struct bytes token = one_in(3) ? bytes_of(&other) : bytes_of(&target.token);
    struct judged judged;
    struct came came[ENDS];
    judge_forget(&judge, token, &judged);
    for (int i = 0; i < ENDS; i++) {
        const uint8_t *laid = lay_bytes(&ends[i].token, token);
        uint32_t status = oscore_peer_forget(ends[i].peer, ends[i].pending, MOST_PENDING, ends[i].count, laid, token.len);
        came[i] = (struct came){status, {NULL, 0}, status != judged.status ? "answer" : !is_state(&ends[i]) ? "state" : NULL};
    }
    report(FORGET, &judged, came, token);
}

/* Asks each for a request, mostly a good one, and keeps what is sealed. */
static void ask(void) {
    static const uint8_t kinds[8] = {CON, CON, CON, CON, NON, NON, NON, ACK};
    static const uint8_t codes[12] = {1, 1, 1, 1, 1, 1, 5, 5, 5, 2, 4, 0x45};
    uint8_t kind = kinds[below(8)], code = codes[below(12)];
    struct text token = draw_token();
    bool is_cut = one_in(10);
    struct plain plain = draw_plain(kind, code, bytes_of(&token));
    plain.has_proxy = one_in(40);
    add_echoes(requester_beside(), &plain);
    struct text datagram = spell_plain(&plain);
    if (is_cut) datagram.len = below(datagram.len);
    struct asked asked = {draw_moment(), bytes_of(&datagram), OUT_ROOM};
    struct client_judge copy = judge;
    struct judged judged;
    struct came came[ENDS];
    judge_request(&copy, &asked, &judged);
    asked.room = draw_room(judged.written.len);
    judge_request(&judge, &asked, &judged);
    for (oscore_size i = 0; i < judged.save_count; i++) count_save(REQUEST);
    for (int i = 0; i < ENDS; i++) came[i] = request(&ends[i], &asked, &judged);
    report(REQUEST, &judged, came, asked.plain);
    judged.sealed.by_library = true;
    if (judged.has_sealed) keep(&judged.sealed);
}

/* Seals a response as the server, and keeps it. */
static void respond(void) {
    static const uint8_t kinds[3] = {ACK, CON, NON}, codes[4] = {0x45, 0x44, 0x81, 0xa0};
    struct pending target = draw_target();
    struct sealed_as as = {.is_response = true, .request = target.number, .to_registration = target.registers};
    struct sealed sealed;
    as.has_own = one_in(2);
    if (as.has_own) as.own = ++next_own;
    uint8_t kind = kinds[below(3)], code = codes[below(4)];
    struct plain plain = draw_plain(kind, code, bytes_of(&target.token));
    /* Most are notifications, where that may be; one in ten of the others has Observe all the same. */
    plain.has_observe = target.registers ? !one_in(4) : one_in(10);
    if (one_in(30)) as.to_registration = !as.to_registration;
    seal_by_chance(as, &plain, 0x01, &sealed);
    keep(&sealed);
}

/* Makes calls, each now and then, and a datagram, hands it to each, and compares what came of it. */
void step_asking(void) {
    struct judged judged;
    struct came came[ENDS];
    if (one_in(30)) begin_again();
    if (one_in(20)) forget();
    for (uint64_t times = one_in(15) ? 12 : below(3); times > 0; times--) ask();
    respond();
    struct bytes handed = delivered(true);
    uint64_t now = draw_moment();
    judge_response(&judge, now, handed, &judged);
    for (int i = 0; i < ENDS; i++) came[i] = hear(&ends[i], now, handed, &judged);
    report(HEAR, &judged, came, handed);
}
