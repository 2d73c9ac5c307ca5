#include "steps.h"
#include "application.h"
#include "era.h"
#include "monotonic.h"
#include "trial.h"
#include <stdio.h>
#include <sys/random.h>

/* A row that others write first so often in a row is left to them. */
enum { ATTEMPTS = 1000 };

bool steps_send(const steps *s, const item *of) {
    if (of->out_len == 0) return false;
    bool unprotected = of->outcome == ITEM_UNPROTECTED || of->outcome == ITEM_SPENT;
    if (unprotected && !counts_allow(s->counted, &of->from, s->with->unprotected, monotonic_ms() / 1000)) {
        count_one(s->counted, COUNT_SILENCED);
        return false;
    }
    if (!unprotected) trial_sent(&of->stored.key, of->number, of->out, of->out_len);
    ssize_t sent = sendto(s->udp, of->out, of->out_len, MSG_DONTWAIT, (const struct sockaddr *)&of->from.bytes, of->from.len);
    if (sent == (ssize_t)of->out_len) return true;
    count_one(s->counted, COUNT_UNSENT);
    return false;
}

void steps_drop(item *of) {
    of->outcome = ITEM_SILENT;
    of->out_len = 0;
}

/* A new message ID, of fresh bytes: none are handed out twice. */
static bool draw(steps *s, uint16_t *mid) {
    if (s->fresh_left == 0) {
        if (getrandom(s->fresh, sizeof s->fresh, 0) != sizeof s->fresh) return false;
        s->fresh_left = FRESH_AT_ONCE;
    }
    *mid = s->fresh[--s->fresh_left];
    return true;
}

/* A peer takes a copy of the datagram. */
static oscore_status take(oscore_peer *by, item *of) {
    oscore_peer_record record = OSCORE_ZERO;
    oscore_status status;
    size_t detail;
    memcpy(of->datagram, of->came, of->came_len);
    do status = oscore_peer_take(by, now_ms(), of->mid, of->datagram, of->came_len, of->options, OPTIONS_MOST, &of->opened, &of->ticket, of->out,
                                 &of->out_len, &record, &detail);
    while (life_goes_on(by, status, &record));
    return status;
}

/* What the library says to a request without a context; and a ping is answered by an RST (RFC 7252, 4.3). */
static void refuse(steps *s, item *of) {
    oscore_status status = take(&s->none, of);
    bool ping = status == OSCORE_NOT_THAT_KIND && of->came_len == 4 && of->came[0] == 0x40 && of->came[1] == 0;
    if (ping) memcpy(of->out, (const uint8_t[]){0x70, 0, of->came[2], of->came[3]}, of->out_len = 4);
    of->outcome = of->out_len > 0 ? ITEM_UNPROTECTED : ITEM_SILENT;
    count_one(s->counted, status == OSCORE_NO_CONTEXT ? COUNT_UNKNOWN : COUNT_REFUSED);
}

/* Step 2: a row of an earlier era begins a new life. A row of a later one isn't touched: this gateway was told too early an era. */
static bool renew(steps *s, item *of) {
    if (of->row.era < s->with->era) {
        if (row_renew(&of->row, s->with->era) != OSCORE_DONE) return false;
        count_one(s->counted, COUNT_RENEWED);
    } else if (of->row.era > s->with->era) {
        count_one(s->counted, COUNT_LATER_ERA);
        return false;
    }
    bool challenges = of->row.peer.server.context.gate < 2;
    if (!challenges || own_number_allowed(of->row.peer.server.context.next, now_ms())) return true;
    count_one(s->counted, COUNT_LIMITED);
    return false;
}

/* A replay may be the last request once more. */
static void judge_replay(steps *s, item *of) {
    const row *row = &of->row;
    if (!row->asked || row->number != of->number || row->hash != of->hash) {
        count_one(s->counted, COUNT_REPLAYS);
        return;
    }
    bool again = of->confirmable && row->reply_len > 0;
    of->outcome = again ? ITEM_AGAIN : ITEM_SILENT;
    of->out_len = again ? row->reply_len : 0;
    memcpy(of->out, row->reply, of->out_len);
    count_one(s->counted, again ? COUNT_RESENT : COUNT_WAITING);
}

/* Step 3: the row's peer takes the datagram. */
static void judge(steps *s, item *of) {
    oscore_status status = take(&of->row.peer, of);
    of->outcome = of->out_len > 0 ? ITEM_UNPROTECTED : ITEM_SILENT;
    of->own = status == OSCORE_DONE && of->ticket.observes;
    if (status == OSCORE_DONE) {
        of->outcome = ITEM_DELIVERED;
        row_asked(&of->row, of->number, of->hash);
    } else if (status == OSCORE_CHALLENGE) {
        of->outcome = ITEM_CHALLENGE;
    } else if (status == OSCORE_INNER) {
        of->outcome = ITEM_SPENT;
        count_one(s->counted, COUNT_REFUSED);
    } else if (status == OSCORE_REPLAY) {
        judge_replay(s, of);
    } else {
        count_one(s->counted, COUNT_REFUSED);
    }
}

static bool is_written(const item *of) {
    return of->outcome == ITEM_SPENT || of->outcome == ITEM_CHALLENGE || of->outcome == ITEM_DELIVERED;
}

/* What the row says counts, and not what was sealed before a write that came too late: each time the ticket is as the delivery gave it. */
static oscore_status reply(item *of) {
    oscore_peer *by = &of->row.peer;
    oscore_ticket ticket = of->ticket;
    oscore_peer_record record = OSCORE_ZERO;
    oscore_status status;
    size_t detail;
    do status = oscore_peer_reply(by, &ticket, of->own, of->mid, of->plain, of->plain_len, of->out, sizeof of->out, &of->out_len, &record, &detail);
    while (life_goes_on(by, status, &record));
    return status;
}

/* Seals the reply in the row. What the application says that can't be sealed becomes a 5.02. */
static bool seal(steps *s, item *of) {
    enum { BAD_GATEWAY = 162 };
    of->out_len = 0;
    if (of->own && !own_number_allowed(of->row.peer.server.context.next, now_ms())) {
        count_one(s->counted, COUNT_LIMITED);
        return false;
    }
    for (int attempt = 0; attempt < 2; attempt++) {
        oscore_status status = reply(of);
        if (status == OSCORE_DONE) {
            row_answered(&of->row, of->number, of->hash, of->out, of->out_len);
            return true;
        }
        if (status == OSCORE_STALE_TICKET || status == OSCORE_TICKET_SPENT) break;
        application_say(of, BAD_GATEWAY);
    }
    of->out_len = 0;
    return false;
}

/* In tx the effect and the reply are part of the write of the delivery. False: then nothing is written, and the request isn't delivered. */
static bool seal_effect(steps *s, item *of) {
    if (s->with->mode != MODE_TX || of->outcome != ITEM_DELIVERED) return true;
    application_obey(of, true);
    return seal(s, of);
}

/* Reads which row it is; false where that can't be. */
static bool name(item *of) {
    oscore_request_head head;
    size_t detail;
    if (oscore_head(of->came, of->came_len, &head, &detail) || !row_key_of(&of->stored.key, &head)) return false;
    of->number = head.number;
    of->confirmable = head.kind == 0;
    of->hash = hash_bytes(address_hash(&of->from), of->came, of->came_len);
    return true;
}

/* Of the items that aren't settled the next ones, in the order of their keys. Of those with one key the first alone is among them: the others
   then begin with what it wrote. Answers how many. */
static size_t gather(item items[], size_t count, item *next[BATCH_MOST]) {
    size_t gathered = 0;
    for (size_t i = 0; i < count; i++) {
        if (items[i].settled) continue;
        size_t at = gathered;
        while (at > 0 && row_key_compare(&next[at - 1]->stored.key, &items[i].stored.key) > 0) at--;
        if (at > 0 && row_key_compare(&next[at - 1]->stored.key, &items[i].stored.key) == 0) continue;
        memmove(next + at + 1, next + at, (gathered - at) * sizeof *next);
        next[at] = &items[i];
        gathered++;
    }
    return gathered;
}

/* Step 1: the rows that the items name. */
static bool find(steps *s, item *of[], size_t count) {
    store_row *rows[BATCH_MOST];
    size_t unread = 0;
    for (size_t i = 0; i < count; i++)
        if (!of[i]->is_read) rows[unread++] = &of[i]->stored;
    if (!store_get_all(s->store, rows, unread)) return false;
    for (size_t i = 0; i < count; i++) {
        store_row *found = &of[i]->stored;
        if (of[i]->is_read || found->answer != STORE_DONE || row_read(&of[i]->row, &found->key, &found->bytes)) continue;
        count_one(s->counted, COUNT_SPOILT);
        found->answer = STORE_NOT;
    }
    return true;
}

/* Step 4: writes the rows, each where its version is still the one that was read. An item whose row another wrote first isn't settled. */
static bool keep(steps *s, item *of[], size_t count) {
    store_row *rows[BATCH_MOST];
    row_bytes now;
    for (size_t i = 0; i < count; i++) {
        store_row *kept = rows[i] = &of[i]->stored;
        row_write(&of[i]->row, &kept->key, &kept->bytes);
        if (trial_of() == TRIAL_VERSION && s->store->calls->get(s->store, &kept->key, &now) == STORE_DONE) kept->bytes.version = now.version;
    }
    if (!store_put_all(s->store, rows, count)) return false;
    for (size_t i = 0; i < count; i++) {
        of[i]->settled = rows[i]->answer == STORE_DONE;
        of[i]->is_read = false;
        if (of[i]->settled) rows[i]->bytes.version++;
        else count_one(s->counted, COUNT_CONFLICTS);
    }
    return true;
}

/* Makes of an item whose row was read what is written and sent. False: nothing is written. */
typedef bool maker(steps *s, item *of);

/* Reads the rows of some items, makes what is to be made, and writes it. */
static bool settle_some(steps *s, item *some[], size_t count, maker *make) {
    size_t written = 0;
    if (!find(s, some, count)) return false;
    for (size_t i = 0; i < count; i++) {
        some[i]->settled = !make(s, some[i]);
        if (!some[i]->settled) some[written++] = some[i];
    }
    return keep(s, some, written);
}

/* An item whose row another wrote first begins again: all that was made for it is forgotten. */
static bool settle(steps *s, item items[], size_t count, maker *make) {
    item *next[BATCH_MOST];
    size_t gathered;
    for (int attempt = 0; attempt < ATTEMPTS && (gathered = gather(items, count, next)) > 0; attempt++)
        if (!settle_some(s, next, gathered, make)) return false;
    for (size_t i = 0; i < count; i++)
        if (!items[i].settled) steps_drop(&items[i]);
    return true;
}

/* Where a store has one row a call, one item is settled after the other. */
static bool settle_all(steps *s, item items[], size_t count, maker *make) {
    size_t at_once = s->store->calls->put_all ? count : 1;
    for (size_t i = 0; i < count; i += at_once)
        if (!settle(s, items + i, at_once, make)) return false;
    return true;
}

/* Steps 2 and 3, with the datagram as it came: what an earlier attempt made is forgotten, and was never sent. */
static bool make_delivery(steps *s, item *of) {
    steps_drop(of);
    if (of->stored.answer == STORE_NOT) {
        refuse(s, of);
        return false;
    }
    if (!renew(s, of)) return false;
    judge(s, of);
    if (!is_written(of)) return false;
    if (!seal_effect(s, of)) {
        steps_drop(of);
        return false;
    }
    if (trial_of() == TRIAL_ACT && of->outcome == ITEM_DELIVERED) trial_delivered(&of->stored.key, of->number);
    if (trial_of() == TRIAL_SEND) steps_send(s, of);
    trial_reach(TRIAL_TAKEN);
    return true;
}

/* Step 5. Where the reply isn't written only this worker has the ticket: nobody else seals under the request's number. */
static bool make_reply(steps *s, item *of) {
    if (of->stored.answer == STORE_NOT || of->row.era != s->with->era || !seal(s, of)) {
        steps_drop(of);
        return false;
    }
    if (s->with->mode == MODE_LAZY && !of->own) return false;
    if (trial_of() == TRIAL_SEND) steps_send(s, of);
    return true;
}

/* A peer of a context that nobody has: its secret is drawn, and so is its ID context, so that no request names it. */
static bool begin_none(oscore_peer *none) {
    enum { LEN = 32 };
    static const uint8_t END[] = {1};
    uint8_t fresh[2 * LEN];
    oscore_context context = OSCORE_ZERO;
    oscore_parameters parameters = OSCORE_ZERO;
    if (getrandom(fresh, sizeof fresh, 0) != sizeof fresh) {
        perror("worker: random bytes");
        return false;
    }
    parameters.secret = fresh, parameters.secret_len = LEN;
    parameters.id_context = fresh + LEN, parameters.id_context_len = LEN;
    parameters.recipient_id = END, parameters.recipient_id_len = sizeof END;
    return oscore_derive_from(&context, &parameters) == OSCORE_DONE && life_begin_first(none, &context) == OSCORE_DONE;
}

bool steps_open(steps *s, const settings *with, counts *counted, int udp) {
    s->with = with;
    s->counted = counted;
    s->udp = udp;
    s->fresh_left = 0;
    s->store = store_open(with->store);
    return s->store && begin_none(&s->none);
}

/* Whether what is read and written for several datagrams is one transaction. */
static bool shares(const steps *s) {
    return s->with->batch > 1 && s->store->calls->one_writes;
}

bool steps_begin(const steps *s) {
    return !shares(s) || s->store->calls->begin(s->store);
}

bool steps_commit(const steps *s) {
    return !shares(s) || s->store->calls->commit(s->store);
}

bool steps_take(steps *s, item items[], size_t count) {
    for (size_t i = 0; i < count; i++) {
        item *of = &items[i];
        steps_drop(of);
        if (!draw(s, &of->mid)) return false;
        of->is_read = false;
        of->settled = !name(of);
        if (of->settled) refuse(s, of);
    }
    return settle_all(s, items, count, make_delivery);
}

bool steps_answer(steps *s, item items[], size_t count, bool are_read) {
    bool writes = false;
    for (size_t i = 0; i < count; i++) {
        items[i].settled = items[i].outcome != ITEM_DELIVERED;
        items[i].is_read = are_read;
        writes = writes || (!items[i].settled && (s->with->mode == MODE_STRICT || items[i].own));
    }
    if (writes && !steps_begin(s)) return false;
    return settle_all(s, items, count, make_reply) && (!writes || steps_commit(s));
}
