/* What was sealed so far: it takes the place of opening where a datagram is judged. */
#include "sealing.h"

enum { MOST = 96 };

static struct sealed kept[MOST];
static oscore_size count, newest, newest_by_library[2];

void keep(const struct sealed *sealed) {
    newest = count++ % MOST;
    kept[newest] = *sealed;
    if (sealed->by_library) newest_by_library[sealed->as.is_response] = newest;
}

static bool is_as(struct sealed_as one, struct sealed_as other) {
    return one.is_response == other.is_response && one.context == other.context && one.request == other.request
        && one.has_own == other.has_own && (!one.has_own || one.own == other.own);
}

const struct sealed *opens(struct sealed_as as, struct bytes ciphertext) {
    for (oscore_size i = 0; i < MOST && i < count; i++) {
        struct bytes datagram = bytes_of(&kept[i].datagram);
        oscore_size len = kept[i].plaintext.len + TAG_LEN;
        if (is_as(kept[i].as, as) && is_same(behind(datagram, datagram.len - len), ciphertext)) return &kept[i];
    }
    return NULL;
}

struct bytes last_sealed(void) {
    return bytes_of(&kept[newest].datagram);
}

struct bytes last_by_library(bool response) {
    return bytes_of(&kept[newest_by_library[response]].datagram);
}

struct bytes any_sealed(void) {
    NEEDS(count > 0);
    return bytes_of(&kept[below(count < MOST ? count : MOST)].datagram);
}
