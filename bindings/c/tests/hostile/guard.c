/* Room between two pages that nobody may touch. */
#define _DEFAULT_SOURCE
#include "guard.h"
#include <string.h>
#include <sys/mman.h>
#include <unistd.h>

/* How many bytes past the open edge are looked at. */
enum { MARGIN = 64 };

void make_room(struct room *room, oscore_size most, bool at_end, uint8_t fill) {
    oscore_size page = (oscore_size)sysconf(_SC_PAGESIZE), size = (most + MARGIN + page - 1) / page * page;
    uint8_t *pages = mmap(NULL, size + 2 * page, PROT_NONE, MAP_PRIVATE | MAP_ANONYMOUS, -1, 0);
    NEEDS(pages != MAP_FAILED && !mprotect(pages + page, size, PROT_READ | PROT_WRITE));
    *room = (struct room){.pages = pages + page, .size = size, .at_end = at_end, .fill = fill};
}

void *lay(struct room *room, oscore_size len) {
    NEEDS(len + MARGIN <= room->size);
    room->at = room->at_end ? room->pages + room->size - len : room->pages;
    room->len = len;
    memset(room->at_end ? room->at - MARGIN : room->at, room->fill, len + MARGIN);
    return room->at;
}

void *lay_bytes(struct room *room, struct bytes bytes) {
    lay(room, bytes.len);
    if (bytes.len) memcpy(room->at, bytes.at, bytes.len);
    return room->at;
}

void *lay_zeros(struct room *room, oscore_size len) {
    return memset(lay(room, len), 0, len);
}

bool is_clean(const struct room *room, oscore_size written) {
    for (oscore_size i = written; i < room->len; i++)
        if (room->at[i] != room->fill) return false;
    const uint8_t *margin = room->at_end ? room->at - MARGIN : room->at + room->len;
    for (oscore_size i = 0; i < MARGIN; i++)
        if (margin[i] != room->fill) return false;
    return true;
}
