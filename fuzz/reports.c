/* Promises of khx_report: it says of each entry what khx_verify says, and leaves the map as those calls leave it. */
#include "bytes.h"
#include "khalixoshi.h"
#include "lent.h"
#include "packs.h"
#include "promise.h"
#include "tries.h"

#include <stdio.h>

/* Characters of the longest line. */
enum { LINE = 24 };

typedef struct text {
    size_t length;
    char bytes[KHX_REPORT_MAX + LINE];
} text;

static void add_verdict(text *to, uint16_t tag, khx_verdict verdict)
{
    char *place = to->bytes + to->length;
    if (verdict.refusal == 0)
        to->length += (size_t)snprintf(place, LINE + 1, "%04X accepted\n", (unsigned)tag);
    else
        to->length += (size_t)snprintf(place, LINE + 1, "%04X refused %zu at %04zX\n", (unsigned)tag, verdict.refusal, verdict.at);
}

/* The report that the other functions make up; the map is used as it is by them. */
static text expected(const lent *pack, const lent *map)
{
    text all;
    khx_checked checked = khx_pack_check(pack->bytes, pack->size);
    all.length = 0;
    if (checked.refusal != 0)
        all.length = (size_t)snprintf(all.bytes, LINE + 1, "pack refused %zu\n", checked.refusal);
    for (size_t i = 0; i < checked.entries; i++) {
        khx_entry entry = khx_pack_entry(pack->bytes, pack->size, i);
        khx_verdict verdict = khx_verify(place_in(pack, entry.offset), entry.length, entry.cells, cells_of(map), entry.length);
        add_verdict(&all, entry.tag, verdict);
    }
    promise(all.length <= KHX_REPORT_MAX, "a report's length is in its limit");
    return all;
}

/* Mostly as many cells as the longest program needs, at times a few more or fewer, at times few. */
static lent lend_map(input *from)
{
    return as_room(lend_filled(from, 2 * take_room(from, KHX_PROGRAM_MAX)));
}

void try_report(input *from)
{
    lent pack = take_pack(from);
    lent map = lend_map(from);
    lent room = as_room(lend_filled(from, take_room(from, KHX_REPORT_MAX)));
    khx_written got = khx_report(pack.bytes, pack.size, cells_of(&map), map.size / 2, room.bytes, room.size);
    notice(REPORTED, got.refusal);
    promise_kept(&pack);
    promise_kept_from(&room, got.length);
    promise_around(&map);
    if (map.size / 2 < KHX_PROGRAM_MAX) {
        promise(got.refusal == KHX_MAP_SIZE && got.length == 0, "a report with too short a map is refused by 23");
        promise_kept(&map);
        return;
    }
    lent other = lend_copy(from, map.was, map.size);
    text all = expected(&pack, &other);
    promise_same(&map, &other);
    if (got.refusal == 0)
        promise(got.length == all.length && all.length <= room.size && same_bytes(room.bytes, all.bytes, all.length),
                "a report says what the verifier says of each entry, in its room");
    else
        promise(got.refusal == KHX_ROOM && got.length == 0 && room.size < all.length, "25 is for what is longer than the room");
}
