/* Promises of khx_pack_check, khx_pack_entry, khx_pack_find and khx_pack_write. */
#include "packs.h"

#include "bytes.h"
#include "khalixoshi.h"
#include "promise.h"
#include "tries.h"

/* What the lists of the harness hold: more entries and longer bodies than a pack may have. */
enum { ENTRIES_HELD = 96, BODIES_HELD = 1 << 16 };

typedef struct lists {
    size_t count;
    uint16_t tags[ENTRIES_HELD];
    uint16_t cells[ENTRIES_HELD];
    uint16_t lengths[ENTRIES_HELD];
    size_t bodies_length;
    uint8_t bodies[BODIES_HELD];
} lists;

static lists held;

/* Mostly few, at times about as many as a pack may have. */
static size_t take_count(input *from)
{
    uint8_t first = take_byte(from);
    return first < 0xE0 ? first % 8 : KHX_ENTRIES_MAX - 16 + first % 32;
}

/* Mostly above the one before. */
static uint16_t tag_after(input *from, uint16_t tag)
{
    uint8_t step = take_byte(from);
    return (uint16_t)(step < 0xF0 ? tag + 1 + step : tag);
}

/* Tags that mostly ascend, lengths that are mostly the bodies' own. */
static void take_lists(input *from)
{
    uint16_t tag = take_u16(from);
    size_t sum = 0;
    held.count = take_count(from);
    for (size_t i = 0; i < held.count; i++) {
        held.tags[i] = tag;
        held.cells[i] = (uint16_t)take_size(from, KHX_CELLS_MAX);
        held.lengths[i] = (uint16_t)take_size(from, KHX_PROGRAM_MAX);
        sum += held.lengths[i];
        tag = tag_after(from, tag);
    }
    if (take_byte(from) >= 0xE0)
        sum = take_size(from, KHX_PACK_MAX);
    held.bodies_length = sum < BODIES_HELD ? sum : BODIES_HELD;
    take_contents(from, held.bodies, held.bodies_length);
}

static khx_written write_held(uint8_t *room, size_t room_length)
{
    return khx_pack_write(held.tags, held.count, held.cells, held.count, held.lengths, held.count, held.bodies,
                          held.bodies_length, room, room_length);
}

lent take_pack(input *from)
{
    static uint8_t pack[KHX_PACK_MAX];
    uint8_t way = take_byte(from);
    if (way < 0x40)
        return lend(from, take_size(from, KHX_PACK_MAX));
    take_lists(from);
    khx_written written = write_held(pack, sizeof pack);
    if (way >= 0xC0 && written.length > 0) {
        size_t at = take_u16(from) % written.length;
        pack[at] ^= take_byte(from);
    }
    return lend_copy(from, pack, written.length);
}

uint16_t number_at(const lent *pack, size_t at)
{
    const uint8_t *low = place_in(pack, at);
    return (uint16_t)(low[0] | low[1] << 8);
}

khx_entry entry_in(const lent *pack, size_t index)
{
    size_t at = HEAD + FIELDS * index;
    khx_entry entry = {0, 1, number_at(pack, at), number_at(pack, at + 2), number_at(pack, at + 4), number_at(pack, at + 6)};
    return entry;
}

static bool refuses_pack(size_t refusal)
{
    return refusal >= KHX_PACK_CONTENTS && refusal <= KHX_PACK_ENTRY;
}

khx_checked check_pack(const lent *pack)
{
    khx_checked checked = khx_pack_check(pack->bytes, pack->size);
    promise_kept(pack);
    promise(checked.refusal == 0 || (refuses_pack(checked.refusal) && checked.entries == 0), "packs are refused by 30 to 35");
    promise((pack->size > KHX_PACK_MAX) == (checked.refusal == KHX_PACK_SIZE), "31 is for packs over size");
    promise(checked.entries <= KHX_ENTRIES_MAX, "a pack has at most 64 entries");
    return checked;
}

static khx_entry entry_at(const lent *pack, size_t index)
{
    khx_entry entry = khx_pack_entry(pack->bytes, pack->size, index);
    promise_kept(pack);
    return entry;
}

bool same_entry(khx_entry one, khx_entry other)
{
    return one.refusal == other.refusal && one.present == other.present && one.tag == other.tag && one.cells == other.cells &&
           one.offset == other.offset && one.length == other.length;
}

khx_entry no_entry(size_t refusal)
{
    const khx_entry none = {refusal, 0, 0, 0, 0, 0};
    return none;
}

void promise_no_entry(khx_entry entry, size_t refusal)
{
    promise(same_entry(entry, no_entry(refusal)),
            "where there is no entry all is 0 but the refusal, which is the pack's own or 36");
}

bool in_limits(khx_entry entry)
{
    return entry.cells <= KHX_CELLS_MAX && entry.length <= KHX_PROGRAM_MAX;
}

bool inside(khx_entry entry, const lent *pack)
{
    return (size_t)entry.offset + entry.length <= pack->size;
}

static void promise_entry(khx_entry entry, const lent *pack, size_t entries)
{
    promise(entry.refusal == 0 && entry.present == 1, "a good pack gives each entry");
    promise(in_limits(entry), "an entry's numbers are in their limits");
    promise(entry.offset >= HEAD + FIELDS * entries && inside(entry, pack),
            "an entry's body is in the pack, after the contents");
}

/* The entries of a good pack, in the lists. */
static void hold_entries(const lent *pack, size_t entries)
{
    size_t offset = HEAD + FIELDS * entries;
    for (size_t i = 0; i < entries; i++) {
        khx_entry entry = entry_at(pack, i);
        promise_entry(entry, pack, entries);
        promise(entry.offset == offset, "bodies stand end to end");
        promise(i == 0 || entry.tag > held.tags[i - 1], "tags ascend");
        held.tags[i] = entry.tag;
        held.cells[i] = entry.cells;
        held.lengths[i] = entry.length;
        offset += entry.length;
    }
    promise(offset == pack->size, "the last body ends at the pack's end");
    held.count = entries;
    held.bodies_length = pack->size - HEAD - FIELDS * entries;
    copy_bytes(held.bodies, place_in(pack, HEAD + FIELDS * entries), held.bodies_length);
}

static void promise_writes_back(input *from, const lent *pack)
{
    lent room = lend_filled(from, pack->size);
    khx_written written = write_held(room.bytes, room.size);
    promise_around(&room);
    promise(written.refusal == 0 && written.length == pack->size, "a good pack's entries are written");
    promise(same_bytes(room.bytes, pack->bytes, pack->size), "writing a good pack's entries gives the same bytes");
}

void try_pack_check(input *from)
{
    lent pack = take_pack(from);
    khx_checked checked = check_pack(&pack);
    notice(CHECKED, checked.refusal);
    if (checked.refusal != 0)
        return;
    notice(ENTRIES, checked.entries);
    hold_entries(&pack, checked.entries);
    promise_no_entry(entry_at(&pack, checked.entries), 0);
    promise_writes_back(from, &pack);
}

void try_pack_entry(input *from)
{
    size_t index = take_number(from);
    lent pack = take_pack(from);
    khx_entry entry = entry_at(&pack, index);
    khx_checked checked = check_pack(&pack);
    notice(ENTERED, entry.refusal + entry.present);
    if (checked.refusal == 0 && index < checked.entries)
        promise_entry(entry, &pack, checked.entries);
    else
        promise_no_entry(entry, checked.refusal);
}

static khx_entry first_with(const lent *pack, size_t entries, uint16_t tag)
{
    for (size_t i = 0; i < entries; i++) {
        khx_entry entry = entry_at(pack, i);
        if (entry.tag == tag)
            return entry;
    }
    return no_entry(KHX_PACK_ABSENT);
}

static void promise_found(const lent *pack, khx_checked checked, uint16_t tag)
{
    khx_entry found = khx_pack_find(pack->bytes, pack->size, tag);
    notice(FOUND, found.refusal);
    promise_kept(pack);
    if (checked.refusal != 0)
        promise_no_entry(found, checked.refusal);
    else
        promise(same_entry(found, first_with(pack, checked.entries, tag)), "the entry found is the one that has the tag");
}

/* Any tag, and each of the pack's own. */
void try_pack_find(input *from)
{
    uint16_t tag = take_u16(from);
    lent pack = take_pack(from);
    khx_checked checked = check_pack(&pack);
    promise_found(&pack, checked, tag);
    for (size_t i = 0; i < checked.entries; i++)
        promise_found(&pack, checked, entry_at(&pack, i).tag);
}

typedef struct lent_lists {
    lent tags;
    lent cells;
    lent lengths;
    lent bodies;
} lent_lists;

/* The lists that are held, at times one of them shorter. */
static lent_lists lend_lists(input *from)
{
    uint8_t way = take_byte(from);
    size_t cut = way < 0xE0 || held.count == 0 ? 0 : 1 + way % 3;
    lent_lists all;
    all.tags = lend_copy(from, held.tags, 2 * (held.count - (cut == 1)));
    all.cells = lend_copy(from, held.cells, 2 * (held.count - (cut == 2)));
    all.lengths = lend_copy(from, held.lengths, 2 * (held.count - (cut == 3)));
    all.bodies = lend_copy(from, held.bodies, held.bodies_length);
    return all;
}

static khx_written write(const lent_lists *all, const lent *room)
{
    khx_written written = khx_pack_write(cells_of(&all->tags), all->tags.size / 2, cells_of(&all->cells), all->cells.size / 2,
                                         cells_of(&all->lengths), all->lengths.size / 2, all->bodies.bytes, all->bodies.size,
                                         room->bytes, room->size);
    promise_kept(&all->tags);
    promise_kept(&all->cells);
    promise_kept(&all->lengths);
    promise_kept(&all->bodies);
    promise_kept_from(room, written.length);
    return written;
}

static void promise_holds(const lent *pack)
{
    khx_checked checked = check_pack(pack);
    promise(checked.refusal == 0 && checked.entries == held.count, "a pack that was written is good and has all entries");
    for (size_t i = 0; i < held.count; i++) {
        khx_entry entry = entry_at(pack, i);
        promise_entry(entry, pack, held.count);
        promise(entry.tag == held.tags[i] && entry.cells == held.cells[i] && entry.length == held.lengths[i],
                "a pack that was written has the numbers of the lists");
    }
    promise(same_bytes(place_in(pack, HEAD + FIELDS * held.count), held.bodies, held.bodies_length),
            "a pack that was written has the bodies");
}

static bool refuses_writing(size_t refusal)
{
    return refusal == KHX_PACK_CONTENTS || refusal == KHX_PACK_TAGS || refusal == KHX_PACK_ENTRY || refusal == KHX_PACK_END ||
           refusal == KHX_PACK_SIZE || refusal == KHX_ROOM;
}

void try_pack_write(input *from)
{
    take_lists(from);
    lent_lists all = lend_lists(from);
    size_t whole = HEAD + FIELDS * held.count + held.bodies_length;
    lent room = as_room(lend_filled(from, take_room(from, whole)));
    khx_written written = write(&all, &room);
    notice(WRITTEN, written.refusal);
    if (written.refusal != 0) {
        promise(refuses_writing(written.refusal) && written.length == 0, "writing is refused by 30, 32, 35, 34, 31, 25");
        promise(written.refusal != KHX_ROOM || room.size < whole, "25 is for what is longer than the room");
        return;
    }
    promise(written.length == whole && whole <= room.size && whole <= KHX_PACK_MAX, "a pack's length is that of its parts");
    lent pack = lend_copy(from, room.bytes, written.length);
    promise_holds(&pack);
}
