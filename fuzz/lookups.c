/*
 * Promises of khx_pack_lookup: of any bytes it gives what the four steps of "The lookup" in docs/CONFORMANCE.md come to, which
 * are worked here from the page, without the library; in a good pack that is what khx_pack_find gives.
 */
#include "packs.h"
#include "promise.h"
#include "tries.h"

/* Step 1: the number by which contents are refused that cannot be read, or 0. */
static size_t unread(const lent *pack)
{
    if (pack->size > KHX_PACK_MAX)
        return KHX_PACK_SIZE;
    if (pack->size < HEAD || number_at(pack, 0) > KHX_ENTRIES_MAX || pack->size < HEAD + FIELDS * (size_t)number_at(pack, 0))
        return KHX_PACK_CONTENTS;
    return 0;
}

static size_t greatest_power_below(size_t count)
{
    size_t power = 1;
    while (2 * power < count)
        power *= 2;
    return power;
}

static bool not_above(const lent *pack, size_t index, uint16_t tag)
{
    return entry_in(pack, index).tag <= tag;
}

/* Step 3: the index of the entry that is come to, of so many. */
static size_t come_to(const lent *pack, size_t entries, uint16_t tag)
{
    if (entries == 1)
        return 0;
    size_t width = greatest_power_below(entries);
    size_t at = not_above(pack, width, tag) ? entries - width : 0;
    for (size_t further = width / 2; further > 0; further /= 2)
        if (not_above(pack, at + further, tag))
            at += further;
    return at;
}

/* Step 4. */
static khx_entry judged(khx_entry entry, const lent *pack, uint16_t tag)
{
    if (entry.tag != tag)
        return no_entry(KHX_PACK_ABSENT);
    if (!in_limits(entry))
        return no_entry(KHX_PACK_ENTRY);
    return inside(entry, pack) ? entry : no_entry(KHX_PACK_END);
}

/* All steps, the second among them. */
static khx_entry defined(const lent *pack, uint16_t tag)
{
    if (unread(pack) != 0)
        return no_entry(unread(pack));
    size_t entries = number_at(pack, 0);
    if (entries == 0)
        return no_entry(KHX_PACK_ABSENT);
    return judged(entry_in(pack, come_to(pack, entries, tag)), pack, tag);
}

static void promise_looked_up(const lent *pack, bool good, uint16_t tag)
{
    khx_entry found = khx_pack_lookup(pack->bytes, pack->size, tag);
    notice(LOOKED_UP, found.refusal);
    promise_kept(pack);
    if (found.refusal != 0)
        promise_no_entry(found, found.refusal);
    else
        promise(found.present == 1 && found.tag == tag && in_limits(found) && inside(found, pack),
                "an entry looked up has the tag, is in its limits and inside the bytes");
    promise(same_entry(found, defined(pack, tag)), "a lookup gives what the four steps of docs/CONFORMANCE.md come to");
    if (good)
        promise(same_entry(found, khx_pack_find(pack->bytes, pack->size, tag)), "in a good pack a tag is looked up as it is found");
}

/* Any tag, each that the contents have, whether the pack is good or not, and those beside it. */
void try_pack_lookup(input *from)
{
    uint16_t tag = take_u16(from);
    lent pack = take_pack(from);
    bool good = check_pack(&pack).refusal == 0;
    promise_looked_up(&pack, good, tag);
    size_t entries = unread(&pack) == 0 ? number_at(&pack, 0) : 0;
    for (size_t i = 0; i < entries; i++)
        for (int beside = -1; beside <= 1; beside++)
            promise_looked_up(&pack, good, (uint16_t)(entry_in(&pack, i).tag + beside));
}
