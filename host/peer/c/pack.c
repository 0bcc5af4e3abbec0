/*
 * The check of a pack: its size, its contents, then each entry's tag, sizes and offset, last the end of the bodies. And
 * the scan for a tag, which trusts that the pack has passed it.
 */
#include "peer.h"

static inline uint32_t number_at(const uint8_t *pack, size_t at)
{
    return pack[at] | pack[at + 1] << 8;
}

peer_checked peer_pack_check(const uint8_t *pack, size_t pack_length)
{
    uint32_t entries, i, end, least = 0;

    if (pack_length > PACK_MAX) return (peer_checked){31, 0};
    if (pack_length < 2) return (peer_checked){30, 0};
    entries = number_at(pack, 0);
    if (entries > ENTRIES_MAX) return (peer_checked){30, 0};
    end = 2 + 8 * entries;
    if (pack_length < end) return (peer_checked){30, 0};
    for (i = 0; i < entries; i++) {
        const uint8_t *entry = pack + 2 + 8 * i;
        uint32_t tag = number_at(entry, 0), cells = number_at(entry, 2);
        uint32_t offset = number_at(entry, 4), length = number_at(entry, 6);
        if (tag < least) return (peer_checked){32, 0};
        if (cells > CELLS_MAX || length > PROGRAM_MAX) return (peer_checked){35, 0};
        if (offset != end) return (peer_checked){33, 0};
        least = tag + 1;
        end += length;
    }
    if (end != pack_length) return (peer_checked){34, 0};
    return (peer_checked){0, entries};
}

peer_found peer_pack_scan(const uint8_t *pack, uint16_t tag)
{
    uint32_t entries = number_at(pack, 0), i;

    for (i = 0; i < entries; i++) {
        const uint8_t *entry = pack + 2 + 8 * i;
        if (number_at(entry, 0) == tag)
            return (peer_found){0, {number_at(entry, 0), number_at(entry, 2), number_at(entry, 4), number_at(entry, 6)}};
    }
    return (peer_found){36, {0, 0, 0, 0}};
}
