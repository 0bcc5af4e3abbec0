/* Numbers, sizes and contents from a fuzzer's input. */
#include "input.h"

#include "bytes.h"

/* The first byte that stands for some hundreds, the first that stands for a place near the limit, and how near that is. */
enum { HUNDREDS = 0xE8, EDGES = 0xF8, NEAR = 4 };

uint8_t take_byte(input *from)
{
    if (from->left == 0)
        return 0;
    from->left--;
    return *from->next++;
}

uint16_t take_u16(input *from)
{
    uint16_t low = take_byte(from);
    return (uint16_t)(low | take_byte(from) << 8);
}

uint32_t take_u32(input *from)
{
    uint32_t low = take_u16(from);
    return low | (uint32_t)take_u16(from) << 16;
}

size_t take_number(input *from)
{
    uint8_t first = take_byte(from);
    if (first < HUNDREDS)
        return first;
    if (first < EDGES)
        return take_u32(from);
    return SIZE_MAX - take_byte(from);
}

static size_t near(size_t limit, size_t place)
{
    size_t sum = limit + place % (2 * NEAR);
    return sum < NEAR ? 0 : sum - NEAR;
}

size_t take_size(input *from, size_t limit)
{
    uint8_t first = take_byte(from);
    if (first < HUNDREDS)
        return first;
    if (first < EDGES)
        return HUNDREDS + 64 * (first - HUNDREDS);
    return near(limit, first);
}

size_t take_room(input *from, size_t enough)
{
    uint8_t first = take_byte(from);
    if (first < 0x80)
        return enough;
    if (first < EDGES)
        return first - 0x80;
    return near(enough, first);
}

static void repeat(uint8_t *place, size_t length, size_t period)
{
    for (size_t done = period; done < length; done *= 2)
        copy_bytes(place + done, place, done < length - done ? done : length - done);
}

void take_contents(input *from, uint8_t *place, size_t length)
{
    size_t period = length;
    if (length >= HUNDREDS)
        period = 1 + take_byte(from) % (HUNDREDS - 1);
    for (size_t i = 0; i < period; i++)
        place[i] = take_byte(from);
    if (period < length) {
        repeat(place, length, period);
        place[length - 1] = take_byte(from);
    }
}
