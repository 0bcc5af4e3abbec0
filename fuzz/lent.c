/* Memory between guard pages and canaries. */
#define _DEFAULT_SOURCE
#include "lent.h"

#include "bytes.h"
#include "promise.h"

#include <sys/mman.h>

/* The places where memory can be lent, the bytes of each, of the guard on either side of it, and of canaries. */
enum { PLACES = 8, SPAN = 1 << 19, GUARD = 1 << 17, CANARIES = 64 };

static const uint8_t CANARY[CANARIES] = "canary: whoever writes around the memory lent to it alters this";

static uint8_t *places[PLACES];
static uint8_t copies[PLACES][SPAN];
static size_t in_use;
static lending way;
static unsigned rooms;

static uint8_t *guarded(void)
{
    uint8_t *all = mmap(NULL, SPAN + 2 * GUARD, PROT_NONE, MAP_PRIVATE | MAP_ANONYMOUS, -1, 0);
    promise(all != MAP_FAILED, "the harness: memory to lend");
    promise(mprotect(all + GUARD, SPAN, PROT_READ | PROT_WRITE) == 0, "the harness: guards");
    return all + GUARD;
}

void lend_anew(lending how)
{
    for (size_t i = 0; i < PLACES; i++)
        if (places[i] == NULL)
            places[i] = guarded();
    in_use = 0;
    rooms = 0;
    way = how;
}

/* Low bit of the input's byte: the side of the guard. The next bit: whether no bytes are NULL. */
static lent placed(input *from, size_t size)
{
    promise(in_use < PLACES && size + CANARIES <= SPAN, "the harness: room to lend");
    uint8_t *place = places[in_use];
    uint8_t bits = take_byte(from);
    lent memory = {place, size, place + size, copies[in_use]};
    if (bits & 1) {
        memory.bytes = place + SPAN - size;
        memory.canaries = memory.bytes - CANARIES;
    }
    if (size == 0 && (way.null || bits & 2))
        memory.bytes = NULL;
    copy_bytes(memory.canaries, CANARY, CANARIES);
    in_use++;
    return memory;
}

lent lend(input *from, size_t size)
{
    lent memory = placed(from, size);
    take_contents(from, memory.bytes, size);
    copy_bytes(memory.was, memory.bytes, size);
    return memory;
}

lent lend_filled(input *from, size_t size)
{
    lent memory = placed(from, size);
    fill_bytes(memory.was, take_byte(from), size);
    restore(&memory);
    return memory;
}

lent lend_copy(input *from, const void *bytes, size_t size)
{
    lent memory = placed(from, size);
    copy_bytes(memory.was, bytes, size);
    restore(&memory);
    return memory;
}

void give_back(void)
{
    promise(in_use > 0, "the harness: something to give back");
    in_use--;
}

/* The input is used up as without it, so that what follows the room has its meaning. */
lent as_room(lent memory)
{
    if (way.emptied >> rooms & 1) {
        memory.bytes = NULL;
        memory.size = 0;
    }
    rooms++;
    return memory;
}

unsigned rooms_lent(void)
{
    return rooms;
}

void restore(const lent *memory)
{
    copy_bytes(memory->bytes, memory->was, memory->size);
}

void remember(const lent *memory)
{
    copy_bytes(memory->was, memory->bytes, memory->size);
}

/* To add even 0 to NULL has no meaning in C. */
uint8_t *place_in(const lent *memory, size_t offset)
{
    promise(offset <= memory->size, "what an answer names lies in the memory lent");
    return offset == 0 ? memory->bytes : memory->bytes + offset;
}

uint16_t *cells_of(const lent *memory)
{
    return (uint16_t *)(void *)memory->bytes;
}

void promise_around(const lent *memory)
{
    promise(same_bytes(memory->canaries, CANARY, CANARIES), "nothing around lent memory is written");
}

void promise_kept(const lent *memory)
{
    promise_kept_from(memory, 0);
}

void promise_kept_from(const lent *memory, size_t offset)
{
    promise_around(memory);
    promise(offset >= memory->size || same_bytes(place_in(memory, offset), memory->was + offset, memory->size - offset),
            "what is not to be written is as it was");
}

void promise_same(const lent *one, const lent *other)
{
    promise(same_bytes(one->bytes, other->bytes, one->size), "the same again leaves the same in memory");
}
