/* Promises of khx_decode, khx_read and khx_encode. */
#include "bytes.h"
#include "khalixoshi.h"
#include "lent.h"
#include "promise.h"
#include "tries.h"

static bool same(khx_instruction one, khx_instruction other)
{
    return one.code == other.code && one.count == other.count && one.flags == other.flags && one.number == other.number &&
           one.v0 == other.v0 && one.v1 == other.v1 && one.v2 == other.v2 && one.v3 == other.v3;
}

static bool same_decoded(khx_decoded one, khx_decoded other)
{
    return one.refusal == other.refusal && one.length == other.length && same(one.instruction, other.instruction);
}

static void promise_refused(khx_decoded got)
{
    const khx_decoded refused = {got.refusal, 0, {0, 0, 0, 0, 0, 0, 0, 0}};
    promise(same_decoded(got, refused), "a refused decoding has no length and no instruction");
}

static void promise_encodes_back(khx_decoded got, const uint8_t *code)
{
    uint8_t back[KHX_INSTRUCTION_MAX];
    khx_written written = khx_encode(got.instruction, back, sizeof back);
    promise(written.refusal == 0 && written.length == got.length && same_bytes(back, code, got.length),
            "what decodes encodes back to the same bytes");
}

static void promise_as_its_row(khx_decoded got, uint8_t first)
{
    khx_row row = khx_shape(first);
    promise(got.refusal == 0 || got.refusal == KHX_ILLEGAL || got.refusal == KHX_CUT, "decoding is refused by 2 or 3");
    promise(row.refusal == 0 || got.refusal == KHX_ILLEGAL, "with a byte whose row is refused no instruction begins");
    promise(got.refusal != 0 || got.length == row.length, "an instruction is as long as the row of its first byte says");
}

static void promise_decoded(khx_decoded got, const lent *program, size_t at)
{
    if (program->size > KHX_PROGRAM_MAX)
        promise(got.refusal == KHX_PROGRAM_SIZE, "decoding a program over size is refused by 20");
    else if (at >= program->size)
        promise(got.refusal == KHX_END, "decoding past the end is refused by 1");
    else
        promise_as_its_row(got, *place_in(program, at));
    if (got.refusal != 0) {
        promise_refused(got);
        return;
    }
    promise(got.length > 0 && got.length <= KHX_INSTRUCTION_MAX && got.length <= program->size - at,
            "an instruction has one to nine bytes, all in the program");
    promise_encodes_back(got, place_in(program, at));
}

void try_decode(input *from)
{
    size_t at = take_number(from);
    lent program = lend(from, take_size(from, KHX_PROGRAM_MAX));
    khx_decoded got = khx_decode(program.bytes, program.size, at);
    notice(DECODED, got.refusal);
    promise_kept(&program);
    promise_decoded(got, &program, at);
}

/* From any address to the first refusal, at most a few instructions on. */
void try_read(input *from)
{
    lent place = lend(from, sizeof(size_t));
    size_t at = take_number(from);
    lent program = lend(from, take_size(from, KHX_PROGRAM_MAX));
    khx_decoded got = {0, 0, {0, 0, 0, 0, 0, 0, 0, 0}};
    copy_bytes(place.bytes, &at, sizeof at);
    for (size_t turn = 0; turn < 16 && got.refusal == 0; turn++) {
        got = khx_read(program.bytes, program.size, (size_t *)(void *)place.bytes);
        notice(READ, got.refusal);
        promise_kept(&program);
        promise_around(&place);
        promise_decoded(got, &program, at);
        promise(same_decoded(got, khx_decode(program.bytes, program.size, at)), "reading answers as decoding does");
        at += got.length;
        promise(same_bytes(place.bytes, &at, sizeof at), "reading moves past the instruction, a refusal does not move");
    }
}

static khx_instruction take_instruction(input *from)
{
    khx_instruction one;
    one.code = take_byte(from);
    one.count = take_byte(from);
    one.flags = take_byte(from);
    one.number = take_u16(from);
    one.v0 = take_u16(from);
    one.v1 = take_u16(from);
    one.v2 = take_u16(from);
    one.v3 = take_u16(from);
    return one;
}

static void promise_decodes_back(khx_instruction one, const lent *room, size_t length)
{
    khx_decoded back = khx_decode(room->bytes, length, 0);
    promise(back.refusal == 0 && back.length == length && same(back.instruction, one),
            "what encodes decodes back to the same instruction");
}

void try_encode(input *from)
{
    khx_instruction one = take_instruction(from);
    lent room = as_room(lend_filled(from, take_room(from, KHX_INSTRUCTION_MAX)));
    uint8_t enough[KHX_INSTRUCTION_MAX];
    khx_written got = khx_encode(one, room.bytes, room.size);
    khx_written roomy = khx_encode(one, enough, sizeof enough);
    notice(ENCODED, got.refusal);
    promise_kept_from(&room, got.length);
    promise(roomy.refusal == 0 || roomy.refusal == KHX_UNWRITABLE, "encoding with room enough is refused by 26 alone");
    if (got.refusal == 0) {
        promise(got.length == roomy.length && got.length <= room.size, "an instruction fits where it was written");
        promise_decodes_back(one, &room, got.length);
    } else {
        promise(got.length == 0, "nothing refused has a length");
        promise(got.refusal == (roomy.refusal == 0 ? KHX_ROOM : KHX_UNWRITABLE), "encoding is refused by 26, then 25");
        promise(roomy.refusal != 0 || roomy.length > room.size, "25 is for what is longer than the room");
    }
}
