/* Promises of khx_list: its lines are those of the instructions that khx_read gives, its length is that of the room. */
#include "bytes.h"
#include "khalixoshi.h"
#include "lent.h"
#include "promise.h"
#include "tries.h"

/* The longest line, and the most characters that a byte can have in it. */
enum { LINE = 42, EACH = KHX_LIST_MAX / KHX_PROGRAM_MAX };

static size_t next_address(const lent *program, size_t at)
{
    khx_decoded got = khx_decode(program->bytes, program->size, at);
    return at + (got.refusal == 0 ? got.length : 1);
}

static bool starts_with(const uint8_t *text, size_t address)
{
    const char *digits = "0123456789ABCDEF";
    return text[0] == digits[address >> 12 & 15] && text[1] == digits[address >> 8 & 15] &&
           text[2] == digits[address >> 4 & 15] && text[3] == digits[address & 15] && text[4] == ' ';
}

/* The offset after the line that stands for an address. */
static size_t after_line(const lent *room, size_t start, size_t end, size_t address)
{
    promise(end - start > 5 && starts_with(place_in(room, start), address), "a line starts with the address of its instruction");
    size_t feed = start;
    while (feed < end && room->bytes[feed] != '\n')
        feed++;
    promise(feed < end && feed - start <= LINE, "a line ends with a line feed");
    return feed + 1;
}

static void promise_lines(const lent *program, const lent *room, size_t length)
{
    size_t told = 0;
    for (size_t at = 0; at < program->size; at = next_address(program, at))
        told = after_line(room, told, length, at);
    promise(told == length, "a listing has a line for each instruction and no more");
}

static void promise_fits_exactly(input *from, const lent *program, const lent *room, size_t length)
{
    lent exact = lend_filled(from, length);
    khx_written again = khx_list(program->bytes, program->size, exact.bytes, exact.size);
    promise_around(&exact);
    promise(again.refusal == 0 && again.length == length, "a listing needs no more room than its length");
    promise(same_bytes(exact.bytes, room->bytes, length), "the same listing again");
}

static void promise_too_long(input *from, const lent *program, size_t room_length)
{
    lent enough = lend_filled(from, EACH * program->size);
    khx_written roomy = khx_list(program->bytes, program->size, enough.bytes, enough.size);
    promise_around(&enough);
    promise(roomy.refusal == 0 && roomy.length > room_length, "25 is for what is longer than the room");
}

void try_list(input *from)
{
    lent program = lend(from, take_size(from, KHX_PROGRAM_MAX));
    lent room = as_room(lend_filled(from, take_room(from, EACH * program.size)));
    khx_written got = khx_list(program.bytes, program.size, room.bytes, room.size);
    notice(LISTED, got.refusal);
    promise_kept(&program);
    promise_kept_from(&room, got.length);
    promise(got.length <= room.size && got.length <= EACH * program.size, "a listing's length is in its limits");
    if (program.size > KHX_PROGRAM_MAX) {
        promise(got.refusal == KHX_PROGRAM_SIZE && got.length == 0, "listing a program over size is refused by 20");
    } else if (got.refusal == 0) {
        promise_lines(&program, &room, got.length);
        promise_fits_exactly(from, &program, &room, got.length);
    } else {
        promise(got.refusal == KHX_ROOM && got.length == 0, "a listing is refused by 20, then 25");
        promise_too_long(from, &program, room.size);
    }
}
