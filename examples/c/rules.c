/* Rules through the C face: three are written into a pack, which is checked once; then each is looked up by its tag, listed, verified and run. */
#include "khalixoshi.h"

#include <stdio.h>
#include <string.h>

#define CELLS 2

/* 5 is pushed, then 3; the difference of the top and the value below it is left. */
static const uint8_t DIFFERENCE[] = {0x85, 0x83, 0x15, 0x00};

/* The first byte of the data counts down from 3 to 0. */
static const uint8_t COUNTDOWN[] = {0x83, 0x37, 0x00, 0x3D, 0x06, 0x00, 0x33, 0x00, 0x1A, 0x3C, 0x01};

/* A value is pushed again and again: its address is met at two depths. */
static const uint8_t GROWING[] = {0x81, 0x3C, 0x00};

static void print_map(const uint16_t *map, size_t length)
{
    printf("  accepted, depths");
    for (size_t i = 0; i < length; i++) {
        if (map[i] == KHX_UNMET)
            printf(" -");
        else
            printf(" %u", (unsigned)map[i]);
    }
    printf("\n");
}

static void print_text(khx_written text, const uint8_t *room)
{
    if (text.refusal != 0)
        printf("  no text: refusal %zu\n", text.refusal);
    else
        printf("%.*s", (int)text.length, (const char *)room);
}

static void list(const uint8_t *program, size_t length)
{
    static uint8_t room[KHX_LIST_MAX];
    print_text(khx_list(program, length, room, sizeof room), room);
}

static void report(const uint8_t *pack, size_t length)
{
    static uint16_t map[KHX_PROGRAM_MAX];
    static uint8_t room[KHX_REPORT_MAX];
    print_text(khx_report(pack, length, map, KHX_PROGRAM_MAX, room, sizeof room), room);
}

static int verify(const uint8_t *program, size_t length)
{
    static uint16_t map[KHX_PROGRAM_MAX];
    khx_verdict verdict = khx_verify(program, length, CELLS, map, length);
    if (verdict.refusal != 0) {
        printf("  refused %zu at %04zX\n", verdict.refusal, verdict.at);
        return 0;
    }
    print_map(map, length);
    return 1;
}

/* In budgets of ten: a run that is paused goes on where it was. */
static void run(const uint8_t *program, size_t length)
{
    uint8_t data[1] = {0};
    uint16_t cells[CELLS] = {0};
    khx_ran ran = {0, 0, khx_fresh()};
    uint32_t steps = 0;
    while (ran.refusal == 0 && ran.state.status == KHX_RUNNING) {
        ran = khx_run(ran.state, program, length, data, sizeof data, cells, CELLS, 10);
        steps += ran.steps;
    }
    printf("  %lu steps, status %zu, address %zu, depth %zu, data %u, cells %u %u\n", (unsigned long)steps,
           ran.state.status, ran.state.address, ran.state.depth, (unsigned)data[0], (unsigned)cells[0],
           (unsigned)cells[1]);
}

/* Step by step: the address and the depth before each. */
static void trace(const uint8_t *program, size_t length)
{
    uint16_t cells[CELLS] = {0};
    khx_ran ran = {0, 0, khx_fresh()};
    printf("steps:");
    while (ran.refusal == 0 && ran.state.status == KHX_RUNNING) {
        printf(" %zu/%zu", ran.state.address, ran.state.depth);
        ran = khx_step(ran.state, program, length, NULL, 0, cells, CELLS);
    }
    printf("\n");
}

static size_t write_pack(uint8_t *room, size_t room_length)
{
    const uint16_t tags[] = {7, 9, 10};
    const uint16_t cells[] = {CELLS, CELLS, CELLS};
    const uint16_t lengths[] = {sizeof DIFFERENCE, sizeof COUNTDOWN, sizeof GROWING};
    uint8_t bodies[sizeof DIFFERENCE + sizeof COUNTDOWN + sizeof GROWING];
    memcpy(bodies, DIFFERENCE, sizeof DIFFERENCE);
    memcpy(bodies + sizeof DIFFERENCE, COUNTDOWN, sizeof COUNTDOWN);
    memcpy(bodies + sizeof DIFFERENCE + sizeof COUNTDOWN, GROWING, sizeof GROWING);
    khx_written written = khx_pack_write(tags, 3, cells, 3, lengths, 3, bodies, sizeof bodies, room, room_length);
    printf("pack written: refusal %zu, %zu bytes\n", written.refusal, written.length);
    return written.length;
}

/* The pack was checked, and is as it was. */
static void judge(const uint8_t *pack, size_t pack_length, uint16_t tag)
{
    khx_entry entry = khx_pack_lookup(pack, pack_length, tag);
    printf("tag %u: ", (unsigned)tag);
    if (entry.refusal != 0) {
        printf("refusal %zu\n", entry.refusal);
        return;
    }
    printf("%u cells, %u bytes at %u\n", (unsigned)entry.cells, (unsigned)entry.length, (unsigned)entry.offset);
    list(pack + entry.offset, entry.length);
    if (verify(pack + entry.offset, entry.length))
        run(pack + entry.offset, entry.length);
}

static int check(const uint8_t *pack, size_t pack_length)
{
    khx_checked checked = khx_pack_check(pack, pack_length);
    printf("pack checked: refusal %zu, %zu entries, tags", checked.refusal, checked.entries);
    for (size_t i = 0; khx_pack_entry(pack, pack_length, i).present; i++)
        printf(" %u", (unsigned)khx_pack_entry(pack, pack_length, i).tag);
    printf("\n");
    return checked.refusal == 0;
}

/* A pack that lacks its last byte. Whoever asks for a tag without a check must find it, and not look it up: an entry may come all the same. */
static void unchecked(const uint8_t *pack, size_t pack_length)
{
    const uint16_t tags[] = {7, 10};
    for (size_t i = 0; i < 2; i++) {
        khx_entry found = khx_pack_find(pack, pack_length, tags[i]), come_to = khx_pack_lookup(pack, pack_length, tags[i]);
        printf("cut pack, tag %u: found, refusal %zu; looked up, refusal %zu, %u bytes at %u\n", (unsigned)tags[i], found.refusal,
               come_to.refusal, (unsigned)come_to.length, (unsigned)come_to.offset);
    }
}

/* Each instruction is read and written again: the bytes are the same. */
static void copy(const uint8_t *program, size_t length)
{
    uint8_t room[KHX_INSTRUCTION_MAX];
    size_t at = 0;
    for (;;) {
        size_t start = at;
        khx_decoded decoded = khx_read(program, length, &at);
        if (decoded.refusal != 0) {
            printf("read to %zu of %zu, refusal %zu\n", at, length, decoded.refusal);
            return;
        }
        khx_written written = khx_encode(decoded.instruction, room, sizeof room);
        if (written.length != decoded.length || memcmp(room, program + start, written.length) != 0)
            printf("not the same at %zu\n", start);
    }
}

/* Values that tell each field of an instruction from the others. */
static void fields(void)
{
    const uint8_t values[] = {0xEB, 0x11, 0x22, 0x33, 0x44, 0x55, 0x66};
    khx_instruction i = khx_decode(values, sizeof values, 0).instruction;
    printf("code %02X, number %u, count %u, flags %X, values %X %X %X %X\n", (unsigned)i.code, (unsigned)i.number,
           (unsigned)i.count, (unsigned)i.flags, (unsigned)i.v0, (unsigned)i.v1, (unsigned)i.v2, (unsigned)i.v3);
}

/* A row that tells each field from the others, and one of a byte with which no instruction begins. */
static void rows(void)
{
    const uint8_t first[] = {0x53, 0x5B};
    for (size_t i = 0; i < sizeof first; i++) {
        khx_row row = khx_shape(first[i]);
        printf("%02X: refusal %zu, length %zu, takes %zu, pushes %zu\n", (unsigned)first[i], row.refusal, row.length, row.taken,
               row.pushed);
    }
}

/* A status that is none does not run, and comes back faulted. */
static void no_status(void)
{
    khx_state state = {3, 0, 77, 5};
    khx_ran ran = khx_step(state, DIFFERENCE, sizeof DIFFERENCE, NULL, 0, NULL, 0);
    printf("status 77: %lu steps, status %zu, fault %zu, address %zu\n", (unsigned long)ran.steps, ran.state.status,
           ran.state.fault, ran.state.address);
}

int main(void)
{
    static uint8_t pack[KHX_PACK_MAX];
    size_t length = write_pack(pack, sizeof pack);
    if (!check(pack, length))
        return 1;
    judge(pack, length, 7);
    judge(pack, length, 8);
    judge(pack, length, 9);
    judge(pack, length, 10);
    report(pack, length);
    report(pack, length - 1);
    unchecked(pack, length - 1);
    trace(DIFFERENCE, sizeof DIFFERENCE);
    copy(COUNTDOWN, sizeof COUNTDOWN);
    fields();
    rows();
    no_status();
    return 0;
}
