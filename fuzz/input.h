/* A fuzzer's input, used up from its front: numbers, sizes small or at their limits, and contents. Past its end all is 0. */
#ifndef FUZZ_INPUT_H
#define FUZZ_INPUT_H

#include <stddef.h>
#include <stdint.h>

typedef struct input {
    const uint8_t *next;
    size_t left;
} input;

uint8_t take_byte(input *from);
uint16_t take_u16(input *from);
uint32_t take_u32(input *from);

/* Any number of a size's width: mostly small, at times among the largest. */
size_t take_number(input *from);

/* A size: mostly that of a byte, at times some hundreds, at times within four of the limit on either side. */
size_t take_size(input *from, size_t limit);

/* The size of a room: mostly enough, at times small, at times within four of enough. */
size_t take_room(input *from, size_t enough);

/* So many bytes: as they stand in the input or, where they are many, a few of them repeated and a last one. */
void take_contents(input *from, uint8_t *place, size_t length);

#endif
