/*
 * Bytes compared, copied and set as the C library does it, but that no bytes may be NULL: the C library forbids that even
 * where there are none. Lent memory comes to the C library here and nowhere else.
 */
#ifndef FUZZ_BYTES_H
#define FUZZ_BYTES_H

#include <stdbool.h>
#include <stddef.h>
#include <stdint.h>

bool same_bytes(const void *one, const void *other, size_t size);
void copy_bytes(void *to, const void *from, size_t size);
void fill_bytes(void *to, uint8_t byte, size_t size);

#endif
