/* The target's two functions, with the names that libFuzzer looks for, and the second with memory lent in a way of one's own. */
#ifndef FUZZ_FACE_H
#define FUZZ_FACE_H

#include "lent.h"

int LLVMFuzzerInitialize(int *count, char ***words);
int LLVMFuzzerTestOneInput(const uint8_t *bytes, size_t length);
void try_lending(const uint8_t *bytes, size_t length, lending how);

#endif
