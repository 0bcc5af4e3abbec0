/* Broken promises end the program; answers are counted where libFuzzer looks for counters. */
#include "promise.h"

#include <stdint.h>
#include <stdio.h>
#include <stdlib.h>

enum { NUMBERS = 256 };

__attribute__((section("__libfuzzer_extra_counters"))) static uint8_t seen[KINDS][NUMBERS];

/* An exit and not an abort: libFuzzer keeps the input after either, but under an emulator it stumbles over signals. */
void promise(bool holds, const char *what)
{
    if (holds)
        return;
    fprintf(stderr, "broken promise: %s\n", what);
    exit(1);
}

void notice(kind of, size_t number)
{
    seen[of][number % NUMBERS]++;
}
