/*
 * A libFuzzer target over the C face: the first byte of an input chooses the function, the others are its arguments. Any input
 * is good; one that ends the program has shown a broken promise or a touch of memory that was not lent.
 */
#define _DEFAULT_SOURCE
#include "face.h"

#include "promise.h"
#include "tries.h"

#include <setjmp.h>
#include <signal.h>

static void (*const TRIES[])(input *) = {
    try_decode, try_read,       try_encode,      try_run,       try_step,              try_verify,
    try_list,   try_pack_check, try_pack_entry,  try_pack_find, try_pack_write,        try_report,
    try_copy,   try_shape,      try_pack_lookup, try_admission, try_admission_numbers,
};

static sigjmp_buf ground;

static void touched(int signal)
{
    (void)signal;
    siglongjmp(ground, 1);
}

/* Out of the signal's handler before anything is told: under an emulator libFuzzer stumbles over it. */
static void watch(void)
{
    const int signals[] = {SIGSEGV, SIGBUS, SIGILL, SIGFPE};
    struct sigaction action = {0};
    action.sa_handler = touched;
    for (size_t i = 0; i < sizeof signals / sizeof signals[0]; i++)
        sigaction(signals[i], &action, NULL);
}

int LLVMFuzzerInitialize(int *count, char ***words)
{
    (void)count;
    (void)words;
    watch();
    return 0;
}

void try_lending(const uint8_t *bytes, size_t length, lending how)
{
    input from = {bytes, length};
    lend_anew(how);
    if (sigsetjmp(ground, 0) != 0)
        promise(false, "no memory is touched that was not lent, and no trap is met");
    TRIES[take_byte(&from) % (sizeof TRIES / sizeof TRIES[0])](&from);
}

int LLVMFuzzerTestOneInput(const uint8_t *bytes, size_t length)
{
    const lending as_the_input_says = {false, 0};
    try_lending(bytes, length, as_the_input_says);
    return 0;
}
