/* What the library promises, and what a fuzzer is told of an answer. */
#ifndef FUZZ_PROMISE_H
#define FUZZ_PROMISE_H

#include <stdbool.h>
#include <stddef.h>

/* Ends the program where a promise is broken. */
void promise(bool holds, const char *what);

/* The kinds of answers. A fuzzer keeps an input that brings an answer not seen before. */
typedef enum kind {
    DECODED,
    READ,
    ENCODED,
    SHAPED,
    RAN,
    FAULTED,
    STOPPED_ON,
    COPIED,
    VERIFIED,
    REFUSED_ON,
    MET,
    LISTED,
    CHECKED,
    ENTRIES,
    ENTERED,
    FOUND,
    LOOKED_UP,
    WRITTEN,
    REPORTED,
    RULED,
    LOST,
    WHOLE,
    ADMITTED,
    FED,
    SHUT,
    KINDS
} kind;

void notice(kind of, size_t number);

#endif
