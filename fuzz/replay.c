/*
 * The target without libFuzzer: `replay COUNT FILE..` tries each file, then COUNT altered ones, the same on every machine. A
 * file is tried with memory lent as it says, then with NULL wherever there are no bytes, then so with its rooms emptied, in
 * every choice of them. An input that ends the program is left in the file `broken`: `replay 0 broken` tries it again.
 */
#include "face.h"

#include <stdio.h>
#include <stdlib.h>
#include <string.h>

enum { FILES_MAX = 256, LENGTH_MAX = 1024 };

typedef struct seed {
    size_t length;
    uint8_t bytes[LENGTH_MAX];
} seed;

static seed seeds[FILES_MAX];
static seed in_hand;
static lending way;
static bool trying;

static size_t random_below(size_t limit)
{
    static uint64_t state = 0x9E3779B97F4A7C15u;
    state ^= state << 13;
    state ^= state >> 7;
    state ^= state << 17;
    return (size_t)(state >> 11) % limit;
}

static void tell_way(void)
{
    fprintf(stderr, "the input, in the file broken, was lent memory %s", way.null ? "with NULL for no bytes" : "as it says");
    for (unsigned room = 0; way.emptied >> room != 0; room++)
        if (way.emptied >> room & 1)
            fprintf(stderr, ", room %u emptied", room);
    fprintf(stderr, "\n");
}

static void leave_broken(void)
{
    FILE *file = trying ? fopen("broken", "wb") : NULL;
    if (file == NULL)
        return;
    fwrite(in_hand.bytes, 1, in_hand.length, file);
    fclose(file);
    tell_way();
}

static void try(void)
{
    trying = true;
    try_lending(in_hand.bytes, in_hand.length, way);
    trying = false;
}

static void try_as_it_says(void)
{
    way = (lending){false, 0};
    try();
}

/* With NULL for no bytes, and so with every choice of rooms emptied: how many those are. */
static size_t try_with_null(void)
{
    way = (lending){true, 0};
    try();
    unsigned choices = 1u << rooms_lent();
    for (way.emptied = 1; way.emptied < choices; way.emptied++)
        try();
    return choices - 1;
}

static bool load(seed *one, const char *name)
{
    FILE *file = fopen(name, "rb");
    if (file == NULL) {
        perror(name);
        return false;
    }
    one->length = fread(one->bytes, 1, LENGTH_MAX, file);
    bool whole = !ferror(file) && fgetc(file) == EOF;
    if (!whole)
        fprintf(stderr, "%s: no file of at most %d bytes\n", name, LENGTH_MAX);
    return fclose(file) == 0 && whole;
}

static void insert(size_t at)
{
    if (in_hand.length == LENGTH_MAX)
        return;
    memmove(in_hand.bytes + at + 1, in_hand.bytes + at, in_hand.length - at);
    in_hand.bytes[at] = (uint8_t)random_below(256);
    in_hand.length++;
}

static void cut(size_t at)
{
    memmove(in_hand.bytes + at, in_hand.bytes + at + 1, in_hand.length - at - 1);
    in_hand.length--;
}

/* From a place on, another seed's bytes. */
static void splice(size_t at, const seed *other)
{
    if (other->length <= at)
        return;
    memcpy(in_hand.bytes + at, other->bytes + at, other->length - at);
    in_hand.length = other->length;
}

static void alter(size_t count)
{
    size_t at = random_below(in_hand.length + 1);
    size_t way = random_below(8);
    if (at == in_hand.length || way == 0)
        insert(at);
    else if (way == 1)
        cut(at);
    else if (way == 2)
        splice(at, &seeds[random_below(count)]);
    else
        in_hand.bytes[at] = (uint8_t)random_below(256);
}

/* Every seed in every way: how many choices of rooms emptied that were. */
static size_t try_seeds(size_t count)
{
    size_t emptied = 0;
    for (size_t i = 0; i < count; i++) {
        in_hand = seeds[i];
        try_as_it_says();
        emptied += try_with_null();
    }
    return emptied;
}

static void try_altered(size_t count, size_t altered)
{
    for (size_t i = 0; i < altered; i++) {
        in_hand = seeds[random_below(count)];
        for (size_t edits = 1 + random_below(6); edits > 0; edits--)
            alter(count);
        try_as_it_says();
    }
}

int main(int argc, char **argv)
{
    size_t count = argc < 3 ? 0 : (size_t)(argc - 2);
    size_t altered = argc < 3 ? 0 : strtoul(argv[1], NULL, 10);
    if (count == 0 || count > FILES_MAX) {
        fprintf(stderr, "usage: replay COUNT FILE.. (at most %d files)\n", FILES_MAX);
        return 2;
    }
    for (size_t i = 0; i < count; i++)
        if (!load(&seeds[i], argv[i + 2]))
            return 2;
    LLVMFuzzerInitialize(&argc, &argv);
    atexit(leave_broken);
    size_t emptied = try_seeds(count);
    try_altered(count, altered);
    printf("%zu seeds, each again with NULL for no bytes and so with its rooms emptied (%zu choices), and %zu altered: "
           "no promise broken\n",
           count, emptied, altered);
    return 0;
}
