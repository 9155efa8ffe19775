/* The fuzz target: an input's sheets, text and calls through every exported call, held to what needs no second engine.
 * The engine's own module is instrumented: libFuzzer sees its branches, AddressSanitizer every byte that it touches. */
#include "fuzz.h"

#include <sanitizer/asan_interface.h>
#include <stdio.h>
#include <stdlib.h>
#include <string.h>

size_t more;
unsigned long long tried[KINDS_TRIED];

void hold(int holds, const char *what)
{
    if (holds)
        return;
    fprintf(stderr, "fuzz: does not hold: %s\n", what);
    abort();
}

void fence_table(struct table *table)
{
    ASAN_POISON_MEMORY_REGION(table->before, BEYOND);
    ASAN_POISON_MEMORY_REGION(table->beyond, BEYOND);
}

void fence_round(struct round *round)
{
    ASAN_POISON_MEMORY_REGION(round->before, BEYOND);
    ASAN_POISON_MEMORY_REGION(round->beyond, BEYOND);
}

void copy_table(struct table *to, const struct table *from) { memcpy(to->bytes, from->bytes, ENGINE_TABLE); }
void copy_round(struct round *to, const struct round *from) { memcpy(to->bytes, from->bytes, ENGINE_ROUND); }

int same_round(const struct round *one, const struct round *other)
{
    return memcmp(one->bytes, other->bytes, ENGINE_ROUND) == 0;
}

uint8_t *exactly(struct part part)
{
    uint8_t *bytes = malloc(part.length ? part.length : 1);
    hold(bytes != NULL, "there is memory");
    if (part.length)
        memcpy(bytes, part.bytes, part.length);
    else
        ASAN_POISON_MEMORY_REGION(bytes, 1);
    return bytes;
}

uint8_t *filled(size_t length)
{
    uint8_t *bytes = malloc(length ? length : 1);
    hold(bytes != NULL, "there is memory");
    memset(bytes, FILL, length);
    return bytes;
}

int untouched(const uint8_t *bytes, size_t from, size_t to)
{
    return from >= to || (bytes[from] == FILL && memcmp(bytes + from, bytes + from + 1, to - from - 1) == 0);
}

/* Each kind of check by how often it was tried. */
static void report(void)
{
#define WORDS(name, words) words,
    static const char *const names[] = {TRIED(WORDS)};
#undef WORDS
    for (size_t k = 0; k < KINDS_TRIED; k++)
        fprintf(stderr, "fuzz: %llu %s\n", tried[k], names[k]);
}

int LLVMFuzzerInitialize(int *argc, char ***argv)
{
    (void)argc;
    (void)argv;
    hold(engine_version() == 65536 * ENGINE_VERSION + ENGINE_LAYOUT, "the archive is the header's");
    return atexit(report);
}

int LLVMFuzzerTestOneInput(const uint8_t *input, size_t size)
{
    static struct table tables[2];
    struct part parts[PARTS];
    int accepted[2];

    input_parts(input, size, parts);
    fence_table(&tables[0]);
    fence_table(&tables[1]);
    more = size % 3 * 31;
    hold_sheets(parts, tables, accepted);
    if (accepted[0])
        hold_rounds(parts, tables, accepted);
    return 0;
}
