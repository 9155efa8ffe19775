/* Inputs, and how they are changed: along the fields of a sheet, line by line in a text and call by call, so that most
 * of them stay sheets, texts and calls. */
#include "fuzz.h"

#include <string.h>

size_t LLVMFuzzerMutate(uint8_t *bytes, size_t size, size_t room);

void input_parts(const uint8_t *input, size_t size, struct part parts[PARTS])
{
    int k;
    for (k = 0; k < CALLS; k++) {
        size_t head = size < 2 ? size : 2, length = head < 2 ? 0 : (size_t)input[0] << 8 | input[1];
        length = length < size - head ? length : size - head;
        parts[k].bytes = input + head, parts[k].length = length;
        input += head + length, size -= head + length;
    }
    parts[CALLS].bytes = input, parts[CALLS].length = size;
}

/* Writes the parts as an input: its length, or 0 where there is no room. */
static size_t put_parts(const struct part parts[PARTS], uint8_t *input, size_t room)
{
    size_t at = 0;
    int k;
    for (k = 0; k < PARTS; k++) {
        size_t head = k < CALLS ? 2 : 0;
        if (parts[k].length > 0xFFFF || room - at < head + parts[k].length)
            return 0;
        if (head)
            input[at] = (uint8_t)(parts[k].length >> 8), input[at + 1] = (uint8_t)parts[k].length;
        memcpy(input + at + head, parts[k].bytes, parts[k].length);
        at += head + parts[k].length;
    }
    return at;
}

/* ---- numbers made at random from libFuzzer's seed */

static uint64_t state;

static uint32_t below(uint32_t n)
{
    state ^= state >> 12, state ^= state << 25, state ^= state >> 27;
    return (uint32_t)(state * UINT64_C(0x2545F4914F6CDD1D) >> 33) % n;
}

/* ---- a sheet's fields */

enum { MOST_FIELDS = 1500, DEEPEST = 40 };

struct field {
    size_t at, end;
    int parent;
};

struct fields {
    uint8_t bytes[LARGEST];
    size_t length;
    struct field field[MOST_FIELDS];
    int count;
};

/* How many bytes of the value stand before the fields within it; -1 where there are none. */
static int front(uint8_t tag)
{
    switch (tag) {
    case 0x02: case 0x03: return 0;
    case 0x06: case 0x12: return 1;
    case 0x05: return 2;
    default: return -1;
    }
}

static void walk(struct fields *s, size_t at, size_t end, int parent, int depth)
{
    while (end - at >= 3 && s->count < MOST_FIELDS) {
        size_t next = at + 3 + ((size_t)s->bytes[at + 1] << 8 | s->bytes[at + 2]);
        int own = s->count, skip = front(s->bytes[at]);
        if (next > end)
            return;
        s->field[s->count++] = (struct field){at, next, parent};
        if (skip >= 0 && depth < DEEPEST && at + 3 + (size_t)skip <= next)
            walk(s, at + 3 + (size_t)skip, next, own, depth + 1);
        at = next;
    }
}

static void read_fields(struct fields *s, struct part sheet)
{
    s->length = sheet.length;
    memcpy(s->bytes, sheet.bytes, sheet.length);
    s->count = 0;
    walk(s, 0, s->length, -1, 0);
}

/* A field, or the place at its end, gives way to other bytes; the lengths around it follow. */
static void splice(struct fields *s, int k, size_t from, struct part with)
{
    size_t end = s->field[k].end;
    int p;

    if (s->length + with.length > LARGEST)
        return;
    for (p = s->field[k].parent; p >= 0; p = s->field[p].parent) {
        uint8_t *length = s->bytes + s->field[p].at + 1;
        size_t now = ((size_t)length[0] << 8 | length[1]) + with.length - (end - from);
        length[0] = (uint8_t)(now >> 8), length[1] = (uint8_t)now;
    }
    memmove(s->bytes + from + with.length, s->bytes + end, s->length - end);
    memcpy(s->bytes + from, with.bytes, with.length);
    s->length += with.length - (end - from);
}

/* Fields that may stand for each other: events, behaviours, expressions, and each other tag alone. */
static uint8_t class(uint8_t tag)
{
    return tag == 0x03 || tag == 0x06 ? 0x02 : tag > 0x10 && tag <= 0x13 ? 0x10 : tag;
}

static int arity(uint8_t function) { return function == 3 ? 1 : function == 14 ? 3 : 2; }

static uint32_t constant(void)
{
    static const uint32_t values[] = {0, 1, 2, 10, 46341, 0x7FFFFFFF, 0x80000000, 0xFFFFFFFF};
    return below(3) ? values[below(8)] : below(100) - 50;
}

/* A new expression, at most so deep: its length. */
static size_t expression(uint8_t *at, int depth)
{
    size_t length = 4;
    uint32_t value = constant();
    int k;

    switch (depth > 1 ? below(6) : below(3)) {
    case 0:
        at[0] = 0x10, at[1] = 0, at[2] = 4;
        at[3] = (uint8_t)(value >> 24), at[4] = (uint8_t)(value >> 16), at[5] = (uint8_t)(value >> 8);
        at[6] = (uint8_t)value;
        return 7;
    case 1: at[0] = 0x11, at[1] = 0, at[2] = 1, at[3] = (uint8_t)below(6); return 4;
    case 2: at[0] = below(2) ? 0x13 : 0x11, at[1] = 0, at[2] = 1, at[3] = (uint8_t)below(8); return 4;
    default:
        at[0] = 0x12, at[3] = (uint8_t)(1 + below(14));
        for (k = 0; k < arity(at[3]); k++)
            length += expression(at + length, depth - 1);
        at[1] = (uint8_t)((length - 3) >> 8), at[2] = (uint8_t)(length - 3);
        return length;
    }
}

/* A field's own numbers: rank, count, event, phase, function, name, parameter, constant. */
static void tweak(uint8_t *at, size_t length)
{
    uint32_t value = constant(), byte = below(16);

    if (length < 4)
        return;
    if (at[0] == 0x12 && below(8))
        do byte = 1 + below(14); while (arity((uint8_t)byte) != arity(at[3]));
    if ((at[0] == 0x10 || at[0] == 0x04) && length == 7)
        at[3] = (uint8_t)(value >> 24), at[4] = (uint8_t)(value >> 16), at[5] = (uint8_t)(value >> 8),
        at[6] = (uint8_t)value;
    else if (at[0] == 0x05 && length > 4 && below(2))
        at[4] ^= 1;
    else if (at[0] != 0x02 && at[0] != 0x03)
        at[3] = (uint8_t)byte;
}

/* Another field of the same class in either sheet, or none. */
static struct part alike(const struct fields *s, const struct fields *from, int k)
{
    struct part none = {s->bytes, 0};
    int tries, j;
    for (tries = 0; tries < 12 && from->count; tries++) {
        j = (int)below((uint32_t)from->count);
        if (class(from->bytes[from->field[j].at]) == class(s->bytes[s->field[k].at]))
            return (struct part){from->bytes + from->field[j].at, from->field[j].end - from->field[j].at};
    }
    return none;
}

/* An expression within a new application, or a new handler for an active. */
static struct part wrapped(const struct fields *s, int k, uint8_t *room)
{
    struct part out = {room, 4};
    size_t own = s->field[k].end - s->field[k].at, left;

    room[0] = 0x12, room[3] = (uint8_t)(1 + below(13));
    if (room[3] == 3)
        room[3] = 4;
    memcpy(room + 4, s->bytes + s->field[k].at, own);
    left = expression(room + 4 + own, 2);
    out.length = 4 + own + left;
    room[1] = (uint8_t)((out.length - 3) >> 8), room[2] = (uint8_t)(out.length - 3);
    return out;
}

static struct part handler(uint8_t *room)
{
    size_t own = expression(room + 5, 3);
    room[0] = 0x05, room[1] = (uint8_t)((own + 2) >> 8), room[2] = (uint8_t)(own + 2);
    room[3] = (uint8_t)below(5), room[4] = (uint8_t)below(2);
    return (struct part){room, 5 + own};
}

/* One change of a sheet along its fields. */
static void change_field(struct fields *s, const struct fields *donor)
{
    static uint8_t room[2 * LARGEST], copy[LARGEST];
    int k = (int)below((uint32_t)s->count);
    struct field own = s->field[k];
    uint8_t tag = s->bytes[own.at];
    struct part with;

    switch (below(8)) {
    case 0: with.bytes = room, with.length = 0, splice(s, k, own.at, with); return; /* left out */
    case 1: case 2: /* another in its place, or behind it */
        with = alike(s, below(2) ? donor : s, k);
        memcpy(copy, with.bytes, with.length);
        with.bytes = copy;
        splice(s, k, below(2) ? own.at : own.end, with);
        return;
    case 3: case 4: tweak(s->bytes + own.at, own.end - own.at); return;
    case 5:
        if (class(tag) == 0x10)
            splice(s, k, own.at, wrapped(s, k, room));
        return;
    case 6:
        if (class(tag) == 0x10)
            with.bytes = room, with.length = expression(room, 3), splice(s, k, own.at, with);
        return;
    default:
        if (tag == 0x04 || tag == 0x05)
            splice(s, k, own.end, handler(room));
    }
}

/* ---- one change of an input */

static struct part by_bytes(struct part part)
{
    static uint8_t room[LARGEST];
    memcpy(room, part.bytes, part.length);
    part.length = LLVMFuzzerMutate(room, part.length, part.length + 64 < LARGEST ? part.length + 64 : LARGEST);
    part.bytes = room;
    return part;
}

static struct part by_fields(struct part sheet, struct part other)
{
    static struct fields s, donor;
    uint32_t times = 1 + below(3);

    read_fields(&donor, other);
    for (read_fields(&s, sheet); times > 0 && s.count > 0; times--) {
        change_field(&s, &donor);
        sheet.bytes = s.bytes, sheet.length = s.length;
        s.count = 0;
        walk(&s, 0, s.length, -1, 0);
    }
    return sheet;
}

/* Calls left out, made twice, or put in. */
static struct part by_calls(struct part calls)
{
    static uint8_t room[LARGEST + 64 * CALL];
    size_t count = calls.length / CALL, at = CALL * (count ? below((uint32_t)count) : 0), n = CALL * (1 + below(8));
    size_t rest = calls.length - at;
    int k;

    memcpy(room, calls.bytes, at);
    switch (below(3)) {
    case 0:
        n = n < rest ? n : rest;
        memcpy(room + at, calls.bytes + at + n, rest - n);
        calls.length -= n;
        break;
    case 1:
        n = n < rest ? n : rest;
        memcpy(room + at, calls.bytes + at, n);
        memcpy(room + at + n, calls.bytes + at, rest);
        calls.length += n;
        break;
    default:
        for (k = 0; k < CALL; k++)
            room[at + (size_t)k] = (uint8_t)(k == 0 ? below(12) : below(256));
        memcpy(room + at + CALL, calls.bytes + at, rest);
        calls.length += CALL;
    }
    calls.bytes = room;
    return calls;
}

/* The text of a sheet, in place of what is there. */
static struct part by_sheet(struct part text, struct part sheet)
{
    static uint8_t room[ENGINE_SHEET_TEXT];
    uint64_t answer = engine_describe(sheet.bytes, sheet.length, room, LARGEST / 4);
    if (engine_describe_refused(answer))
        return text;
    text.bytes = room, text.length = engine_describe_length(answer);
    return text;
}

size_t LLVMFuzzerCustomMutator(uint8_t *input, size_t size, size_t room, unsigned seed)
{
    static uint8_t copy[LARGEST];
    struct part parts[PARTS];
    uint32_t which;
    size_t done;

    if (size > LARGEST || room > LARGEST)
        return LLVMFuzzerMutate(input, size, room);
    state = seed * UINT64_C(0x9E3779B97F4A7C15) | 1;
    below(2);
    memcpy(copy, input, size);
    input_parts(copy, size, parts);
    which = below(18);
    if (which < PARTS)
        parts[which] = by_bytes(parts[which]);
    else if (which < 10)
        parts[SHEET] = by_fields(parts[SHEET], parts[OTHER]);
    else if (which < 12)
        parts[OTHER] = by_fields(parts[OTHER], parts[SHEET]);
    else if (which < 16)
        parts[CALLS] = by_calls(parts[CALLS]);
    else
        parts[TEXT] = by_sheet(parts[TEXT], parts[which - 16]);
    done = put_parts(parts, input, room);
    return done ? done : size;
}

/* Parts of one input and of another. */
size_t LLVMFuzzerCustomCrossOver(const uint8_t *one, size_t size, const uint8_t *other, size_t other_size, uint8_t *out,
                                 size_t room, unsigned seed)
{
    struct part parts[PARTS], others[PARTS];
    int k;

    state = seed * UINT64_C(0x9E3779B97F4A7C15) | 1;
    input_parts(one, size, parts);
    input_parts(other, other_size, others);
    for (k = 0; k < PARTS; k++)
        if (below(2))
            parts[k] = others[k];
    return put_parts(parts, out, room);
}
