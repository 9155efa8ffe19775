/* frame, step, arrive and board as a person writes them in C99 who wants them fast: from documents 01 and 02, on the
 * bytes that crates/format_layout/specs/Layout.antt and crates/format_image/specs/Image.antt lay out. It is what the
 * proved engine's times are held against (docs/RESULTS.md), so it does the same work: table and round are judged in
 * every call, since the bytes may be anybody's, each instruction before it runs, and every refusal comes in the same
 * place. tests/bench/hold.c compares the two, with all bytes of the round and of the commits.
 *
 * Where the speed comes from: each instruction is a small function that ends in a call of the next one, so that all
 * that a row of instructions needs stays in registers; one look-up by operation and slot together finds that function
 * and judges both; which events wait is kept as a set, so that ranks are read once an event and not once an arrival;
 * within a frame the next is looked for only where one starts or breaks in.
 *
 * Nothing here is proved, and nothing of the proved engine is used. Built by gcc -O3. */
#include "cengine.h"

#include <string.h>
#ifdef __SSE2__
#include <emmintrin.h>
#endif

/* hold.c must notice each of the faults that PLANTED chooses, by its number. */
#ifndef PLANTED
#define PLANTED 0
#endif
#define WRONG(n) (PLANTED == (n))

enum {
    MOST_EVENTS = 32 + WRONG(1),
    MOST_BEHAVIOURS = 64 + WRONG(2),
    MOST_CODE = 4096 + WRONG(3),
    MOST_IN_HAND = 64 + WRONG(4),
    MOST_DEEP = 64 + WRONG(5),
    MOST_TAKEN = 1000000 + WRONG(6),
    PLAYERS = 8 + WRONG(7),
    TABLE_BYTES = 34816 - WRONG(8),
    ROUND_BYTES = 2048 - WRONG(9),
    MOST_COMMITS = 16777215
};

enum { WORD = 4, ANSWER = 8 };

/* Words of the table. */
enum {
    EVENT_COUNT = 0,
    BEHAVIOUR_COUNT = 1,
    EVENTS = 8,    /* four words each: */
    RANK = 0,
    CODE_START = 1,
    CODE_LENGTH = 2,
    MEMBERS = 3,   /* of C: what is copied to scratch and back */
    EVENT_WORDS = 4,
    VIEWERS = 200, /* who may see each behaviour, bit n for player n */
    SENDERS = 264, /* who may send each event */
    CODE = 512,    /* two words each: operation * 256 + slot, and a constant */
    CODE_WORDS = 2
};

/* Words of the round. */
enum {
    TAKEN = 0,
    WAITING = 1,
    RUNS = 2,        /* not 0 where one runs */
    RUNNING = 3,     /* its hand word: player * 256 + event */
    RUNNING_NUMBER = 4,
    POSITION = 5,    /* its instructions done */
    DEPTH = 6,       /* of the evaluation stack */
    MARK = 7,        /* not 0 where one of its applications ran over */
    QUEUE = 8,       /* two words for each that waits: its number, its hand word */
    QUEUE_WORDS = 2,
    STORE = 136,     /* 01's board */
    SCRATCH = 200,
    PLACES = 264,    /* of later handlers */
    STACK = 328
};

enum { SLOT_BYTES = WORD * QUEUE_WORDS, INSTRUCTION_BYTES = WORD * CODE_WORDS };

enum refusal {
    FOREIGN = 14,
    NO_EVENT = 15,
    FULL_HAND = 16,
    SPENT = 17,
    NO_BEHAVIOUR = 18,
    SETTLING = 19,
    NO_PLAYER = 24,
    NO_RIGHT = 25
};

enum answer { IDLE = 0, RAN = 1, STARTED = 2, COMMITTED = 3, BROKE_IN = 4 };

enum end { ALL_MADE = 0, NONE_LEFT = 1, REFUSED = 2, NO_ROOM = 3 };

#define VALUE (UINT64_C(1) << 32) /* a board's answer has it, and the word */
#define OVER (UINT64_C(1) << 56)  /* a commit's answer has it where the event ran over */

#define unlikely(x) __builtin_expect((x) != 0, 0)
#define ALWAYS inline __attribute__((always_inline))

/* ---- words, big-endian */

static inline uint32_t turned(uint32_t word) { return __builtin_bswap32(word); }

/* As its bytes stand: enough to copy a word, or to tell whether it is 0. */
static inline uint32_t get_raw(const uint8_t *bytes, size_t word)
{
    uint32_t value;

    memcpy(&value, bytes + WORD * word, WORD);
    return value;
}

static inline void put_raw(uint8_t *bytes, size_t word, uint32_t value)
{
    memcpy(bytes + WORD * word, &value, WORD);
}

static inline uint32_t get(const uint8_t *bytes, size_t word) { return turned(get_raw(bytes, word)); }
static inline void put(uint8_t *bytes, size_t word, uint32_t value) { put_raw(bytes, word, turned(value)); }
static inline void move(uint8_t *bytes, size_t from, size_t to) { put_raw(bytes, to, get_raw(bytes, from)); }

static inline void put_answer(uint8_t *at, uint64_t answer)
{
    answer = __builtin_bswap64(answer);
    memcpy(at, &answer, ANSWER);
}

static inline uint32_t event_of(uint32_t hand) { return hand & 255; }
static inline uint32_t player_of(uint32_t hand) { return hand >> 8; }

static inline const uint8_t *event_record(const uint8_t *table, uint32_t event)
{
    return table + WORD * (EVENTS + EVENT_WORDS * (size_t)event);
}

static inline size_t queue_word(uint32_t slot) { return QUEUE + QUEUE_WORDS * (size_t)slot; }

/* ---- judging: 01, "Foreign" */

/* Every declared event's code lies within 4,096 instructions. No branch in the loop: a start plus a length is below
 * 2^33, so what is too long borrows into the top bit. */
static inline int codes_fit(const uint8_t *table, uint32_t events)
{
    uint64_t borrowed = 0;
    uint32_t e;

    for (e = 0; e < events; e++) {
        const uint8_t *record = event_record(table, e);
        borrowed |= (uint64_t)MOST_CODE - ((uint64_t)get(record, CODE_START) + get(record, CODE_LENGTH));
    }
    return borrowed >> 63 == 0;
}

/* The greatest first byte of all slots, the greatest second, and so on. */
static inline void greatest_bytes(const uint8_t *queue, uint32_t waiting, uint8_t greatest[SLOT_BYTES])
{
#ifdef __SSE2__
    __m128i even = _mm_setzero_si128(), odd = even;
    uint32_t i;

    for (i = 0; i + 4 <= waiting; i += 4, queue += 4 * SLOT_BYTES) {
        even = _mm_max_epu8(even, _mm_loadu_si128((const __m128i *)queue));
        odd = _mm_max_epu8(odd, _mm_loadu_si128((const __m128i *)(queue + 2 * SLOT_BYTES)));
    }
    for (; i < waiting; i++, queue += SLOT_BYTES)
        even = _mm_max_epu8(even, _mm_loadl_epi64((const __m128i *)queue));
    even = _mm_max_epu8(even, odd);
    _mm_storel_epi64((__m128i *)greatest, _mm_max_epu8(even, _mm_unpackhi_epi64(even, even)));
#else
    uint32_t i, k;

    memset(greatest, 0, SLOT_BYTES);
    for (i = 0; i < waiting; i++)
        for (k = 0; k < SLOT_BYTES; k++)
            if (queue[SLOT_BYTES * (size_t)i + k] > greatest[k])
                greatest[k] = queue[SLOT_BYTES * (size_t)i + k];
#endif
}

/* Every one that waits is of one of the events and one of eight players: a hand word is 0, 0, player, event. */
static inline int slots_fit(const uint8_t *round, uint32_t events, uint32_t waiting)
{
    uint8_t greatest[SLOT_BYTES];

    if (waiting == 0)
        return 1;
    greatest_bytes(round + WORD * QUEUE, waiting, greatest);
    return (greatest[4] | greatest[5]) == 0 && greatest[6] < PLAYERS && greatest[7] < events;
}

static inline int running_fits(const uint8_t *table, const uint8_t *round, uint32_t events, uint32_t waiting)
{
    uint32_t hand = get(round, RUNNING);

    return waiting < MOST_IN_HAND && event_of(hand) < events && player_of(hand) < PLAYERS
        && get(round, POSITION) < get(event_record(table, event_of(hand)), CODE_LENGTH) + WRONG(10);
}

static inline int ours(const uint8_t *table, size_t table_len, const uint8_t *round, size_t round_len)
{
    uint32_t events, waiting;

    if (table_len < TABLE_BYTES || round_len < ROUND_BYTES)
        return 0;
    events = get(table, EVENT_COUNT);
    waiting = get(round, WAITING);
    return events <= MOST_EVENTS && get(table, BEHAVIOUR_COUNT) <= MOST_BEHAVIOURS && waiting <= MOST_IN_HAND
        && get(round, DEPTH) <= MOST_DEEP && (get_raw(round, RUNS) == 0 || running_fits(table, round, events, waiting))
        && codes_fit(table, events) && slots_fit(round, events, waiting);
}

/* ---- instructions: 01, "Handlers and steps" and "Arithmetic"; 02, M-102 and M-104 */

/* What a row of instructions needs, in registers from one instruction to the next: the round, the next instruction's
 * bytes and the end of the row, how deep the stack is and the value on its top (which is in its bytes too), and whether
 * an application of this row ran over. */
#define ROW uint8_t *round, const uint8_t *code, const uint8_t *end, size_t depth, uint32_t top, uint32_t over
#define SAME round, code, end

typedef const uint8_t *instruction(ROW);

enum { OPERATIONS = 12, SLOTS = 256 };

static instruction *const instructions[OPERATIONS * SLOTS]; /* by operation * 256 + slot */

static inline uint32_t on_stack(const uint8_t *round, size_t depth) { return get(round, STACK + depth - 1); }

/* Depth and mark are written to the round; the next instruction. */
static ALWAYS const uint8_t *written(ROW)
{
    (void)end, (void)top;
    put(round, DEPTH, (uint32_t)depth);
    if (unlikely(over))
        put(round, MARK, 1);
    return code;
}

/* The row ends here: at its end, or at an instruction that may not run, which has changed nothing. Apart, so that no
 * instruction saves registers for it. */
static __attribute__((noipa)) const uint8_t *stop(ROW) { return written(SAME, depth, top, over); }

static inline const uint8_t *next(ROW)
{
    uint32_t word;

    if (code == end)
        return stop(SAME, depth, top, over);
    word = get(code, 0);
    if (unlikely(word >= OPERATIONS * SLOTS))
        return stop(SAME, depth, top, over);
    return instructions[word](SAME, depth, top, over);
}

/* An instruction is written once and built twice: name, which goes on with the next of the row, and one_name, which is
 * the only one of its row. Every one ends with DONE, or with REFUSE where it may not run. */
#define INSTRUCTION(name)                                                                                  \
    static ALWAYS const uint8_t *in_##name(ROW, int only);                                                 \
    static const uint8_t *name(ROW) { return in_##name(SAME, depth, top, over, 0); }                       \
    static ALWAYS const uint8_t *one_##name(ROW) { return in_##name(SAME, depth, top, over, 1); }          \
    static ALWAYS const uint8_t *in_##name(ROW, int only)
#define DONE(depth, top, over)                                                                             \
    return only ? written(round, code + INSTRUCTION_BYTES, end, depth, top, over)                          \
                : next(round, code + INSTRUCTION_BYTES, end, depth, top, over)
#define REFUSE return only ? code : stop(SAME, depth, top, over)
#define NEEDS(condition) \
    if (unlikely(!(condition))) REFUSE

static inline size_t slot_of(const uint8_t *code) { return code[WORD - 1]; }

INSTRUCTION(refused) { REFUSE; }

INSTRUCTION(off_or_on) { DONE(depth, top, over); }

INSTRUCTION(copy)
{
    move(round, STORE + slot_of(code), SCRATCH + slot_of(code));
    DONE(depth, top, over);
}

INSTRUCTION(restore)
{
    move(round, SCRATCH + slot_of(code), STORE + slot_of(code));
    DONE(depth, top, over);
}

INSTRUCTION(move_place)
{
    move(round, PLACES + slot_of(code), SCRATCH + slot_of(code));
    DONE(depth, top, over);
}

/* A value, as its bytes stand, goes on the stack. */
#define PUSHED(value)                                  \
    do {                                               \
        uint32_t value_ = (value);                     \
        NEEDS(depth < MOST_DEEP);                      \
        put_raw(round, STACK + depth, value_);         \
        DONE(depth + 1, turned(value_), over);         \
    } while (0)

INSTRUCTION(push) { PUSHED(get_raw(code, 1)); }
INSTRUCTION(load) { PUSHED(get_raw(round, STORE + slot_of(code))); }
INSTRUCTION(fetch) { PUSHED(get_raw(round, SCRATCH + slot_of(code))); }

#define POPPED(to)                                           \
    do {                                                     \
        NEEDS(depth >= 1);                                   \
        put(round, (to) + slot_of(code), top);               \
        DONE(depth - 1, on_stack(round, depth - 1), over);   \
    } while (0)

INSTRUCTION(save) { POPPED(SCRATCH); }
INSTRUCTION(defer) { POPPED(PLACES); }

/* The result of an application takes the place of its arguments, of which the first is lowest. */
#define RESULT(count, result, over)                             \
    do {                                                        \
        uint32_t result_ = (result);                            \
        put(round, STACK + depth - (count), result_);           \
        DONE(depth - (count) + 1, result_, over);               \
    } while (0)

#define X on_stack(round, depth - 1)
#define Y top
#define SIGNED(word) ((int32_t)(word))

/* Two arguments, a result that is never brought to 32 bits. */
#define COMPARES(result)                      \
    {                                         \
        NEEDS(depth >= 2);                    \
        RESULT(2, (uint32_t)(result), over);  \
    }

INSTRUCTION(either) COMPARES((X | Y) != 0)
INSTRUCTION(both) COMPARES(X != 0 && Y != 0)
INSTRUCTION(more) COMPARES(SIGNED(X) > SIGNED(Y))
INSTRUCTION(not_less) COMPARES(SIGNED(X) >= SIGNED(Y))
INSTRUCTION(less) COMPARES(SIGNED(X) < SIGNED(Y))
INSTRUCTION(not_more) COMPARES(SIGNED(X) <= SIGNED(Y) + WRONG(11))
INSTRUCTION(equal) COMPARES(X == Y)
INSTRUCTION(unequal) COMPARES(X != Y)

/* The exact result brought to 32 bits, which the builtin tells where the two differ. */
#define WRAPS(builtin, marked)                                   \
    {                                                            \
        int32_t brought;                                         \
                                                                 \
        NEEDS(depth >= 2);                                       \
        if (unlikely(builtin(SIGNED(X), SIGNED(Y), &brought)))   \
            over = (marked);                                     \
        RESULT(2, (uint32_t)brought, over);                      \
    }

INSTRUCTION(add) WRAPS(__builtin_add_overflow, !WRONG(12))
INSTRUCTION(subtract) WRAPS(__builtin_sub_overflow, 1)
INSTRUCTION(multiply) WRAPS(__builtin_mul_overflow, 1)

/* Down to the next whole number; by zero 0, which runs over; by -1 as 0 - x. */
INSTRUCTION(divide)
{
    int32_t a, b, quotient;

    NEEDS(depth >= 2);
    a = SIGNED(X);
    b = SIGNED(Y);
    if (unlikely(b == 0))
        RESULT(2, 0, 1);
    if (unlikely(b == -1)) {
        if (a == INT32_MIN)
            over = 1;
        RESULT(2, 0 - (uint32_t)a, over);
    }
    quotient = a / b;
    if (a % b != 0 && (a ^ b) < 0 && !WRONG(13))
        quotient--;
    RESULT(2, (uint32_t)quotient, over);
}

INSTRUCTION(not)
{
    NEEDS(depth >= 1);
    RESULT(1, top == 0, over);
}

INSTRUCTION(choose)
{
    NEEDS(depth >= 3 - WRONG(14));
    RESULT(3, get_raw(round, STACK + depth - 3) != 0 ? X : Y, over);
}

#define FOUR(x) x, x, x, x
#define SIXTEEN(x) FOUR(x), FOUR(x), FOUR(x), FOUR(x)
#define SIXTY_FOUR(x) SIXTEEN(x), SIXTEEN(x), SIXTEEN(x), SIXTEEN(x)
#if PLANTED == 15
#define BEHIND(x) x
#else
#define BEHIND(x) refused
#endif
#if PLANTED == 16
#define BEHIND_IF choose
#else
#define BEHIND_IF refused
#endif
/* Slots 0 to 63 of an operation, and none of the others. */
#define EACH_SLOT(x)                                                                                    \
    SIXTY_FOUR(x), BEHIND(x), FOUR(refused), FOUR(refused), FOUR(refused), refused, refused, refused,   \
    SIXTEEN(refused), SIXTEEN(refused), SIXTEEN(refused), SIXTY_FOUR(refused), SIXTY_FOUR(refused)
#define EACH_FUNCTION                                                                                      \
    refused, either, both, not, add, subtract, multiply, divide, more, not_less, less, not_more, equal,    \
    unequal, choose, BEHIND_IF, SIXTEEN(refused), SIXTEEN(refused), SIXTEEN(refused), SIXTY_FOUR(refused), \
    SIXTY_FOUR(refused), SIXTY_FOUR(refused)
#define NO_SLOT SIXTY_FOUR(refused), SIXTY_FOUR(refused), SIXTY_FOUR(refused), SIXTY_FOUR(refused)

static instruction *const instructions[OPERATIONS * SLOTS] = {
    NO_SLOT,           EACH_SLOT(off_or_on), EACH_SLOT(off_or_on), EACH_SLOT(copy), EACH_SLOT(restore), EACH_SLOT(push),
    EACH_SLOT(load),   EACH_SLOT(fetch),     EACH_FUNCTION,        EACH_SLOT(save), EACH_SLOT(defer),
    EACH_SLOT(move_place)
};

/* Up to so many instructions, from these bytes on: how many ran. Depth and mark are written; the position is not. */
static inline uint32_t run_row(uint8_t *round, const uint8_t *code, uint32_t count)
{
    size_t depth = get(round, DEPTH);
    const uint8_t *stopped = next(round, code, code + INSTRUCTION_BYTES * (size_t)count, depth,
                                  on_stack(round, depth), 0);

    return (uint32_t)((size_t)(stopped - code) / INSTRUCTION_BYTES);
}

enum operation { OFF = 1, ON, COPY, RESTORE, PUSH, LOAD, FETCH, APPLY, SAVE, DEFER, MOVE };

/* By function, of which there are fourteen. */
#define APPLICATIONS(ONE)                                                                                   \
    ONE(1, either) ONE(2, both) ONE(3, not) ONE(4, add) ONE(5, subtract) ONE(6, multiply) ONE(7, divide)    \
    ONE(8, more) ONE(9, not_less) ONE(10, less) ONE(11, not_more) ONE(12, equal) ONE(13, unequal) ONE(14, choose)

/* One instruction, where nothing is worth keeping in registers: whether it ran. */
static inline int run_one(uint8_t *round, const uint8_t *code)
{
    size_t depth = get(round, DEPTH);
    uint32_t word = get(code, 0), slot = word & 255, top = on_stack(round, depth), over = 0;
    const uint8_t *end = code + INSTRUCTION_BYTES;

#define ONE(number, name) \
    case number: return one_##name(SAME, depth, top, over) != code;
    if (slot >= 64 + WRONG(27))
        return 0;
    switch (word >> 8) {
    ONE(OFF, off_or_on) ONE(ON, off_or_on) ONE(COPY, copy) ONE(RESTORE, restore) ONE(PUSH, push) ONE(LOAD, load)
    ONE(FETCH, fetch) ONE(SAVE, save) ONE(DEFER, defer) ONE(MOVE, move_place)
    case APPLY:
        switch (slot) {
        APPLICATIONS(ONE)
        }
    }
#undef ONE
    return 0;
}

/* ---- which is next: the highest rank, then the lowest number, then the first slot */

/* Which events wait, bit n for event n. */
static inline uint64_t waiting_events(const uint8_t *round, uint32_t waiting)
{
    const uint8_t *event = round + WORD * QUEUE + SLOT_BYTES - 1;
    uint64_t sets[4] = {0, 0, 0, 0};
    uint32_t i;

    for (i = 0; i + 4 <= waiting; i += 4, event += 4 * SLOT_BYTES) {
        sets[0] |= UINT64_C(1) << (event[0] & 63);
        sets[1] |= UINT64_C(1) << (event[SLOT_BYTES] & 63);
        sets[2] |= UINT64_C(1) << (event[2 * SLOT_BYTES] & 63);
        sets[3] |= UINT64_C(1) << (event[3 * SLOT_BYTES] & 63);
    }
    for (; i < waiting; i++, event += SLOT_BYTES)
        sets[0] |= UINT64_C(1) << (*event & 63);
    return sets[0] | sets[1] | sets[2] | sets[3];
}

struct ranked {
    uint32_t rank;   /* the highest of the events that wait */
    uint64_t events; /* that have it */
};

static inline struct ranked highest(const uint8_t *table, uint64_t events)
{
    struct ranked best = {0, 0};

    for (; events != 0; events &= events - 1) {
        uint32_t rank = get(event_record(table, (uint32_t)__builtin_ctzll(events)), RANK);
        uint64_t event = events & (0 - events);

        if (rank > best.rank || best.events == 0) {
            best.rank = rank;
            best.events = event;
        } else if (rank == best.rank)
            best.events |= event;
    }
    return best;
}

/* One number for a slot: not of these events, the arrival's number, the slot. The least is the next. */
static inline uint64_t turn_of(const uint8_t *round, uint32_t slot, uint64_t events, int only)
{
    size_t at = queue_word(slot);
    uint64_t behind = only ? 0 : ~events >> (round[WORD * at + SLOT_BYTES - 1] & 63) << 63;

    return behind | (uint64_t)get(round, at) << 6 | (WRONG(17) ? 63 - slot : slot);
}

/* `only`: no other events wait. */
static inline uint32_t first_of(const uint8_t *round, uint32_t waiting, uint64_t events, int only)
{
    uint64_t even = UINT64_MAX, odd = UINT64_MAX, turn;
    uint32_t slot;

    for (slot = 0; slot + 1 < waiting; slot += 2) {
        turn = turn_of(round, slot, events, only);
        even = turn < even ? turn : even;
        turn = turn_of(round, slot + 1, events, only);
        odd = turn < odd ? turn : odd;
    }
    if (slot < waiting) {
        turn = turn_of(round, slot, events, only);
        even = turn < even ? turn : even;
    }
    slot = (even < odd ? even : odd) & 63;
    return WRONG(17) ? 63 - slot : slot;
}

static inline uint32_t next_slot(const uint8_t *table, const uint8_t *round, uint32_t waiting)
{
    uint64_t events, those;

    if (waiting == 1)
        return 0;
    events = waiting_events(round, waiting);
    those = highest(table, events).events;
    return events == those ? first_of(round, waiting, those, 1) : first_of(round, waiting, those, 0);
}

/* ---- what a step does */

static inline uint64_t about(enum answer kind, uint32_t number, uint32_t hand)
{
    return (uint64_t)number << 16 | (uint64_t)event_of(hand) << 8 | (uint64_t)player_of(hand) << 4 | kind;
}

/* An arrival runs from its beginning, its stack empty, without a mark. */
static inline uint64_t begin(uint8_t *round, enum answer kind, uint32_t number, uint32_t hand)
{
    put(round, RUNS, 1);
    put(round, RUNNING, hand);
    put(round, RUNNING_NUMBER, number);
    put(round, POSITION, 0);
    put(round, DEPTH, 0);
    if (!WRONG(18))
        put(round, MARK, 0);
    return about(kind, number, hand);
}

/* The next starts; the last that waits takes its slot. */
static inline uint64_t start_next(const uint8_t *table, uint8_t *round, uint32_t waiting)
{
    size_t slot = queue_word(next_slot(table, round, waiting)), last = queue_word(waiting - 1);
    uint32_t number = get(round, slot), hand = get(round, slot + 1);

    move(round, last, slot);
    move(round, last + 1, slot + 1);
    put(round, WAITING, waiting - 1);
    return begin(round, STARTED, number, hand);
}

/* The next starts, and the running one takes its slot. */
static inline uint64_t break_in(const uint8_t *table, uint8_t *round, uint32_t waiting)
{
    size_t slot = queue_word(next_slot(table, round, waiting));
    uint32_t number = get(round, slot), hand = get(round, slot + 1);

    move(round, RUNNING_NUMBER, slot);
    move(round, RUNNING, slot + 1);
    return begin(round, BROKE_IN, number, hand);
}

/* Whether one that waits has a higher rank than the one that runs. */
static inline int outranked(const uint8_t *table, const uint8_t *round, const uint8_t *record, uint32_t waiting)
{
    return waiting != 0
        && highest(table, waiting_events(round, waiting)).rank + (uint64_t)WRONG(19) > get(record, RANK);
}

/* After the second off: what is left to do are the copies back and the on. */
static inline int copying_back(const uint8_t *record, uint32_t done)
{
    return (uint64_t)done + get(record, MEMBERS) + 1 - WRONG(20) >= get(record, CODE_LENGTH);
}

static inline int masked(const uint8_t *record, uint32_t done)
{
    return copying_back(record, done) || (done != 0 && done - 1 <= get(record, MEMBERS));
}

/* The last instruction has run; its position stays. */
static inline uint64_t commit(uint8_t *round, uint32_t hand)
{
    put(round, RUNS, 0);
    return about(COMMITTED, get(round, RUNNING_NUMBER), hand) | (get_raw(round, MARK) != 0 ? OVER : 0);
}

static inline const uint8_t *code_at(const uint8_t *table, const uint8_t *record, uint32_t done)
{
    return table + WORD * (CODE + CODE_WORDS * ((size_t)get(record, CODE_START) + done));
}

uint64_t cengine_step(const uint8_t *table, size_t table_len, uint8_t *round, size_t round_len)
{
    uint32_t waiting, hand, done;
    const uint8_t *record;

    if (!ours(table, table_len, round, round_len))
        return FOREIGN;
    waiting = get(round, WAITING);
    if (get_raw(round, RUNS) == 0)
        return waiting == 0 ? (uint64_t)IDLE : start_next(table, round, waiting);
    hand = get(round, RUNNING);
    done = get(round, POSITION);
    record = event_record(table, event_of(hand));
    if (waiting != 0 && !masked(record, done) && outranked(table, round, record, waiting))
        return break_in(table, round, waiting);
    if (!run_one(round, code_at(table, record, done)))
        return FOREIGN;
    if (done + 1 == get(record, CODE_LENGTH))
        return commit(round, hand);
    put(round, POSITION, done + 1);
    return RAN;
}

/* ---- a frame */

static inline uint64_t framed(enum end end, uint32_t made, uint32_t written)
{
    return (uint64_t)end << 56 | (uint64_t)written << 32 | made;
}

/* How many instructions come before the next moment at which one that waits may break in: up to the on that ends the
 * first masked part, or all. */
static inline uint32_t unbroken(const uint8_t *record, uint32_t done)
{
    uint32_t length = get(record, CODE_LENGTH);

    return copying_back(record, done) ? length - done : get(record, MEMBERS) + 2 + WRONG(21) - done;
}

/* One that waits can outrank the running one only where a frame begins: what starts within it is the next, and nothing
 * arrives meanwhile. */
uint64_t cengine_frame(const uint8_t *table, size_t table_len, uint8_t *round, size_t round_len, uint32_t steps,
                       uint8_t *commits, size_t commits_len)
{
    uint32_t room = commits_len / ANSWER < MOST_COMMITS ? (uint32_t)(commits_len / ANSWER) : MOST_COMMITS;
    uint32_t left = steps, written = 0, waiting, hand, done, length, count, ran;
    const uint8_t *record;
    int running, pressed = 0;

    if (steps == 0)
        return framed(ALL_MADE, 0, 0);
    if (!ours(table, table_len, round, round_len))
        return framed(room == 0 ? NO_ROOM : REFUSED, 0, 0);
    waiting = get(round, WAITING);
    running = get_raw(round, RUNS) != 0;
    if (running)
        pressed = outranked(table, round, event_record(table, event_of(get(round, RUNNING))), waiting) && !WRONG(22);
    while (left > 0 && written < room) {
        if (!running) {
            if (waiting == 0)
                break;
            start_next(table, round, waiting--);
            running = 1;
            left--;
            continue;
        }
        hand = get(round, RUNNING);
        done = get(round, POSITION);
        record = event_record(table, event_of(hand));
        length = get(record, CODE_LENGTH);
        if (unlikely(pressed) && !masked(record, done)) {
            break_in(table, round, waiting);
            pressed = 0;
            left--;
            continue;
        }
        count = pressed ? unbroken(record, done) : length - done;
        count = count < left ? count : left;
        if (unlikely(done >= length)) /* an event without code has started */
            return framed(WRONG(23) ? ALL_MADE : REFUSED, steps - left, written);
        ran = run_row(round, code_at(table, record, done), count);
        left -= ran;
        done += ran;
        if (done == length) {
            put(round, POSITION, length - 1 + WRONG(24));
            put_answer(commits + ANSWER * (size_t)written++, commit(round, hand));
            running = pressed = 0;
        } else {
            put(round, POSITION, done);
            if (unlikely(ran < count))
                return framed(REFUSED, steps - left, written);
        }
    }
    if (!running && waiting == 0 && !(WRONG(25) && written == room))
        return framed(NONE_LEFT, steps - left, written);
    return framed(left == 0 ? ALL_MADE : NO_ROOM, steps - left, written);
}

/* ---- arrivals and board readings; 02, M-107 */

static inline int may(uint32_t players, uint32_t player)
{
    return (player == 0 && !WRONG(26)) || (players >> player & 1) != 0;
}

uint32_t cengine_arrive(const uint8_t *table, size_t table_len, uint8_t *round, size_t round_len, uint32_t event,
                        uint32_t player)
{
    uint32_t waiting, taken;

    if (!ours(table, table_len, round, round_len))
        return FOREIGN;
    if (player >= PLAYERS)
        return NO_PLAYER;
    if (event >= get(table, EVENT_COUNT))
        return NO_EVENT;
    if (!may(get(table, SENDERS + (size_t)event), player))
        return NO_RIGHT;
    waiting = get(round, WAITING);
    if (waiting + (get_raw(round, RUNS) != 0) >= MOST_IN_HAND)
        return FULL_HAND;
    taken = get(round, TAKEN);
    if (taken >= MOST_TAKEN)
        return SPENT;
    put(round, queue_word(waiting), taken);
    put(round, queue_word(waiting) + 1, player << 8 | event);
    put(round, TAKEN, taken + 1);
    put(round, WAITING, waiting + 1);
    return 0;
}

uint64_t cengine_board(const uint8_t *table, size_t table_len, const uint8_t *round, size_t round_len,
                       uint32_t behaviour, uint32_t player)
{
    if (!ours(table, table_len, round, round_len))
        return FOREIGN;
    if (player >= PLAYERS)
        return NO_PLAYER;
    if (behaviour >= get(table, BEHAVIOUR_COUNT))
        return NO_BEHAVIOUR;
    if (!may(get(table, VIEWERS + (size_t)behaviour), player))
        return NO_RIGHT;
    if (get_raw(round, RUNS) != 0
        && copying_back(event_record(table, event_of(get(round, RUNNING))), get(round, POSITION)))
        return SETTLING;
    return VALUE | get(round, STORE + (size_t)behaviour);
}
