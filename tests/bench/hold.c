/* Holds the proved engine against the one written by hand (cengine.c): hold [ROUNDS] [SEED]. Sheets are made at random
 * and compiled, and tables of random instructions besides, most of which may run; then frame, step, arrive and board
 * are called on both, on rounds as they come, on tables and rounds with bytes damaged, on noise and on short buffers.
 * After every call the answers and all bytes of the round and of the commits must be the same, and the table as it was.
 * The first difference is printed, and the program ends with 1. */
#include <stdio.h>
#include <stdlib.h>
#include <string.h>

#include "cengine.h"
#include "engine.h"

enum { WORD = 4, CALLS = 2000, BEYOND = 16, MOST_ANSWER = 32, FOREIGN = 14, TRIES = 1000, COMMITS = 80 };

/* Words that are damaged more often than others: see cengine.c. */
enum { ROUND_HEAD = 8, RUNNING = 3, POSITION = 5, QUEUE = 8, QUEUE_END = 136 };
enum { TABLE_HEAD = 2, EVENTS = 8, EVENTS_END = 136, EVENT_WORDS = 4, RANK = 0, START = 1, LENGTH = 2, MEMBERS = 3,
       RIGHTS = 200, RIGHTS_END = 296, CODE = 512, CODE_END = 8704, MOST_CODE = 4096, MOST_DEEP = 64 };

/* Tags of a sheet, of its expressions, and the numbers of functions and operations. */
enum { EVENT = 1, PASSIVE, ACTIVE, INITIAL, HANDLER, VIEWERS = 8, CONSTANT = 16, NAME, APPLICATION };
enum { NOT = 3, IF = 14, FUNCTIONS = IF, RANKS = 16 };
enum { OFF = 1, ON, COPY, RESTORE, PUSH, LOAD, FETCH, APPLY, SAVE, DEFER, MOVE, OPERATIONS = MOVE };

static uint8_t table[ENGINE_TABLE + BEYOND], clean[ENGINE_TABLE], kept[ENGINE_TABLE + BEYOND];
static uint8_t ours[ENGINE_ROUND + BEYOND], other[ENGINE_ROUND + BEYOND], whole[ENGINE_ROUND + BEYOND];
static uint8_t our_commits[ENGINE_ANSWER * COMMITS + BEYOND], other_commits[sizeof our_commits];
static uint8_t sheet[ENGINE_SHEET];
static size_t sheet_len;
static size_t table_lent, round_lent;
static unsigned long calls, damaged, steps;

enum call { ARRIVE, BOARD, STEP, FRAME, KINDS };
static const char *const names[KINDS] = {"arrive", "board", "step", "frame"};
/* By a refusal's number, the kind of a step or the end of a frame; 0 for a value. */
static unsigned long answers[KINDS][MOST_ANSWER];

/* ---- chance */

static uint64_t state;

static uint32_t below(uint32_t n)
{
    state ^= state << 13;
    state ^= state >> 7;
    state ^= state << 17;
    return (uint32_t)(state >> 16) % n;
}

static int one_in(uint32_t n) { return below(n) == 0; }

static uint32_t any_word(void) { return below(UINT32_MAX); }

/* ---- sheets */

static void put_byte(uint32_t b)
{
    if (sheet_len < sizeof sheet)
        sheet[sheet_len] = (uint8_t)b;
    sheet_len++;
}

/* A field is opened with its tag, and closed when its bytes are known. */
static size_t open_field(uint32_t tag)
{
    put_byte(tag);
    put_byte(0);
    put_byte(0);
    return sheet_len;
}

static void close_field(size_t from)
{
    size_t n = sheet_len - from;

    if (sheet_len > sizeof sheet)
        return;
    sheet[from - 2] = (uint8_t)(n >> 8);
    sheet[from - 1] = (uint8_t)n;
}

static void put_word(uint32_t w)
{
    put_byte(w >> 24);
    put_byte(w >> 16);
    put_byte(w >> 8);
    put_byte(w);
}

static void put_expression(uint32_t nesting, uint32_t behaviours)
{
    uint32_t function, arguments, k, leaf = one_in(2) ? CONSTANT : NAME;
    size_t field;

    if (nesting == 0 || one_in(4)) {
        field = open_field(leaf);
        if (leaf == CONSTANT)
            put_word(one_in(3) ? any_word() : below(5));
        else
            put_byte(below(behaviours));
        close_field(field);
        return;
    }
    function = 1 + below(FUNCTIONS);
    arguments = function == NOT ? 1 : function == IF ? 3 : 2;
    field = open_field(APPLICATION);
    put_byte(function);
    for (k = 0; k < arguments; k++)
        put_expression(nesting - 1, behaviours);
    close_field(field);
}

static void put_event(void)
{
    size_t field = open_field(EVENT);

    put_byte(below(one_in(2) ? 3 : RANKS));
    if (one_in(3))
        put_byte(below(256));
    close_field(field);
}

static void put_viewers(void)
{
    size_t field = open_field(VIEWERS);

    put_byte(below(256));
    close_field(field);
}

static void put_active(uint32_t events, uint32_t behaviours)
{
    size_t field = open_field(ACTIVE), inner = open_field(INITIAL);
    uint32_t e;

    put_word(one_in(3) ? any_word() : below(9));
    close_field(inner);
    for (e = 0; e < events; e++)
        if (one_in(2)) {
            inner = open_field(HANDLER);
            put_byte(e);
            put_byte(below(2));
            put_expression(below(4), behaviours);
            close_field(inner);
        }
    if (one_in(4))
        put_viewers();
    close_field(field);
}

static void put_passive(uint32_t behaviours)
{
    size_t field = open_field(PASSIVE);

    put_expression(below(3), behaviours);
    if (one_in(4))
        put_viewers();
    close_field(field);
}

static void make_sheet(void)
{
    uint32_t events = one_in(8) ? below(ENGINE_EVENTS + 1) : 1 + below(4);
    uint32_t behaviours = 1 + (one_in(8) ? below(ENGINE_BEHAVIOURS) : below(5)), k;

    sheet_len = 0;
    for (k = 0; k < events; k++)
        put_event();
    for (k = 0; k < behaviours; k++)
        if (one_in(4))
            put_passive(behaviours);
        else
            put_active(events, behaviours);
}

/* Circles and overlong sheets are turned down: as many tries as it takes. */
static void make_table(void)
{
    int k;

    for (k = 0; k < TRIES; k++) {
        make_sheet();
        if (sheet_len <= sizeof sheet && engine_compile(sheet, sheet_len, NULL, 0, clean, sizeof clean) == 0)
            return;
    }
    puts("hold: no sheet was accepted");
    exit(1);
}

/* ---- damage */

static uint32_t get(const uint8_t *bytes, size_t word)
{
    const uint8_t *at = bytes + WORD * word;
    return (uint32_t)at[0] << 24 | (uint32_t)at[1] << 16 | (uint32_t)at[2] << 8 | at[3];
}

static void put(uint8_t *bytes, size_t word, uint32_t value)
{
    uint8_t *at = bytes + WORD * word;
    at[0] = (uint8_t)(value >> 24);
    at[1] = (uint8_t)(value >> 16);
    at[2] = (uint8_t)(value >> 8);
    at[3] = (uint8_t)value;
}

/* A word beside a limit, a small one, one near the old, or any. */
static uint32_t odd_word(uint32_t old)
{
    static const uint32_t limits[] = {0, 1, 7, 8, 9, 14, 15, 31, 32, 33, 62, 63, 64, 65, 255, 256, 0x7FF, 0x800, 4095,
                                      4096, 4097, 999999, 1000000, 1000001, 0x7FFFFFFF, 0x80000000, 0xFFFFFFFF};

    switch (below(5)) {
    case 0: return limits[below(sizeof limits / sizeof *limits)];
    case 1: return old + 1;
    case 2: return old - 1;
    case 3: return below(70);
    default: return any_word();
    }
}

static void damage_word(uint8_t *bytes, size_t word)
{
    put(bytes, word, odd_word(get(bytes, word)));
}

static void damage_round(uint8_t *round)
{
    switch (below(4)) {
    case 0: damage_word(round, below(ROUND_HEAD)); break;
    case 1: damage_word(round, QUEUE + below(QUEUE_END - QUEUE)); break;
    case 2: damage_word(round, below(ENGINE_ROUND / WORD)); break;
    default: round[below(ENGINE_ROUND)] = (uint8_t)below(256);
    }
}

/* An operation and a slot, of this paper or just not. */
static uint32_t odd_instruction(void)
{
    if (one_in(3))
        return APPLY << 8 | below(FUNCTIONS + 3);
    return below(OPERATIONS + 3) << 8 | (one_in(4) ? below(256) : 60 + below(8));
}

/* Where the instruction is that the next step would run. */
static size_t next_instruction(void)
{
    size_t record = EVENTS + EVENT_WORDS * (size_t)(get(ours, RUNNING) % ENGINE_EVENTS);

    return CODE + 2 * (size_t)((get(table, record + START) + get(ours, POSITION)) % MOST_CODE);
}

/* An event whose code ends at the limit, or one past it. */
static void damage_extent(void)
{
    size_t record = EVENTS + EVENT_WORDS * (size_t)below(ENGINE_EVENTS);

    put(table, record + START, MOST_CODE + below(3) - 1 - get(table, record + LENGTH));
}

static void damage_table(void)
{
    switch (below(7)) {
    case 0: damage_word(table, below(TABLE_HEAD)); break;
    case 1: damage_word(table, EVENTS + below(EVENTS_END - EVENTS)); break;
    case 2: damage_word(table, RIGHTS + below(RIGHTS_END - RIGHTS)); break;
    case 3: put(table, next_instruction(), odd_instruction()); break;
    case 4: damage_word(table, CODE + below(CODE_END - CODE)); break;
    case 5: damage_extent(); break;
    default: table[below(ENGINE_TABLE)] = (uint8_t)below(256);
    }
}

static void noise(uint8_t *bytes, size_t n)
{
    while (n-- > 0)
        bytes[n] = (uint8_t)(one_in(3) ? below(256) : 0);
}

/* ---- tables of random instructions */

static uint32_t some_slot(uint32_t operation) { return operation << 8 | below(ENGINE_BEHAVIOURS); }

static uint32_t arguments_of(uint32_t function) { return function == NOT ? 1 : function == IF ? 3 : 2; }

/* An instruction that may run where the stack is so deep, but for one in some hundreds. */
static uint32_t runnable(uint32_t *deep)
{
    static const uint8_t still[] = {OFF, ON, COPY, RESTORE, MOVE};
    uint32_t function = 1 + below(FUNCTIONS);

    if (one_in(400))
        return odd_instruction();
    if (one_in(5))
        return some_slot(still[below(sizeof still)]);
    if (*deep > 0 && one_in(4)) {
        --*deep;
        return some_slot(one_in(2) ? SAVE : DEFER);
    }
    if (*deep >= arguments_of(function) && one_in(2)) {
        *deep -= arguments_of(function) - 1;
        return APPLY << 8 | function;
    }
    if (*deep == MOST_DEEP)
        return some_slot(OFF);
    ++*deep;
    return some_slot(PUSH + below(FETCH - PUSH + 1));
}

/* An event's code: some have none, some only push, so that the stack gets full. */
static uint32_t put_code(uint32_t at, uint32_t length)
{
    uint32_t k, deep = 0;
    int pushes = one_in(6);

    for (k = 0; k < length; k++) {
        put(clean, CODE + 2 * (size_t)(at + k), pushes ? some_slot(PUSH) : runnable(&deep));
        put(clean, CODE + 2 * (size_t)(at + k) + 1, one_in(3) ? any_word() : below(5));
    }
    return at + length;
}

static void make_code(void)
{
    uint32_t events = 1 + below(one_in(6) ? ENGINE_EVENTS : 4), e, at = 0, length;
    size_t k;

    memset(clean, 0, sizeof clean);
    put(clean, 0, events);
    put(clean, 1, below(ENGINE_BEHAVIOURS + 1));
    for (e = 0; e < events; e++) {
        size_t record = EVENTS + EVENT_WORDS * (size_t)e;

        length = one_in(12) ? 0 : 1 + below(one_in(4) ? 300 : 40);
        length = at + length > MOST_CODE ? 0 : length;
        put(clean, record + RANK, one_in(20) ? any_word() : below(4));
        put(clean, record + START, at);
        put(clean, record + LENGTH, length);
        put(clean, record + MEMBERS, one_in(3) ? below(length + 3) : below(4));
        at = put_code(at, length);
    }
    for (k = RIGHTS; k < RIGHTS_END; k++)
        put(clean, k, below(256));
}

/* ---- the two engines */

static void differ(enum call call, uint32_t number, uint32_t player, uint64_t a, uint64_t b)
{
    size_t k;

    printf("hold: %s(%u, %u) answers %llx, by hand %llx", names[call], (unsigned)number, (unsigned)player,
           (unsigned long long)a, (unsigned long long)b);
    for (k = 0; k < sizeof ours; k++)
        if (ours[k] != other[k]) {
            printf("; round byte %u is %u, by hand %u", (unsigned)k, ours[k], other[k]);
            break;
        }
    if (memcmp(our_commits, other_commits, sizeof our_commits) != 0)
        printf("; the commits differ");
    puts("");
    exit(1);
}

#define LENT table, table_lent

/* Of a frame: none, one, a few, more than an event has, or more than there can be. */
static uint32_t some_steps(void)
{
    switch (below(8)) {
    case 0: return below(3);
    case 1: return below(5000);
    case 2: return one_in(4) ? UINT32_MAX - below(3) : 200;
    default: return 1 + below(60);
    }
}

/* Bytes for commits: none, less than one, a few, or more than there can be. */
static size_t some_room(void)
{
    return one_in(6) ? below(ENGINE_ANSWER + 1) : one_in(3) ? below(4 * ENGINE_ANSWER) : ENGINE_ANSWER * COMMITS;
}

static void tally(enum call call, uint64_t answer)
{
    uint64_t kind = call == STEP ? engine_step_kind(answer) : call == FRAME ? engine_frame_end(answer) : answer;

    answers[call][kind < MOST_ANSWER ? kind : 0]++;
    steps += call == FRAME ? engine_frame_steps(answer) : 0;
    calls++;
}

/* One call on both; whether it was refused as foreign. */
static int call_both(void)
{
    uint32_t number = one_in(20) ? any_word() : one_in(3) ? below(70) : below(6);
    uint32_t player = one_in(30) ? any_word() : one_in(3) ? below(10) : 0;
    enum call call = one_in(6) ? ARRIVE : one_in(10) ? BOARD : one_in(2) ? STEP : FRAME;
    uint64_t a, b;
    size_t room = some_room();

    memcpy(other, ours, sizeof ours);
    memset(our_commits, (int)(calls & 255), sizeof our_commits);
    memcpy(other_commits, our_commits, sizeof our_commits);
    switch (call) {
    case ARRIVE:
        a = engine_arrive(LENT, ours, round_lent, number, player);
        b = cengine_arrive(LENT, other, round_lent, number, player);
        break;
    case BOARD:
        a = engine_board(LENT, ours, round_lent, number, player);
        b = cengine_board(LENT, other, round_lent, number, player);
        break;
    case STEP:
        a = engine_step(LENT, ours, round_lent);
        b = cengine_step(LENT, other, round_lent);
        break;
    default:
        number = some_steps();
        a = engine_frame(LENT, ours, round_lent, number, our_commits, room);
        b = cengine_frame(LENT, other, round_lent, number, other_commits, room);
    }
    if (a != b || memcmp(ours, other, sizeof ours) != 0 || memcmp(our_commits, other_commits, sizeof our_commits) != 0)
        differ(call, number, player, a, b);
    tally(call, a);
    return call == FRAME ? engine_frame_end(a) == ENGINE_FRAME_REFUSED : a == FOREIGN;
}

static void check_table(void)
{
    if (memcmp(kept, table, sizeof kept) != 0) {
        puts("hold: the table was changed");
        exit(1);
    }
}

/* Arrivals, so that there is something to run. */
static void take_in(uint32_t n)
{
    uint32_t k, events = get(clean, 0);

    for (k = 0; events > 0 && k < n; k++)
        engine_arrive(table, sizeof table, ours, sizeof ours, below(events), 0);
}

/* A fresh table and round, the hand at times nearly full from the start. */
static void begin(void)
{
    memcpy(table, clean, sizeof clean);
    engine_start(table, sizeof table, ours, sizeof ours);
    take_in(one_in(3) ? below(ENGINE_HAND + 2) : 0);
    memcpy(whole, ours, sizeof whole);
    table_lent = sizeof table;
    round_lent = sizeof ours;
    memcpy(kept, table, sizeof kept);
}

/* The round before the harm and the clean table again. */
static void heal(void)
{
    check_table();
    memcpy(ours, whole, sizeof ours);
    memcpy(table, clean, sizeof clean);
    table_lent = sizeof table;
    round_lent = sizeof ours;
    memcpy(kept, table, sizeof kept);
}

/* Of a buffer that should have so many bytes: just as many, one or two less or more, or any number. */
static size_t some_length(uint32_t bytes)
{
    return one_in(2) ? bytes - 2 + below(5) : below(bytes + BEYOND + 1);
}

static void harm(void)
{
    check_table();
    memcpy(whole, ours, sizeof whole);
    damaged++;
    if (one_in(40))
        table_lent = some_length(ENGINE_TABLE);
    else if (one_in(40))
        round_lent = some_length(ENGINE_ROUND);
    else if (one_in(60))
        noise(ours, ENGINE_ROUND);
    else if (one_in(2))
        damage_round(ours);
    else
        damage_table();
    memcpy(kept, table, sizeof kept);
}

/* A fresh round of the sheet, left whole or harmed again and again. */
static void one_round(int harmed)
{
    int k, hurt = 0;

    begin();
    for (k = 0; k < CALLS; k++) {
        if (hurt && one_in(12)) {
            heal();
            hurt = 0;
        } else if (harmed && one_in(15)) {
            hurt = 1;
            harm();
        }
        if (call_both() && one_in(2)) {
            heal();
            hurt = 0;
        }
        if (!hurt && one_in(20))
            take_in(one_in(8) ? ENGINE_HAND : below(9));
    }
    check_table();
}

int main(int argc, char **argv)
{
    unsigned long rounds = argc > 1 ? strtoul(argv[1], NULL, 10) : 1500, k;
    int call;

    state = 88172645463325252u + (argc > 2 ? strtoull(argv[2], NULL, 10) : 0);
    for (k = 0; k < rounds; k++) {
        if (k % 6 == 0)
            make_table();
        if (k % 6 == 3)
            make_code();
        one_round(k % 3 != 0);
    }
    printf("hold: %lu calls, %lu steps by frame, as by the engine written by hand, bytes damaged %lu times;", calls,
           steps, damaged);
    for (call = 0; call < KINDS; call++) {
        printf(" %s", names[call]);
        for (k = 0; k < MOST_ANSWER; k++)
            if (answers[call][k])
                printf(" %lu:%lu", k, answers[call][k]);
    }
    puts("");
    return 0;
}
