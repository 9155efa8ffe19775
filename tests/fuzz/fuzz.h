/* The fuzz target's parts: inputs, lent buffers, and what is held. tests/fuzz/run builds and runs it. */
#ifndef FUZZ_H
#define FUZZ_H

#include "engine.h"

/* ---- inputs */

/* An input is five parts: two sheets, parameters and a text, each behind its length in two bytes, and calls of four
 * bytes. Any bytes are an input: a length that is too large is cut. */
enum part_of_input { SHEET, OTHER, PARAMS, TEXT, CALLS, PARTS };
enum { LARGEST = 40000, CALL = 4 };

struct part {
    const uint8_t *bytes;
    size_t length;
};

void input_parts(const uint8_t *input, size_t size, struct part parts[PARTS]);

/* ---- lent buffers: the bytes behind them may not be read or written, by the engine or by anybody else */

enum { BEYOND = 64 };

struct table {
    uint8_t before[BEYOND], bytes[ENGINE_TABLE], beyond[BEYOND];
};

struct round {
    uint8_t before[BEYOND], bytes[ENGINE_ROUND], beyond[BEYOND];
};

/* Both are lent with so many bytes more than they need. */
extern size_t more;

#define TABLE_OF(t) (t)->bytes, ENGINE_TABLE + more
#define ROUND_OF(r) (r)->bytes, ENGINE_ROUND + more

void fence_table(struct table *table);
void fence_round(struct round *round);
void copy_table(struct table *to, const struct table *from);
void copy_round(struct round *to, const struct round *from);
int same_round(const struct round *one, const struct round *other);

/* A buffer of the heap that has exactly these bytes, or so many that are FILL; freed by the caller. */
enum { FILL = 0xA5 };
uint8_t *exactly(struct part part);
uint8_t *filled(size_t length);
int untouched(const uint8_t *bytes, size_t from, size_t to);

/* ---- what is held, and how often it was tried */

#define TRIED(X)                                                                                                       \
    X(CALLS_MADE, "calls")                                                                                             \
    X(SHEETS_ACCEPTED, "sheets accepted")                                                                              \
    X(SHEETS_REFUSED, "sheets refused")                                                                                \
    X(CIRCLES, "circles")                                                                                              \
    X(DESCRIBED, "sheets described and assembled again")                                                               \
    X(TEXTS_ACCEPTED, "texts assembled")                                                                               \
    X(TEXTS_REFUSED, "texts refused")                                                                                  \
    X(FORMULAS, "formulas")                                                                                            \
    X(JOINED, "sheets joined and played in halves")                                                                    \
    X(ARRIVALS, "arrivals")                                                                                            \
    X(FRAMES, "frames that are steps")                                                                                 \
    X(COMMITS, "commits in frames")                                                                                    \
    X(DELIVERIES, "deliveries that are steps and an arrival")                                                          \
    X(FULL_HANDS, "deliveries with a full hand")                                                                       \
    X(PREVIEWS, "previews that are arrival, run and board")                                                            \
    X(FORECASTS, "forecasts that are exact")                                                                           \
    X(REPLAYS, "replays that are calls")                                                                               \
    X(MENDS, "changes of sheets")                                                                                      \
    X(DAMAGED, "calls on damaged bytes")                                                                               \
    X(REFUSALS, "refused calls that changed nothing")                                                                  \
    X(AGREED, "rounds on two phones with equal boards")                                                                \
    X(AGREED_FOR, "behaviours that are equal on two phones, others being apart or not")

#define NUMBERED(name, words) name,
enum tried { TRIED(NUMBERED) KINDS_TRIED };
#undef NUMBERED

extern unsigned long long tried[KINDS_TRIED];

/* Ends the program with these words where it does not hold. */
void hold(int holds, const char *what);

/* ---- the oracles */

/* Compiles both sheets, and holds every call on sheets and texts: whether each is accepted. */
void hold_sheets(const struct part parts[PARTS], struct table tables[2], int accepted[2]);

/* Plays the calls on a round of the first sheet, changing to the second and back. */
void hold_rounds(const struct part parts[PARTS], struct table tables[2], const int accepted[2]);

#endif
