/* The round engine, for C and C++. `./release` writes the archives and the files for pkg-config and CMake; docs/HOST.md
 * is the manual.
 *
 * Every call takes numbers and byte buffers only; a buffer is a pointer and its length in bytes, and any alignment will
 * do. A buffer of length 0 may be NULL. No call keeps a pointer, allocates, or touches anything but the buffers lent to
 * it, so calls on different rounds may run at the same time. Each call's result and every byte that it leaves is proved
 * for all bytes and numbers (docs/CLAIMS.md).
 *
 * Table: at least ENGINE_TABLE bytes; engine_compile writes it, the other calls only read it. Round: at least
 * ENGINE_ROUND bytes; engine_start makes it fresh. A buffer that a call writes must overlap no other lent to it;
 * buffers that it only reads may overlap or be one. Bytes beyond these sizes are never touched. A refused call changes
 * no byte. The program must not change table or round between calls.
 */
#ifndef ENGINE_H
#define ENGINE_H

#include <stddef.h>
#include <stdint.h>

/* A length in bytes: size_t, and in WebAssembly, where size_t has 32 bits, a number of 64 as everywhere. */
#if SIZE_MAX == UINT64_MAX
typedef size_t engine_size;
#elif defined(__wasm32__)
typedef uint64_t engine_size;
#else
#error "the engine's archives are for 64-bit processors and for WebAssembly"
#endif

#ifdef __cplusplus
extern "C" {
#endif

/* The interface, that is calls, arguments, answers and what they mean: a change after which the same calls give another
 * answer moves it. And the layout of table and round: a saved table or round may be lent to an engine of the same
 * layout, on any processor. Phones that play one round have both in common. */
#define ENGINE_VERSION 1u
#define ENGINE_LAYOUT 1u

#define ENGINE_SHEET 8192u     /* a sheet has at most so many bytes */
#define ENGINE_PARAMS 32u
#define ENGINE_TABLE 34816u
#define ENGINE_ROUND 2048u
#define ENGINE_TEXT 1024u      /* a formula's text has at most so many */
#define ENGINE_FIELD 7168u     /* and its field */
#define ENGINE_SHEET_TEXT 65536u /* a sheet's text has at most so many */
#define ENGINE_CIRCLE_LIST 64u
#define ENGINE_EVENTS 32u      /* of a sheet, at most */
#define ENGINE_BEHAVIOURS 64u
#define ENGINE_HAND 64u        /* arrivals in hand, at most */

/* Up to eight players, 0 to 7, share a round. The host may do everything; the others what the sheet lets them. */
#define ENGINE_HOST 0u
#define ENGINE_PLAYERS 8u

/* Why a call was turned down. No call gives 2: a sheet of no bytes is accepted, with no events and no behaviours. */
enum engine_refusal {
    ENGINE_SHORT_TABLE = 1,    /* compile: table under 34,816 bytes */
    ENGINE_LONG_SHEET = 3,     /* over 8,192 bytes */
    ENGINE_TORN = 4,           /* under three bytes where a field is due, or a length past its enclosing end */
    ENGINE_WRONG_TAG = 5,      /* a tag not allowed there; an event after a behaviour */
    ENGINE_WRONG_LENGTH = 6,   /* fixed length differs; a due byte is missing; bytes left over */
    ENGINE_CROWDED = 7,        /* 33rd event, 65th behaviour */
    ENGINE_OFF_THE_SCALE = 8,  /* rank, event, phase, function, parameter or cell count not listed or not declared */
    ENGINE_TOO_DEEP = 9,       /* an expression at nesting 17 */
    ENGINE_DOUBLED = 10,       /* second handler for an event in one behaviour */
    ENGINE_UNKNOWN_NAME = 11,  /* no such behaviour in the sheet */
    ENGINE_CIRCLE = 12,        /* some event, or no event, has one */
    ENGINE_OVERLONG = 13,      /* over 4,096 instructions */
    ENGINE_FOREIGN = 14,       /* table or round is not one of this engine's */
    ENGINE_NO_SUCH_EVENT = 15, /* not declared */
    ENGINE_FULL_HAND = 16,     /* 64 in hand */
    ENGINE_SPENT = 17,         /* 1,000,000 already taken in */
    ENGINE_NO_SUCH_BEHAVIOUR = 18, /* number not in the sheet */
    ENGINE_SETTLING = 19,      /* board read, or sheet changed, during copy-back */
    ENGINE_NO_PARAMETERS = 20, /* the sheet uses a parameter and fewer than 32 bytes are lent */
    ENGINE_NO_FORMULA = 21,    /* formula: the text is outside the grammar or over 1,024 bytes */
    ENGINE_LARGE_NUMBER = 22,  /* formula: a number exceeds 2,147,483,647 */
    ENGINE_SHORT_BUFFER = 23,  /* formula: the buffer is too short for the field */
    ENGINE_NO_PLAYER = 24,     /* the player is above 7 */
    ENGINE_NO_RIGHT = 25,      /* the player may not send this event, or may not see this behaviour */
    ENGINE_UNLIKE_RANKS = 26,  /* join: the sheets give one event different ranks */
    ENGINE_SHORT_JOIN = 27,    /* join: the buffer is too short for the joined sheet */
    ENGINE_STRANGE_HAND = 28,  /* mend: the hand holds an event that the new sheet does not declare */
    ENGINE_DEPENDENT = 29,     /* agree: two events of unequal rank are not independent; phones may end apart */
    ENGINE_LEAK = 30,          /* leak: a behaviour that the player sees names one that is hidden from it */
    ENGINE_OUTSIDE = 31,       /* 31 to 42 are assemble's: a byte or a token with which no text goes on to a sheet */
    ENGINE_TEXT_NUMBER = 32,   /* over 2,147,483,647; after a - that makes a constant, over 2,147,483,648 */
    ENGINE_TEXT_SCALE = 33,    /* a rank over 15, a player over 7, a cell count below 2 or over 16 */
    ENGINE_TOO_MANY = 34,      /* a ninth parameter, a 33rd event, a 65th behaviour */
    ENGINE_DECLARED_TWICE = 35, /* a name that another parameter or behaviour, or another event, has */
    ENGINE_SECOND_HANDLER = 36, /* for an event, in one behaviour */
    ENGINE_TEXT_NESTING = 37,  /* an expression that must nest 17 deep */
    ENGINE_TEXT_NAME = 38,     /* an event, or a name in a formula, that is not declared */
    ENGINE_NO_SUCH_CELL = 39,  /* [..] behind what is no row, past its end, or cell 0 where it cannot be said */
    ENGINE_SHEET_TOO_LONG = 40, /* over 8,192 bytes */
    ENGINE_BUFFER_TOO_SHORT = 41, /* for the sheet; describe: for the text */
    ENGINE_TEXT_TOO_LONG = 42, /* over 65,536 bytes; this comes before all others */
    ENGINE_MISSING_ENTRIES = 43, /* deliver: fewer were taken in, entries before this one are missing */
    ENGINE_TAKEN_BEFORE = 44   /* deliver: more were taken in, this entry was taken in before */
};

/* The refusal's word, for a log or a setter's screen; "accepted" for 0, "no refusal" for a number that is none. */
static inline const char *engine_refusal_word(uint32_t number)
{
    static const char *const words[] = {
        "accepted", "short table", "blank", "long sheet", "torn", "wrong tag", "wrong length", "crowded",
        "off the scale", "too deep", "doubled", "unknown name", "circle", "overlong", "foreign", "no such event",
        "full hand", "spent", "no such behaviour", "settling", "no parameters", "no formula", "large number",
        "short buffer", "no player", "no right", "unlike ranks", "short join", "strange hand", "dependent", "leak",
        "outside the grammar", "number too large", "off the scale", "too many", "declared twice", "second handler",
        "too deep", "unknown name", "no such cell", "sheet too long", "buffer too short", "text too long",
        "missing entries", "taken before"
    };
    return number < sizeof words / sizeof *words ? words[number] : "no refusal";
}

/* The version of the archive that was linked: 65536 * ENGINE_VERSION + ENGINE_LAYOUT. */
uint32_t engine_version(void);

static inline uint32_t engine_version_interface(uint32_t version) { return version >> 16; }
static inline uint32_t engine_version_layout(uint32_t version) { return version & 0xFFFF; }

/* ---- sheets */

/* Compiles a sheet into the table: 0, or the refusal's number (1, 3 to 13, 20; 20 is checked after 11). Parameters:
 * eight big-endian signed values of 32 bits, ENGINE_PARAMS bytes, parameter n of the sheet standing for the n-th; bytes
 * beyond are not read. A sheet that uses none may be lent none. */
uint32_t engine_compile(const uint8_t *sheet, engine_size sheet_len, const uint8_t *params, engine_size params_len,
                        uint8_t *table, engine_size table_len);

/* Writes parameter n, 0 to 7, to its place in the 32 bytes; the others stay. For a larger n it writes nothing. */
static inline void engine_params_put(uint8_t *params, uint32_t n, int32_t value)
{
    uint32_t word = (uint32_t)value, i;
    for (i = 0; i < 4 && n < ENGINE_PARAMS / 4; i++)
        params[4 * n + i] = (uint8_t)(word >> (24 - 8 * i));
}

/* Shows why a sheet is turned down with these parameters: compile's number, as with a full table, and the list as it
 * was; but for 12 a packed answer, and the behaviours of a circle in the first bytes of the list, each depending on the
 * next and the last on the first, the list's other bytes as they were. A list that is too short for the circle is left
 * as it was; ENGINE_CIRCLE_LIST bytes are always enough. No circle of fewer behaviours exists under an event or under
 * none; it is one under none where one of these is as short. */
uint64_t engine_circle(const uint8_t *sheet, engine_size sheet_len, const uint8_t *params, engine_size params_len,
                       uint8_t *list, engine_size list_len);

/* The refusal's number, or 0; for 12 the event that the circle arises under, ENGINE_NO_EVENT for none, and how many
 * behaviours it has. */
#define ENGINE_NO_EVENT 255u
static inline uint32_t engine_circle_number(uint64_t answer) { return (uint32_t)(answer & 0xFF); }
static inline uint32_t engine_circle_event(uint64_t answer) { return (uint32_t)(answer >> 8 & 0xFF); }
static inline uint32_t engine_circle_length(uint64_t answer) { return (uint32_t)(answer >> 16); }

/* Whether two phones may end apart: compile's number, as with a full table; 0 where every two events of unequal rank
 * are independent, so that phones that take in the same events in the same order have equal boards when both are idle
 * and have taken in equally many; else 29 with two events of unequal rank and a behaviour that one writes and the other
 * reads or writes: the least first event, then the least second, then the least behaviour. 29 warns that the boards may
 * differ, and does not state that they do. 0 promises nothing of the marks ENGINE_OVER and of the order of commits, and
 * with ENGINE_HAND in hand one phone may refuse what the other takes in. */
uint64_t engine_agree(const uint8_t *sheet, engine_size sheet_len, const uint8_t *params, engine_size params_len);

static inline uint32_t engine_agree_number(uint64_t answer) { return (uint32_t)(answer & 0xFF); }
static inline uint32_t engine_agree_first(uint64_t answer) { return (uint32_t)(answer >> 8 & 0xFF); }
static inline uint32_t engine_agree_second(uint64_t answer) { return (uint32_t)(answer >> 16 & 0xFF); }
static inline uint32_t engine_agree_behaviour(uint64_t answer) { return (uint32_t)(answer >> 24 & 0xFF); }

/* Whether two phones that take in the same events in the same order always end with the same value of one behaviour,
 * whatever the rest of their boards does: compile's number, as with a full table; 18; 0 where no two events of unequal
 * rank meet in what the behaviour depends on, so that they do; else 29 with two that meet and the behaviour at which
 * they do, the least first event, then the least second, then the least behaviour: engine_agree_number and the like
 * take it apart. docs/SHEETS.md says where two events meet. With changes of sheets nothing is said of one behaviour. */
uint64_t engine_agree_for(const uint8_t *sheet, engine_size sheet_len, const uint8_t *params, engine_size params_len,
                          uint32_t behaviour);

/* What two events share: compile's number, as with a full table; 15 where either is not declared; 0 where they are
 * independent, whatever their ranks; else 2^32, a behaviour and flags: the least at which they meet, else the least
 * that one writes and the other reads or writes. */
uint64_t engine_pair(const uint8_t *sheet, engine_size sheet_len, const uint8_t *params, engine_size params_len,
                     uint32_t first, uint32_t second);

#define ENGINE_PAIR_FIRST_WRITES 1u
#define ENGINE_PAIR_SECOND_WRITES 2u
#define ENGINE_PAIR_FIRST_READS 4u
#define ENGINE_PAIR_SECOND_READS 8u
#define ENGINE_PAIR_BOTH_ADD 16u
#define ENGINE_PAIR_MEET 32u
static inline uint32_t engine_pair_number(uint64_t answer) { return answer >> 32 ? 0 : (uint32_t)answer; }
static inline int engine_pair_dependent(uint64_t answer) { return answer >> 32 != 0; }
static inline uint32_t engine_pair_behaviour(uint64_t answer) { return (uint32_t)(answer & 0xFF); }
static inline uint32_t engine_pair_flags(uint64_t answer) { return (uint32_t)(answer >> 8 & 0xFF); }

/* Whether what a player sees may depend on what is hidden from it: compile's number, as with a full table; 24; 0 where
 * no behaviour that the player sees depends on a hidden one, so that its answers are the same whatever the start values
 * of hidden behaviours are; else 30 with the least that it sees and that names a hidden one, and the least hidden one
 * that this names. 30 warns, and does not state that something can be learned. 0 is about start values alone: a step's
 * answer tells which event was committed and who sent it. */
uint64_t engine_leak(const uint8_t *sheet, engine_size sheet_len, const uint8_t *params, engine_size params_len,
                     uint32_t player);

static inline uint32_t engine_leak_number(uint64_t answer) { return (uint32_t)(answer & 0xFF); }
static inline uint32_t engine_leak_seen(uint64_t answer) { return (uint32_t)(answer >> 8 & 0xFF); }
static inline uint32_t engine_leak_hidden(uint64_t answer) { return (uint32_t)(answer >> 16 & 0xFF); }

/* A formula, as text of at most 1,024 bytes, becomes one expression field (01's 10, 11 or 12) at the start of the
 * buffer, whose other bytes stay: 2^32 and the field's length; or 21, then 22, then 9 where the expression nests over
 * 16 deep, last 23, and the buffer is as it was. The text is not kept. docs/BYTES.md has the grammar. */
uint64_t engine_formula(const uint8_t *text, engine_size text_len, uint8_t *buffer, engine_size buffer_len);

static inline int engine_formula_refused(uint64_t answer) { return answer >> 32 == 0; }
static inline uint32_t engine_formula_refusal(uint64_t answer) { return answer >> 32 ? 0 : (uint32_t)answer; }
static inline uint32_t engine_formula_length(uint64_t answer) { return (uint32_t)answer; }

/* A sheet as its setter writes it, text of at most ENGINE_SHEET_TEXT bytes, becomes the sheet's bytes at the start of
 * the buffer, whose other bytes stay: 2^32 and their number. Or the first fault, packed: its kind, 31 to 42, its line
 * and its column, both from 1, and the buffer is as it was. ENGINE_SHEET bytes are always enough. compile takes what is
 * written, but for 12, 13 and 20. docs/SHEETS.md has the format. That a text without a meaning is turned down is
 * proved, kind and place of 40, 41 and 42 too; those of the others are the reader's definition, with worked texts. */
uint64_t engine_assemble(const uint8_t *text, engine_size text_len, uint8_t *buffer, engine_size buffer_len);

/* The length; or the fault's kind, 0 for none, its line and its column in bytes. */
static inline int engine_assemble_refused(uint64_t answer) { return answer >> 56 != 0; }
static inline uint32_t engine_assemble_length(uint64_t answer) { return (uint32_t)answer; }
static inline uint32_t engine_assemble_kind(uint64_t answer) { return (uint32_t)(answer >> 56); }
static inline uint32_t engine_assemble_line(uint64_t answer) { return (uint32_t)(answer >> 28 & 0xFFFFFFF); }
static inline uint32_t engine_assemble_column(uint64_t answer) { return (uint32_t)(answer & 0xFFFFFFF); }

/* An accepted sheet becomes a text at the start of the buffer, whose other bytes stay, which assemble turns into the
 * very bytes again: 2^32 and its length; or compile's number, as with a full table and 32 bytes of parameters, then 41,
 * and the buffer is as it was. ENGINE_SHEET_TEXT bytes are always enough. */
uint64_t engine_describe(const uint8_t *sheet, engine_size sheet_len, uint8_t *buffer, engine_size buffer_len);

static inline int engine_describe_refused(uint64_t answer) { return answer >> 32 == 0; }
static inline uint32_t engine_describe_refusal(uint64_t answer) { return answer >> 32 ? 0 : (uint32_t)answer; }
static inline uint32_t engine_describe_length(uint64_t answer) { return (uint32_t)answer; }

/* Writes one sheet from two accepted ones to the start of the buffer, the buffer's other bytes as they were: 2^32 and
 * its length, or compile's number of the first sheet, then of the second, both as with a full table, 26, 3, 7, 13 (of
 * the joined sheet, in this order), 27. Events are shared by number, behaviours of the second follow those of the
 * first. Parameters are lent as to compile; lend the same to compile for the joined sheet. */
uint64_t engine_join(const uint8_t *first, engine_size first_len, const uint8_t *second, engine_size second_len,
                     const uint8_t *params, engine_size params_len, uint8_t *buffer, engine_size buffer_len);

static inline int engine_join_refused(uint64_t answer) { return answer >> 32 == 0; }
static inline uint32_t engine_join_refusal(uint64_t answer) { return answer >> 32 ? 0 : (uint32_t)answer; }
static inline uint32_t engine_join_length(uint64_t answer) { return (uint32_t)answer; }

/* What a table has: 2^32 and the count of its events, of its behaviours, or 14; 2^32 and an event's rank, or 14, then
 * 15. */
uint64_t engine_event_count(const uint8_t *table, engine_size table_len);
uint64_t engine_behaviour_count(const uint8_t *table, engine_size table_len);
uint64_t engine_event_rank(const uint8_t *table, engine_size table_len, uint32_t event);

/* Of these three. */
static inline int engine_count_refused(uint64_t answer) { return answer >> 32 == 0; }
static inline uint32_t engine_count_refusal(uint64_t answer) { return answer >> 32 ? 0 : (uint32_t)answer; }
static inline uint32_t engine_count_value(uint64_t answer) { return (uint32_t)answer; }

/* Whether two tables are the same program: a table's bytes depend on sheet and parameters alone. Phones that play one
 * round compare a sum of theirs first. */
static inline int engine_same_table(const uint8_t *one, const uint8_t *other)
{
    size_t i;
    for (i = 0; i < ENGINE_TABLE; i++)
        if (one[i] != other[i])
            return 0;
    return 1;
}

/* ---- rounds */

/* Makes the round fresh for the table's sheet; its old bytes are not read. 0, or 14. */
uint32_t engine_start(const uint8_t *table, engine_size table_len, uint8_t *round, engine_size round_len);

/* An event arrives, sent by a player. 0 where it is taken in, or 14, 24, 15, 25, 16, 17. */
uint32_t engine_arrive(const uint8_t *table, engine_size table_len, uint8_t *round, engine_size round_len,
                       uint32_t event, uint32_t player);

/* One step, at most one instruction. The answer is packed, and the host's: */
uint64_t engine_step(const uint8_t *table, engine_size table_len, uint8_t *round, engine_size round_len);

enum engine_step_answer {
    ENGINE_IDLE = 0,        /* nothing in hand */
    ENGINE_RAN = 1,         /* one instruction */
    ENGINE_STARTED = 2,     /* the next starts */
    ENGINE_COMMITTED = 3,   /* one instruction, the last: the event is committed */
    ENGINE_BROKE_IN = 4,    /* the next starts, and the running one goes back to the hand */
    ENGINE_STEP_REFUSED = 14 /* the step was refused, by ENGINE_FOREIGN */
};

/* With a commit: in the event's meaning some application ran over. Its exact whole-number result was not the 32-bit
 * one, or it divided by zero. Every passive counts in every event's meaning, so that two phones may differ in this
 * mark, also where agree is 0: decide by the board when idle. */
#define ENGINE_OVER (UINT64_C(1) << 56)

/* Which of these; for 2, 3 and 4 the player who sent the event, its number and the arrival's; for 3 whether it ran
 * over. */
static inline uint32_t engine_step_kind(uint64_t answer) { return (uint32_t)(answer & 0xF); }
static inline int engine_step_refused(uint64_t answer) { return engine_step_kind(answer) == ENGINE_STEP_REFUSED; }
static inline uint32_t engine_step_player(uint64_t answer) { return (uint32_t)(answer >> 4 & 0xF); }
static inline uint32_t engine_step_event(uint64_t answer) { return (uint32_t)(answer >> 8 & 0xFF); }
static inline uint32_t engine_step_arrival(uint64_t answer) { return (uint32_t)(answer >> 16 & 0xFFFFFFFF); }
static inline int engine_step_over(uint64_t answer) { return (answer & ENGINE_OVER) != 0; }

/* A frame: at most so many steps, one after the other. The answers of steps that commit are written to the start of the
 * buffer, eight bytes each, big-endian, as many as there is room for: engine_answer_get reads them. It tells
 * ENGINE_FRAME_IDLE wherever nothing is left in hand, also after the last of the steps and where the buffer is full;
 * with no step asked for ENGINE_FRAME_MADE, whatever the round is; with no room ENGINE_FRAME_FULL, also where the next
 * step would be refused. */
uint64_t engine_frame(const uint8_t *table, engine_size table_len, uint8_t *round, engine_size round_len,
                      uint32_t steps, uint8_t *commits, engine_size commits_len);

enum engine_frame_answer {
    ENGINE_FRAME_MADE = 0,    /* all steps were made, and something is still in hand */
    ENGINE_FRAME_IDLE = 1,    /* nothing is left in hand */
    ENGINE_FRAME_REFUSED = 2, /* a step was refused, by ENGINE_FOREIGN */
    ENGINE_FRAME_FULL = 3     /* the buffer has no room for a further commit: call again */
};

/* How many steps were made, how many commits were written, and why it ended. */
static inline uint32_t engine_frame_steps(uint64_t answer) { return (uint32_t)answer; }
static inline uint32_t engine_frame_commits(uint64_t answer) { return (uint32_t)(answer >> 32 & 0xFFFFFF); }
static inline uint32_t engine_frame_end(uint64_t answer) { return (uint32_t)(answer >> 56); }

/* Entry `number` of an order that several phones share, counted from 0: this event of this player is taken in once, and
 * in its place. Refused by 14; by 43 where fewer than `number` were taken in; by 44 where more were; then by 24, 15,
 * 25, 17; and then nothing is changed. It is never refused by 16: where 64 are in hand it makes steps until one
 * commits, writes that answer to the buffer as engine_frame does, eight bytes, and then takes the event in. */
uint64_t engine_deliver(const uint8_t *table, engine_size table_len, uint8_t *round, engine_size round_len,
                        uint32_t number, uint32_t event, uint32_t player, uint8_t *commits, engine_size commits_len);

enum engine_deliver_answer {
    ENGINE_DELIVER_REFUSED = 0, /* by engine_deliver_refusal */
    ENGINE_DELIVERED = 1,       /* taken in */
    ENGINE_DELIVER_FULL = 2,    /* 64 in hand and under eight bytes lent: no step made, nothing taken in */
    ENGINE_DELIVER_BROKEN = 3   /* a step on the way was refused, by ENGINE_FOREIGN: table or round were damaged */
};

/* Which of these; the refusal's number, or 0; how many steps were made, and how many commits were written, at most
 * one. */
static inline uint32_t engine_deliver_end(uint64_t answer) { return (uint32_t)(answer >> 56); }
static inline uint32_t engine_deliver_refusal(uint64_t answer) { return answer >> 56 ? 0 : (uint32_t)answer; }
static inline uint32_t engine_deliver_steps(uint64_t answer) { return answer >> 56 ? (uint32_t)answer : 0; }
static inline uint32_t engine_deliver_commits(uint64_t answer) { return (uint32_t)(answer >> 32 & 0xFFFFFF); }

/* How many were taken in, and how many of them are in hand: so many less are committed. Packed, or 14. */
uint64_t engine_taken(const uint8_t *table, engine_size table_len, const uint8_t *round, engine_size round_len);

static inline int engine_taken_refused(uint64_t answer) { return answer >> 32 == 0; }
static inline uint32_t engine_taken_refusal(uint64_t answer) { return answer >> 32 ? 0 : (uint32_t)answer; }
static inline uint32_t engine_taken_number(uint64_t answer) { return (uint32_t)answer; }
static inline uint32_t engine_taken_in_hand(uint64_t answer) { return (uint32_t)(answer >> 40); }

/* A step's answer as the other players are told it: without ENGINE_OVER. A number that no step answers comes back as
 * its lowest 56 bits. */
uint64_t engine_told(uint64_t answer);

/* The value of a behaviour on the board, for a player: 2^32 and the 32-bit word, or 14, 24, 18, 25, 19. */
uint64_t engine_board(const uint8_t *table, engine_size table_len, const uint8_t *round, engine_size round_len,
                      uint32_t behaviour, uint32_t player);

/* Of board and preview. The word is a two's complement number. */
static inline int engine_board_refused(uint64_t answer) { return answer >> 32 == 0; }
static inline uint32_t engine_board_refusal(uint64_t answer) { return answer >> 32 ? 0 : (uint32_t)answer; }
static inline int32_t engine_board_value(uint64_t answer)
{
    uint32_t word = (uint32_t)answer;
    return word <= INT32_MAX ? (int32_t)word : -(int32_t)~word - 1;
}

/* How many steps until idle if no arrival is taken in meanwhile: 2^32 and the number, or 14. With nothing running it
 * is exact: the sum, over the hand, of each event's instructions plus one for its start. While an event runs it is a
 * bound: (k + 1) * (L + 1), k being the number in hand, L the longest event's instructions. */
uint64_t engine_forecast(const uint8_t *table, engine_size table_len, const uint8_t *round, engine_size round_len);

static inline int engine_forecast_refused(uint64_t answer) { return answer >> 32 == 0; }
static inline uint32_t engine_forecast_refusal(uint64_t answer) { return answer >> 32 ? 0 : (uint32_t)answer; }
static inline uint32_t engine_forecast_steps(uint64_t answer) { return (uint32_t)answer; }

/* The value that a behaviour would show after this event's arrival and everything in hand had been run to idle:
 * answered as by board. It is tried on a copy; the round stays. Refused as the arrival of this player would be, 14, 24,
 * 15, 25, 16, 17, then by 18, then by 25 for the behaviour; last by 14 where a step on the copy is or 01's count of
 * steps runs out. During copy-back it works. */
uint64_t engine_preview(const uint8_t *table, engine_size table_len, const uint8_t *round, engine_size round_len,
                        uint32_t event, uint32_t behaviour, uint32_t player);

/* The round goes on under a newly compiled table: 0, or 14, 19 during copy-back, then 28 where the hand holds an event
 * that the new table does not declare. The hand with its players, arrival numbers and the number taken in stay; the
 * running event goes back to the hand. Behaviours that are active in both sheets keep their value, by number and not by
 * name, other actives take the new start, passives are worked out anew. From then on lend the new table; the old one is
 * not kept. A refused change leaves the round to its old table. */
uint32_t engine_mend(const uint8_t *old_table, engine_size old_table_len, const uint8_t *table, engine_size table_len,
                     uint8_t *round, engine_size round_len);

/* ---- records */

/* Makes recorded calls one after the other, to audit a round: six bytes for each call, its kind (0 arrival, 1 step, any
 * other a board reading), a big-endian number of 32 bits and the player; eight bytes for each answer, big-endian. How
 * many were made: it stops where a call is not whole or an answer has no room. */
engine_size engine_replay(const uint8_t *table, engine_size table_len, uint8_t *round, engine_size round_len,
                          const uint8_t *calls, engine_size calls_len, uint8_t *answers, engine_size answers_len);

#define ENGINE_CALL 6u    /* bytes of a recorded call */
#define ENGINE_ANSWER 8u  /* bytes of an answer */

enum engine_call_kind { ENGINE_CALL_ARRIVE = 0, ENGINE_CALL_STEP = 1, ENGINE_CALL_BOARD = 2 };

/* Writes call k of a record: the number is the event's or the behaviour's, 0 for a step. A player or a kind above 255,
 * for which there is no byte, is written as 255, so that replay refuses the player as the call itself does. */
static inline void engine_call_put(uint8_t *calls, size_t k, uint32_t kind, uint32_t number, uint32_t player)
{
    uint8_t *at = calls + k * ENGINE_CALL;
    at[0] = (uint8_t)(kind < 255 ? kind : 255);
    at[1] = (uint8_t)(number >> 24);
    at[2] = (uint8_t)(number >> 16);
    at[3] = (uint8_t)(number >> 8);
    at[4] = (uint8_t)number;
    at[5] = (uint8_t)(player < 255 ? player : 255);
}

/* Answer k of a list of answers. */
static inline uint64_t engine_answer_get(const uint8_t *answers, size_t k)
{
    const uint8_t *at = answers + k * ENGINE_ANSWER;
    uint64_t answer = 0;
    size_t i;
    for (i = 0; i < ENGINE_ANSWER; i++)
        answer = answer << 8 | at[i];
    return answer;
}

/* ---- answers as structs */

/* Each call whose packed answer may be a refusal, with the answer taken apart: engine_try_board for engine_board, and
 * so on. `refusal` is the refusal's number, and then the value is 0; or it is 0. So a refusal is never read as a value,
 * and one call's answer is not taken apart as another's. */

struct engine_value { uint32_t refusal; int32_t value; };      /* of board and preview */
struct engine_number { uint32_t refusal; uint32_t number; };   /* a count, a rank, a number of steps, a length */
struct engine_assembled { uint32_t refusal, line, column, length; }; /* with a refusal the fault's place, else 0 */
struct engine_shared { uint32_t refusal; int dependent; uint32_t behaviour, flags; };
struct engine_stepped { uint32_t refusal, kind, player, event, arrival; int over; };
struct engine_framed { uint32_t refusal, end, steps, commits; }; /* with a refusal the steps before it were made */
struct engine_delivered { uint32_t refusal, end, steps, commits; };
struct engine_counted { uint32_t refusal, number, in_hand; };

static inline struct engine_number engine_number_of(uint64_t answer)
{
    struct engine_number n;
    n.refusal = answer >> 32 ? 0 : (uint32_t)answer;
    n.number = answer >> 32 ? (uint32_t)answer : 0;
    return n;
}

static inline struct engine_value engine_value_of(uint64_t answer)
{
    struct engine_value v;
    v.refusal = engine_board_refusal(answer);
    v.value = engine_board_refused(answer) ? 0 : engine_board_value(answer);
    return v;
}

/* A step's answer, also one of a frame's commits. */
static inline struct engine_stepped engine_stepped_of(uint64_t answer)
{
    struct engine_stepped s;
    s.kind = engine_step_kind(answer);
    s.refusal = engine_step_refused(answer) ? (uint32_t)ENGINE_FOREIGN : 0;
    s.player = engine_step_player(answer);
    s.event = engine_step_event(answer);
    s.arrival = engine_step_arrival(answer);
    s.over = engine_step_over(answer);
    return s;
}

static inline struct engine_value engine_try_board(const uint8_t *table, engine_size table_len, const uint8_t *round,
                                                   engine_size round_len, uint32_t behaviour, uint32_t player)
{
    return engine_value_of(engine_board(table, table_len, round, round_len, behaviour, player));
}

static inline struct engine_value engine_try_preview(const uint8_t *table, engine_size table_len, const uint8_t *round,
                                                     engine_size round_len, uint32_t event, uint32_t behaviour,
                                                     uint32_t player)
{
    return engine_value_of(engine_preview(table, table_len, round, round_len, event, behaviour, player));
}

static inline struct engine_number engine_try_forecast(const uint8_t *table, engine_size table_len,
                                                       const uint8_t *round, engine_size round_len)
{
    return engine_number_of(engine_forecast(table, table_len, round, round_len));
}

static inline struct engine_number engine_try_event_count(const uint8_t *table, engine_size table_len)
{
    return engine_number_of(engine_event_count(table, table_len));
}

static inline struct engine_number engine_try_behaviour_count(const uint8_t *table, engine_size table_len)
{
    return engine_number_of(engine_behaviour_count(table, table_len));
}

static inline struct engine_number engine_try_event_rank(const uint8_t *table, engine_size table_len, uint32_t event)
{
    return engine_number_of(engine_event_rank(table, table_len, event));
}

static inline struct engine_number engine_try_formula(const uint8_t *text, engine_size text_len, uint8_t *buffer,
                                                      engine_size buffer_len)
{
    return engine_number_of(engine_formula(text, text_len, buffer, buffer_len));
}

static inline struct engine_number engine_try_describe(const uint8_t *sheet, engine_size sheet_len, uint8_t *buffer,
                                                       engine_size buffer_len)
{
    return engine_number_of(engine_describe(sheet, sheet_len, buffer, buffer_len));
}

static inline struct engine_number engine_try_join(const uint8_t *first, engine_size first_len, const uint8_t *second,
                                                   engine_size second_len, const uint8_t *params,
                                                   engine_size params_len, uint8_t *buffer, engine_size buffer_len)
{
    return engine_number_of(engine_join(first, first_len, second, second_len, params, params_len, buffer, buffer_len));
}

static inline struct engine_assembled engine_try_assemble(const uint8_t *text, engine_size text_len, uint8_t *buffer,
                                                          engine_size buffer_len)
{
    uint64_t answer = engine_assemble(text, text_len, buffer, buffer_len);
    int refused = engine_assemble_refused(answer);
    struct engine_assembled a;
    a.refusal = engine_assemble_kind(answer);
    a.line = refused ? engine_assemble_line(answer) : 0;
    a.column = refused ? engine_assemble_column(answer) : 0;
    a.length = refused ? 0 : engine_assemble_length(answer);
    return a;
}

static inline struct engine_shared engine_try_pair(const uint8_t *sheet, engine_size sheet_len, const uint8_t *params,
                                                   engine_size params_len, uint32_t first, uint32_t second)
{
    uint64_t answer = engine_pair(sheet, sheet_len, params, params_len, first, second);
    struct engine_shared s;
    s.refusal = engine_pair_number(answer);
    s.dependent = engine_pair_dependent(answer);
    s.behaviour = s.dependent ? engine_pair_behaviour(answer) : 0;
    s.flags = s.dependent ? engine_pair_flags(answer) : 0;
    return s;
}

static inline struct engine_stepped engine_try_step(const uint8_t *table, engine_size table_len, uint8_t *round,
                                                    engine_size round_len)
{
    return engine_stepped_of(engine_step(table, table_len, round, round_len));
}

static inline struct engine_framed engine_try_frame(const uint8_t *table, engine_size table_len, uint8_t *round,
                                                    engine_size round_len, uint32_t steps, uint8_t *commits,
                                                    engine_size commits_len)
{
    uint64_t answer = engine_frame(table, table_len, round, round_len, steps, commits, commits_len);
    struct engine_framed f;
    f.end = engine_frame_end(answer);
    f.refusal = f.end == ENGINE_FRAME_REFUSED ? (uint32_t)ENGINE_FOREIGN : 0;
    f.steps = engine_frame_steps(answer);
    f.commits = engine_frame_commits(answer);
    return f;
}

/* With ENGINE_DELIVER_FULL there is no refusal, and nothing was taken in. */
static inline struct engine_delivered engine_try_deliver(const uint8_t *table, engine_size table_len, uint8_t *round,
                                                         engine_size round_len, uint32_t number, uint32_t event,
                                                         uint32_t player, uint8_t *commits, engine_size commits_len)
{
    uint64_t answer = engine_deliver(table, table_len, round, round_len, number, event, player, commits, commits_len);
    struct engine_delivered d;
    d.end = engine_deliver_end(answer);
    d.refusal = d.end == ENGINE_DELIVER_BROKEN ? (uint32_t)ENGINE_FOREIGN : engine_deliver_refusal(answer);
    d.steps = engine_deliver_steps(answer);
    d.commits = engine_deliver_commits(answer);
    return d;
}

static inline struct engine_counted engine_try_taken(const uint8_t *table, engine_size table_len, const uint8_t *round,
                                                     engine_size round_len)
{
    uint64_t answer = engine_taken(table, table_len, round, round_len);
    int refused = engine_taken_refused(answer);
    struct engine_counted c;
    c.refusal = engine_taken_refusal(answer);
    c.number = refused ? 0 : engine_taken_number(answer);
    c.in_hand = refused ? 0 : engine_taken_in_hand(answer);
    return c;
}

#ifdef __cplusplus
}
#endif

#endif
