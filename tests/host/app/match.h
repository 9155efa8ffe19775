/* A match: a round of the engine with all that an app keeps beside it. It is played in frames, saved to a file, gone on
 * with, and audited: what was asked of the engine is asked again, from the sheets on, and must come to the same. */
#ifndef MATCH_H
#define MATCH_H

#include "engine.h"
#include "sheet.h"

/* Bytes that grow. */
struct log {
    uint8_t *bytes;
    size_t len, room;
};

/* A sheet that the match was played with. */
struct played {
    struct sheet sheet;
    uint8_t params[ENGINE_PARAMS];
};

struct match {
    uint8_t table[ENGINE_TABLE], round[ENGINE_ROUND];
    struct played *sheets; /* the first, and those that it was or was not changed to */
    size_t count, in_force;
    struct log asked;      /* each call with its answer, as the league's audit reads them */
};

/* Numbers below 64 are the engine's refusals. */
enum {
    MATCH_NO_MEMORY = 64,
    MATCH_FILE = 65,
    MATCH_OTHER_VERSION = 66,
    MATCH_DIFFERS = 67,
    MATCH_SHEETS = 68,
    MATCH_OTHER_PROGRAM = 69
};

/* What a phone sends before a round: its engine's version and its table. */
#define MATCH_GREETING (4u + ENGINE_TABLE)

/* A board as a player sees it. */
struct shown {
    uint32_t count;
    int hidden[ENGINE_BEHAVIOURS];
    int32_t values[ENGINE_BEHAVIOURS];
};

const char *match_word(uint32_t number);

/* Each answers 0, or why not: then the round is as it was. What was opened or loaded, also in vain, is to be closed. */
uint32_t match_open(struct match *m, const struct sheet *sheet, const uint8_t params[ENGINE_PARAMS]);
void match_close(struct match *m);
uint32_t match_read(struct match *m, uint32_t behaviour, uint32_t player, int32_t *value);

/* The greeting that this phone sends; and whether the one that came from another phone is of the same program. */
void match_greet(const struct match *m, uint8_t greeting[MATCH_GREETING]);
uint32_t match_meets(const struct match *m, const uint8_t greeting[MATCH_GREETING]);

/* Entry `number` of the order that all phones share: what they take in is then the same, however fast they are. With a
 * full hand it makes steps up to the next commit, and calls commit(app, answer) for that. */
uint32_t match_deliver(struct match *m, uint32_t number, uint32_t event, uint32_t player,
                       void (*commit)(void *app, uint64_t answer), void *app);

/* One frame: at most so many steps. Calls commit(app, answer) for each commit; idle tells whether nothing is left.
 * Where it answers why not, the steps whose commits were told are made and recorded, and no others. */
uint32_t match_frame(struct match *m, uint32_t steps, void (*commit)(void *app, uint64_t answer), void *app, int *idle);

/* At a place of the order: exactly `number` entries being taken in, the round is run to idle; commit(app, answer) for
 * each commit. Then the board is read, which is the same on every phone, or the sheet is changed. Refused by 43 and 44
 * where the place is not reached yet or passed. A change that is refused leaves the round run to idle. */
uint32_t match_board_after(struct match *m, uint32_t number, uint32_t player, struct shown *board,
                           void (*commit)(void *app, uint64_t answer), void *app);
uint32_t match_mend(struct match *m, uint32_t number, const struct sheet *sheet, const uint8_t params[ENGINE_PARAMS],
                    void (*commit)(void *app, uint64_t answer), void *app);

/* To a file of the app's own, and back: the match goes on where it was. A file that comes to something else than its
 * record says is turned down. */
uint32_t match_save(const struct match *m, const char *path);
uint32_t match_load(struct match *m, const char *path);

/* Asks all again, from a fresh round on: MATCH_DIFFERS where an answer or a byte of the round is another. */
uint32_t match_audit(const struct match *m);

/* Writes the record as a file of one round for the league's audit program, whose format bindings/rust has. */
uint32_t match_export(const struct match *m, const char *name, const char *path);

#endif
