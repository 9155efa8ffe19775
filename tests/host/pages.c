/* The examples of docs/HOST.md and docs/host/C.md, cut out of the pages by tests/host/run, each with events 0 and 1 of
 * sheet S in hand. Standard input: the desk program's example, which begins with S. */
#include <stdio.h>
#include <string.h>

#include "engine.h"

static uint8_t table[ENGINE_TABLE];
static int faults, examples;

/* What the examples leave to the host. */
uint32_t event = 0, behaviour = 0, player = 1, number = 2;
static uint8_t sheet[74];
static int64_t shown;
static uint8_t commits[ENGINE_ANSWER];

void show(int64_t value)
{
    shown = value;
}

/* After the example whose first call it is: the board, whether the round is idle, what was shown. Event 1 outranks
 * event 0. */
static const struct {
    const char *call;
    int32_t b0, b1;
    int idle;
    int64_t shown;
} want[] = {
    {"deliver", 1, 1, 0, 0}, {"version", 1, 1, 0, 0}, {"params_put", 1, 1, 0, 0}, {"arrive", 3, 2, 1, 0},
    {"try_board", 1, 1, 0, 1},
};
#define EXAMPLES (int)(sizeof want / sizeof *want)

static void before(uint8_t *round)
{
    if (engine_start(table, sizeof table, round, ENGINE_ROUND)
        || engine_arrive(table, sizeof table, round, ENGINE_ROUND, 0, ENGINE_HOST)
        || engine_arrive(table, sizeof table, round, ENGINE_ROUND, 1, ENGINE_HOST))
        faults++;
    shown = 0;
}

static void after(uint8_t *round, const char *call)
{
    int32_t b0 = engine_board_value(engine_board(table, sizeof table, round, ENGINE_ROUND, 0, ENGINE_HOST));
    int32_t b1 = engine_board_value(engine_board(table, sizeof table, round, ENGINE_ROUND, 1, ENGINE_HOST));
    int idle = engine_step_kind(engine_step(table, sizeof table, round, ENGINE_ROUND)) == ENGINE_IDLE;
    int i;

    examples++;
    if (strcmp(call, "deliver") == 0 && number != 3)
        faults++;
    for (i = 0; i < EXAMPLES; i++)
        if (strcmp(want[i].call, call) == 0 && b0 == want[i].b0 && b1 == want[i].b1 && idle == want[i].idle
            && shown == want[i].shown)
            return;
    printf("the example of %s: board %d %d, idle %d, shown %d\n", call, (int)b0, (int)b1, idle,
           (int)shown);
    faults++;
}

int main(void)
{
    static uint8_t round[ENGINE_ROUND];
    uint8_t in[3 + 74];

    if (fread(in, 1, sizeof in, stdin) != sizeof in
        || engine_compile(in + 3, sizeof in - 3, NULL, 0, table, sizeof table) != 0) {
        puts("no sheet S");
        return 1;
    }
    memcpy(sheet, in + 3, sizeof sheet);
#include "pages.inc"
    printf("pages: %d examples of docs/HOST.md and docs/host/C.md\n", examples);
    return faults != 0 || examples != EXAMPLES;
}
