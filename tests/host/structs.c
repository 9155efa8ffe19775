/* The header's structs and parameters: each engine_try_.. gives what the functions take out of the packed answer, and
 * of a refusal its number and nothing else, so that no refusal is read as a value. */
#include <stdio.h>
#include <string.h>

#include "engine.h"

static uint8_t sheet[ENGINE_SHEET], table[ENGINE_TABLE], round[ENGINE_ROUND];
static uint8_t buffer[ENGINE_SHEET_TEXT], commits[ENGINE_ANSWER * ENGINE_HAND], params[ENGINE_PARAMS];
static int faults, checks;

static void check(int holds, const char *what)
{
    checks++;
    if (!holds) {
        printf("structs: %s\n", what);
        faults++;
    }
}

#define LENT(b) b, sizeof b
#define SHORT round, 7 /* no round has so few bytes */
#define TEXT(t) (const uint8_t *)t, sizeof t - 1

static void check_numbers(size_t len)
{
    struct engine_number n;

    n = engine_try_event_count(LENT(table));
    check(n.refusal == 0 && n.number == 2, "event_count");
    n = engine_try_event_count(SHORT);
    check(n.refusal == ENGINE_FOREIGN && n.number == 0, "event_count refused");
    check(engine_try_behaviour_count(LENT(table)).number == 2, "behaviour_count");
    n = engine_try_event_rank(LENT(table), 1);
    check(n.refusal == 0 && n.number == 2, "event_rank");
    n = engine_try_event_rank(LENT(table), 2);
    check(n.refusal == ENGINE_NO_SUCH_EVENT && n.number == 0, "event_rank refused");
    n = engine_try_forecast(LENT(table), SHORT);
    check(n.refusal == ENGINE_FOREIGN && n.number == 0, "forecast refused");
    n = engine_try_formula(TEXT("b0 +"), LENT(buffer));
    check(n.refusal == ENGINE_NO_FORMULA && n.number == 0, "formula refused");
    check(engine_try_formula(TEXT("b0"), LENT(buffer)).number == 4, "formula");
    n = engine_try_describe(sheet, len, buffer, 3);
    check(n.refusal == ENGINE_BUFFER_TOO_SHORT && n.number == 0, "describe refused");
    n = engine_try_join(sheet, len, sheet, len, LENT(params), buffer, 3);
    check(n.refusal == ENGINE_SHORT_JOIN && n.number == 0, "join refused");
    n = engine_try_join(sheet, len, sheet, len, LENT(params), LENT(buffer));
    check(n.refusal == 0 && n.number == engine_join_length(engine_join(sheet, len, sheet, len, LENT(params),
                                                                        LENT(buffer))), "join");
}

static void check_sheets(size_t len)
{
    struct engine_assembled a = engine_try_assemble(TEXT("event e rank 1\nactive b = c\n"), LENT(buffer));
    struct engine_shared s = engine_try_pair(sheet, len, LENT(params), 0, 7);

    check(a.refusal == ENGINE_OUTSIDE && a.line == 2 && a.column == 12 && a.length == 0, "assemble refused");
    check(s.refusal == ENGINE_NO_SUCH_EVENT && !s.dependent && s.behaviour == 0 && s.flags == 0, "pair refused");
    s = engine_try_pair(sheet, len, LENT(params), 0, 1);
    check(s.refusal == 0 && s.dependent && s.behaviour == 0 && (s.flags & ENGINE_PAIR_MEET), "pair");
}

static void check_round(void)
{
    struct engine_delivered d = engine_try_deliver(LENT(table), LENT(round), 0, 0, 1, LENT(commits));
    struct engine_framed f;
    struct engine_stepped s;
    struct engine_counted c;
    struct engine_value v;

    check(d.end == ENGINE_DELIVERED && d.refusal == 0 && d.steps == 0 && d.commits == 0, "deliver");
    d = engine_try_deliver(LENT(table), LENT(round), 5, 0, 1, LENT(commits));
    check(d.end == ENGINE_DELIVER_REFUSED && d.refusal == ENGINE_MISSING_ENTRIES && d.steps == 0, "deliver refused");
    c = engine_try_taken(LENT(table), LENT(round));
    check(c.refusal == 0 && c.number == 1 && c.in_hand == 1, "taken");
    c = engine_try_taken(LENT(table), SHORT);
    check(c.refusal == ENGINE_FOREIGN && c.number == 0 && c.in_hand == 0, "taken refused");
    v = engine_try_preview(LENT(table), LENT(round), 0, 0, 1);
    check(v.refusal == 0 && v.value == -6, "preview");
    s = engine_try_step(LENT(table), LENT(round));
    check(s.refusal == 0 && s.kind == ENGINE_STARTED && s.event == 0 && s.player == 1 && s.arrival == 0, "step");
    check(engine_try_step(LENT(table), SHORT).refusal == ENGINE_FOREIGN, "step refused");
    f = engine_try_frame(LENT(table), LENT(round), 1000, LENT(commits));
    check(f.refusal == 0 && f.end == ENGINE_FRAME_IDLE && f.commits == 1 && f.steps > 1, "frame");
    check(engine_stepped_of(engine_answer_get(commits, 0)).kind == ENGINE_COMMITTED, "the frame's commit");
    f = engine_try_frame(LENT(table), SHORT, 1, LENT(commits));
    check(f.refusal == ENGINE_FOREIGN && f.end == ENGINE_FRAME_REFUSED && f.steps == 0, "frame refused");
    v = engine_try_board(LENT(table), LENT(round), 0, 1);
    check(v.refusal == 0 && v.value == -3, "board");
    v = engine_try_board(LENT(table), LENT(round), 9, 1);
    check(v.refusal == ENGINE_NO_SUCH_BEHAVIOUR && v.value == 0, "board refused: no refusal is a value");
}

int main(void)
{
    static const char text[] = "param p event e rank 1 event f rank 2\n"
                               "active b = 0 on e: b + p on f: 7 active c = 0 on f: b";
    struct engine_assembled a = engine_try_assemble(TEXT(text), LENT(sheet));
    static const uint8_t bytes[8] = {0xFF, 0xFF, 0xFF, 0xFD, 0, 0, 0, 7};

    memset(params, 0, sizeof params);
    engine_params_put(params, 0, -3);
    engine_params_put(params, 1, 7);
    engine_params_put(params, 8, 1);
    check(memcmp(params, bytes, sizeof bytes) == 0 && params[31] == 0, "parameters");
    check(a.refusal == 0 && a.line == 0 && a.length > 0, "assemble");
    check(engine_compile(sheet, a.length, LENT(params), LENT(table)) == 0, "compile");
    check(engine_start(LENT(table), LENT(round)) == 0, "start");
    check_numbers(a.length);
    check_sheets(a.length);
    check_round();
    printf("structs: %d checks of the header's answers as structs\n", checks);
    return faults != 0;
}
