/* The rounds of the scope and of the requests through the C boundary, each call and each getter at least once. */
#include <stdio.h>
#include <string.h>

#include "engine.h"

static uint8_t table[ENGINE_TABLE + 8];
static uint8_t round_[ENGINE_ROUND + 8];
static int faults;

/* lent to most calls */
#define TABLE table, sizeof table
#define ROUND round_, sizeof round_

static void expect(int ok, const char *what)
{
    if (!ok) {
        printf("differs: %s\n", what);
        faults++;
    }
}

/* Parameter 0 is the easy or the hard number; the others are 0. */
static const uint8_t easy[ENGINE_PARAMS] = {0, 0, 0, 1}, hard[ENGINE_PARAMS] = {0, 0, 0, 5};

static uint32_t load_with(const uint8_t *sheet, size_t n, const uint8_t *params, size_t lent)
{
    uint32_t r = engine_compile(sheet, n, params, lent, table, sizeof table);
    if (r == 0)
        expect(engine_start(TABLE, ROUND) == 0, "start");
    return r;
}

static uint32_t load(const uint8_t *sheet, size_t n)
{
    return load_with(sheet, n, easy, 0);
}

static void take(uint32_t event)
{
    expect(engine_arrive(TABLE, ROUND, event, ENGINE_HOST) == 0, "arrive");
}

static int32_t value(uint32_t i)
{
    uint64_t a = engine_board(TABLE, ROUND, i, ENGINE_HOST);
    expect(!engine_board_refused(a), "board");
    return engine_board_value(a);
}

/* One frame: at most so many steps; 1 when idle. */
static int frame(int steps)
{
    while (steps-- > 0)
        if (engine_step_kind(engine_step(TABLE, ROUND)) == ENGINE_IDLE)
            return 1;
    return 0;
}

static void play_out(void)
{
    while (!frame(5))
        ;
}

/* S of the scope, 74 bytes: b0 = init 1 {0 => b0 + b1}; b1 = init 1 {0 => b0 - b1 later, 1 => 1}. */
static const uint8_t S[] = {
    0x01, 0, 1, 1, 0x01, 0, 1, 2,
    0x03, 0, 24, 0x04, 0, 4, 0, 0, 0, 1,
        0x05, 0, 14, 0, 0, 0x12, 0, 9, 4, 0x11, 0, 1, 0, 0x11, 0, 1, 1,
    0x03, 0, 36, 0x04, 0, 4, 0, 0, 0, 1,
        0x05, 0, 14, 0, 1, 0x12, 0, 9, 5, 0x11, 0, 1, 0, 0x11, 0, 1, 1,
        0x05, 0, 9, 1, 0, 0x10, 0, 4, 0, 0, 0, 1,
};

/* Equal ranks A, B; H of higher rank breaks in elsewhere: A => b0 + 1, B => b0 * 2, b0 = 1. */
static const uint8_t equals[] = {
    0x01, 0, 1, 1, 0x01, 0, 1, 1, 0x01, 0, 1, 9,
    0x03, 0, 44, 0x04, 0, 4, 0, 0, 0, 1,
        0x05, 0, 17, 0, 0, 0x12, 0, 12, 4, 0x11, 0, 1, 0, 0x10, 0, 4, 0, 0, 0, 1,
        0x05, 0, 14, 1, 0, 0x12, 0, 9, 6, 0x11, 0, 1, 0, 0x11, 0, 1, 2,
    0x03, 0, 19, 0x04, 0, 4, 0, 0, 0, 0,
        0x05, 0, 9, 2, 0, 0x10, 0, 4, 0, 0, 0, 7,
    0x02, 0, 7, 0x10, 0, 4, 0, 0, 0, 2,
};

/* A score at the top of its range: b0 = init 2,147,483,647 {0 => b0 + 1}. */
static const uint8_t top[] = {
    0x01, 0, 1, 1,
    0x03, 0, 27, 0x04, 0, 4, 0x7F, 0xFF, 0xFF, 0xFF,
        0x05, 0, 17, 0, 0, 0x12, 0, 12, 4, 0x11, 0, 1, 0, 0x10, 0, 4, 0, 0, 0, 1,
};

/* The commit that passes the top says so, and the next, from the bottom, does not. */
static void ran_over(void)
{
    uint32_t i;

    expect(load(top, sizeof top) == 0, "a score at the top");
    for (i = 0; i < 2; i++) {
        uint64_t a;

        take(0);
        do
            a = engine_step(TABLE, ROUND);
        while (engine_step_kind(a) != ENGINE_COMMITTED);
        expect(engine_step_over(a) == (i == 0), "the first commit runs over, the second does not");
        expect(engine_step_event(a) == 0 && engine_step_arrival(a) == i, "event and arrival beside the mark");
        expect(value(0) == INT32_MIN + (int32_t)i, "and comes out negative");
    }
}

/* A recorded round, made again: event 0 arrives, 18 steps, and the board is read. */
static void audit(void)
{
    uint8_t calls[20 * 6] = {0}, answers[20 * 8];
    int i;

    load(S, sizeof S);
    for (i = 1; i < 19; i++)
        calls[i * 6] = 1;
    calls[19 * 6] = 2;
    expect(engine_replay(TABLE, ROUND, calls, sizeof calls, answers, sizeof answers) == 20, "20 calls are made");
    expect(answers[18 * 8 + 7] == ENGINE_COMMITTED, "the 18th step commits");
    expect(answers[19 * 8 + 3] == 1 && answers[19 * 8 + 7] == 2, "b0 is 2");
}

/* A call that was refused is refused in the replay: of a player that a byte does not hold, too, who is not the host. */
static void audit_of_any_player(void)
{
    static const uint32_t players[] = {0, 7, 8, 255, 256, 257, 512, 65536, 0xFFFFFF00, 0xFFFFFFFF};
    size_t i;

    for (i = 0; i < sizeof players / sizeof *players; i++) {
        uint8_t calls[2 * ENGINE_CALL], answers[2 * ENGINE_ANSWER];
        uint64_t sent, seen;

        load(S, sizeof S);
        sent = engine_arrive(TABLE, ROUND, 0, players[i]);
        seen = engine_board(TABLE, ROUND, 1, players[i]);
        engine_call_put(calls, 0, ENGINE_CALL_ARRIVE, 0, players[i]);
        engine_call_put(calls, 1, ENGINE_CALL_BOARD, 1, players[i]);
        load(S, sizeof S);
        expect(engine_replay(TABLE, ROUND, calls, sizeof calls, answers, sizeof answers) == 2, "two calls are made");
        expect(engine_answer_get(answers, 0) == sent, "an arrival of any player is replayed as it was answered");
        expect(engine_answer_get(answers, 1) == seen, "and so is a board reading");
    }
}

/* The frame planner books the forecast's steps: with nothing running, idle comes after exactly those. */
static void plan(void)
{
    uint64_t a;

    load(S, sizeof S);
    take(0);
    take(1);
    a = engine_forecast(TABLE, ROUND);
    expect(!engine_forecast_refused(a) && engine_forecast_steps(a) == 18 + 9, "27 steps to idle");
    expect(!frame((int)engine_forecast_steps(a)), "27 steps are needed");
    expect(frame(1), "and no more");
    expect(engine_forecast(table, 10, round_, sizeof round_) == ENGINE_FOREIGN, "a short table has no forecast");
}

/* Hovering over a move: the value it would lead to, the round as it was; also while a copy-back is under way, when the
 * board itself is refused. */
static void hover(void)
{
    uint8_t before[sizeof round_];
    uint64_t a;

    load(S, sizeof S);
    memcpy(before, round_, sizeof round_);
    a = engine_preview(TABLE, ROUND, 0, 0, ENGINE_HOST);
    expect(!engine_board_refused(a) && engine_board_value(a) == 2, "event 0 would make b0 2");
    expect(memcmp(before, round_, sizeof round_) == 0, "a preview leaves the round");
    take(0);
    while (engine_board(TABLE, ROUND, 0, ENGINE_HOST) != ENGINE_SETTLING)
        frame(1);
    a = engine_preview(TABLE, ROUND, 0, 0, ENGINE_HOST);
    expect(!engine_board_refused(a) && engine_board_value(a) == 3, "during copy-back, another makes it 3");
    expect(engine_preview(TABLE, ROUND, 2, 2, ENGINE_HOST) == ENGINE_NO_SUCH_EVENT, "event 2 cannot be tried");
    expect(engine_preview(TABLE, ROUND, 0, 2, ENGINE_HOST) == ENGINE_NO_SUCH_BEHAVIOUR, "behaviour 2 cannot be shown");
}

/* A sheet for two sides: event 0, which runs b0 over, is player 1's to send; b0 is for player 2 to see, b1 for
 * everybody. */
static void share(void)
{
    static const uint8_t sides[] = {
        0x01, 0, 2, 1, 0x02, 0x01, 0, 1, 1,
        0x03, 0, 31, 0x04, 0, 4, 0x7F, 0xFF, 0xFF, 0xFF,
            0x05, 0, 17, 0, 0, 0x12, 0, 12, 4, 0x11, 0, 1, 0, 0x10, 0, 4, 0, 0, 0, 1,
            0x08, 0, 1, 0x04,
        0x03, 0, 7, 0x04, 0, 4, 0, 0, 0, 9,
    };
    uint32_t p;
    uint64_t a;

    expect(load(sides, sizeof sides) == 0, "a sheet with rights");
    for (p = 0; p < ENGINE_PLAYERS; p++) {
        expect((engine_board(TABLE, ROUND, 0, p) == ENGINE_NO_RIGHT) == (p != ENGINE_HOST && p != 2), "who may see b0");
        expect(engine_board_value(engine_board(TABLE, ROUND, 1, p)) == 9, "everybody sees b1");
        expect((engine_preview(TABLE, ROUND, 0, 1, p) == ENGINE_NO_RIGHT) == (p > 1), "who may try event 0");
    }
    expect(engine_preview(TABLE, ROUND, 0, 0, 1) == ENGINE_NO_RIGHT, "a preview needs both rights");
    expect(engine_arrive(TABLE, ROUND, 0, 2) == ENGINE_NO_RIGHT, "player 2 may not send event 0");
    expect(engine_arrive(TABLE, ROUND, 0, ENGINE_PLAYERS) == ENGINE_NO_PLAYER, "nor is there a player 8");
    expect(engine_arrive(TABLE, ROUND, 0, 1) == 0, "player 1 may");
    do
        a = engine_step(TABLE, ROUND);
    while (engine_step_kind(a) != ENGINE_COMMITTED);
    expect(engine_step_player(a) == 1 && engine_step_event(a) == 0, "the commit keeps its player");
    expect(engine_step_over(a) && !engine_step_over(engine_told(a)), "only the host is told that it ran over");
    expect(engine_step_kind(engine_told(a)) == ENGINE_COMMITTED && engine_step_player(engine_told(a)) == 1,
           "and the others all else");
}

/* A wrong bonus is mended without ending the round: event 1 should make b1 5, not 1. */
static void mend_bonus(void)
{
    static uint8_t other[ENGINE_TABLE], small[ENGINE_TABLE];
    uint8_t mended[sizeof S], before[sizeof round_];

    memcpy(mended, S, sizeof S);
    mended[sizeof S - 1] = 5;
    expect(engine_compile(mended, sizeof mended, easy, 0, other, sizeof other) == 0, "the mended sheet");
    expect(engine_compile(S, 4, easy, 0, small, sizeof small) == 0, "a sheet of one event alone");
    load(S, sizeof S);
    take(0);
    play_out();
    take(1);
    take(0);
    frame(3);
    memcpy(before, round_, sizeof round_);
    expect(engine_mend(TABLE, small, sizeof small, ROUND) == ENGINE_STRANGE_HAND, "event 1 is in hand");
    expect(engine_mend(TABLE, other, 10, ROUND) == ENGINE_FOREIGN, "a short table is no table");
    expect(memcmp(before, round_, sizeof round_) == 0, "a refused change leaves the round");
    expect(engine_mend(TABLE, other, sizeof other, ROUND) == 0, "the sheet is changed");
    memcpy(table, other, sizeof other);
    expect(value(0) == 2 && value(1) == 1, "actives keep their values");
    expect(engine_forecast_steps(engine_forecast(TABLE, ROUND)) == 9 + 18, "both wait again");
    play_out();
    expect(value(0) == 7 && value(1) == 2, "the new bonus, then event 0");
    take(0);
    while (engine_board(TABLE, ROUND, 0, ENGINE_HOST) != ENGINE_SETTLING)
        frame(1);
    expect(engine_mend(TABLE, other, sizeof other, ROUND) == ENGINE_SETTLING, "not during copy-back");
}

/* Easy and hard from one sheet: b0 = init 0 {0 => b0 + parameter 0}. */
static void levels(void)
{
    static const uint8_t level[] = {
        0x01, 0, 1, 0,
        0x03, 0, 24, 0x04, 0, 4, 0, 0, 0, 0,
            0x05, 0, 14, 0, 0, 0x12, 0, 9, 4, 0x11, 0, 1, 0, 0x13, 0, 1, 0,
    };

    expect(load_with(level, sizeof level, easy, sizeof easy) == 0, "the easy round");
    take(0);
    play_out();
    expect(value(0) == 1, "b0 is 1 in the easy round");
    expect(load_with(level, sizeof level, hard, sizeof hard) == 0, "the hard round");
    take(0);
    play_out();
    expect(value(0) == 5, "b0 is 5 in the hard round");
    expect(load_with(level, sizeof level, hard, sizeof hard - 1) == ENGINE_NO_PARAMETERS, "31 bytes of parameters");
}

/* A setter's formulas: the field at the start of the buffer, or the refusal, the buffer as it was. */
static void write_formulas(void)
{
    static const uint8_t sum[] = {0x12, 0, 12, 4, 0x11, 0, 1, 0, 0x10, 0, 4, 0, 0, 0, 1};
    uint8_t sheet[3 + 64] = {0x02, 0, 15};
    uint64_t a = engine_formula((const uint8_t *)"b0 + 1", 6, sheet + 3, 64);

    expect(!engine_formula_refused(a) && engine_formula_length(a) == sizeof sum, "b0 + 1 is written");
    expect(memcmp(sheet + 3, sum, sizeof sum) == 0, "as a sum of a name and a constant");
    expect(sheet[3 + sizeof sum] == 0, "the bytes behind stay");
    a = engine_formula((const uint8_t *)"7", 1, sheet + 3, 7);
    sheet[2] = 7;
    expect(engine_formula_length(a) == 7 && load(sheet, 10) == 0 && value(0) == 7, "7, as a passive of a sheet");
    expect(engine_formula((const uint8_t *)"b0 +", 4, sheet, sizeof sheet) == ENGINE_NO_FORMULA, "b0 +");
    expect(engine_formula((const uint8_t *)"2147483648", 10, sheet, sizeof sheet) == ENGINE_LARGE_NUMBER, "2147483648");
    expect(engine_formula((const uint8_t *)"!!!!!!!!!!!!!!!!1", 17, sheet, sizeof sheet) == ENGINE_TOO_DEEP,
           "16 times !");
    expect(engine_formula((const uint8_t *)"1", 1, sheet, 6) == ENGINE_SHORT_BUFFER && sheet[0] == 0x02,
           "a buffer of six bytes");
}

/* A setter's sheet with a circle: which behaviours, and under which event. */
static void show_circle(void)
{
    /* one event; b0 = init 1 {0 => b1}; b1 = init 2 {0 => b0} */
    static const uint8_t both[] = {
        0x01, 0, 1, 1,
        0x03, 0, 16, 0x04, 0, 4, 0, 0, 0, 1, 0x05, 0, 6, 0, 0, 0x11, 0, 1, 1,
        0x03, 0, 16, 0x04, 0, 4, 0, 0, 0, 2, 0x05, 0, 6, 0, 0, 0x11, 0, 1, 0,
    };
    static const uint8_t one[] = {2, 0, 4, 0x13, 0, 1, 0};
    uint8_t level[sizeof both + sizeof one], list[ENGINE_CIRCLE_LIST] = {7, 7, 7};
    uint64_t a = engine_circle(both, sizeof both, hard, 0, list, sizeof list);

    expect(engine_circle_number(a) == ENGINE_CIRCLE && engine_circle_event(a) == 0 && engine_circle_length(a) == 2,
           "a circle of two under event 0");
    expect(list[0] + list[1] == 1 && list[2] == 7, "b0 and b1, and nothing else");
    expect(engine_circle(S, sizeof S, hard, 0, list, sizeof list) == 0, "S has none");
    memset(list, 7, sizeof list);
    expect(engine_circle(both, sizeof both, hard, 0, list, 1) == a && list[0] == 7, "a list of one byte is left");
    expect(engine_circle(both, sizeof both, hard, 0, list, 2) == a && list[0] + list[1] == 1, "one of two is enough");

    /* the same with a parameter beside: b2 = parameter 0 */
    memcpy(level, both, sizeof both);
    memcpy(level + sizeof both, one, sizeof one);
    expect(engine_circle(level, sizeof level, hard, sizeof hard - 1, list, sizeof list) == ENGINE_NO_PARAMETERS,
           "31 bytes of parameters, and no list");
    expect(engine_circle(level, sizeof level, hard, sizeof hard, list, sizeof list) == a, "the same circle with 32");
}

/* The league's bonus beside S: b2 = init 10 {1 => b2 + b2}, of an event that both declare. */
static void pool_sheets(void)
{
    static const uint8_t bonus[] = {
        0x01, 0, 1, 1, 0x01, 0, 2, 2, 5,
        0x03, 0, 24, 0x04, 0, 4, 0, 0, 0, 10,
            0x05, 0, 14, 1, 0, 0x12, 0, 9, 4, 0x11, 0, 1, 0, 0x11, 0, 1, 0,
    };
    static const uint8_t other[] = {0x01, 0, 1, 7};
    static uint8_t both[8192];
    uint64_t a = engine_join(S, sizeof S, bonus, sizeof bonus, hard, 0, both, sizeof both);

    expect(!engine_join_refused(a) && engine_join_length(a) == sizeof S + 1 + 27, "S and the bonus");
    expect(both[engine_join_length(a)] == 0, "the bytes behind stay");
    expect(load(both, engine_join_length(a)) == 0, "the joined sheet is accepted");
    take(0);
    play_out();
    expect(value(0) == 2 && value(1) == 1 && value(2) == 10, "event 0 passes the bonus over");
    take(1);
    play_out();
    expect(value(1) == 1 && value(2) == 20, "event 1 is shared");
    expect(engine_arrive(TABLE, ROUND, 1, 1) == ENGINE_NO_RIGHT, "player 1 may not send it in the bonus");
    expect(engine_arrive(TABLE, ROUND, 1, 2) == 0, "player 2 may in both");
    expect(engine_join(S, sizeof S, other, sizeof other, hard, 0, both, sizeof both) == ENGINE_UNLIKE_RANKS,
           "another rank for event 0");
    expect(engine_join(S, sizeof S, bonus, sizeof bonus, hard, 0, both, engine_join_length(a) - 1) == ENGINE_SHORT_JOIN,
           "one byte too few");
}

/* Whether phones always agree on a sheet, and whether a player can learn of what is hidden from it. */
static void judge_sheets(void)
{
    /* b0 = init 7, for player 1 to see; b1 = b0 */
    static const uint8_t secret[] = {
        0x03, 0, 11, 0x04, 0, 4, 0, 0, 0, 7, 0x08, 0, 1, 2,
        0x02, 0, 4, 0x11, 0, 1, 0,
    };
    uint64_t a = engine_agree(S, sizeof S, NULL, 0);

    expect(engine_agree_number(a) == ENGINE_DEPENDENT, "phones may disagree on S");
    expect(engine_agree_first(a) == 0 && engine_agree_second(a) == 1, "since its events have unequal ranks");
    expect(engine_agree_behaviour(a) == 1, "and share b1");
    expect(engine_agree(top, sizeof top, NULL, 0) == 0, "with one event they agree");
    expect(engine_agree(S, 1, NULL, 0) == ENGINE_TORN, "compile's number");
    a = engine_leak(secret, sizeof secret, NULL, 0, 2);
    expect(engine_leak_number(a) == ENGINE_LEAK && engine_leak_seen(a) == 1, "player 2 sees b1");
    expect(engine_leak_hidden(a) == 0, "which names b0");
    expect(engine_leak(secret, sizeof secret, NULL, 0, 1) == 0, "player 1 sees both");
    expect(engine_leak(secret, sizeof secret, NULL, 0, ENGINE_PLAYERS) == ENGINE_NO_PLAYER, "there is no player 8");
}

/* A sheet as its setter writes it, and back. */
static void write_sheets(void)
{
    static const char text[] = "event hit rank 1\nactive score = 0\n  on hit: score + 10\n";
    static const char slip[] = "event hit rank 1\nactive score = 0\n  on hit: points + 10\n";
    static const char again[] = "event e0 rank 1\nactive b0=0\n  on e0:b0+10\n";
    static uint8_t bytes[ENGINE_SHEET], described[ENGINE_SHEET_TEXT];
    uint64_t a = engine_assemble((const uint8_t *)text, sizeof text - 1, bytes, sizeof bytes);
    uint32_t n = engine_assemble_length(a);

    expect(!engine_assemble_refused(a) && engine_assemble_kind(a) == 0 && n == 34, "a sheet of 34 bytes");
    expect(load(bytes, n) == 0, "it is accepted");
    take(0);
    play_out();
    expect(value(0) == 10, "a hit is ten points");
    a = engine_describe(bytes, n, described, sizeof described);
    expect(!engine_describe_refused(a) && engine_describe_length(a) == sizeof again - 1, "back to text");
    expect(memcmp(described, again, sizeof again - 1) == 0, "with names that it invents");
    a = engine_describe(bytes, n, described, sizeof again - 2);
    expect(engine_describe_refusal(a) == ENGINE_BUFFER_TOO_SHORT, "one byte too few");
    a = engine_describe(bytes, 1, described, sizeof described);
    expect(engine_describe_refusal(a) == ENGINE_TORN, "compile's number");
    a = engine_assemble((const uint8_t *)slip, sizeof slip - 1, bytes, sizeof bytes);
    expect(engine_assemble_refused(a) && engine_assemble_kind(a) == ENGINE_TEXT_NAME, "a name that is not declared");
    expect(engine_assemble_line(a) == 3 && engine_assemble_column(a) == 11, "in line 3, column 11");
    a = engine_assemble((const uint8_t *)text, sizeof text - 1, bytes, n - 1);
    expect(engine_assemble_kind(a) == ENGINE_BUFFER_TOO_SHORT && engine_assemble_line(a) == 4, "told at the end");
}

/* What the getters make of answers, and a table that is none. */
static void read_answers(void)
{
    static uint8_t spoilt[ENGINE_TABLE];
    uint64_t a;
    uint32_t n;

    for (n = 1; n <= ENGINE_TAKEN_BEFORE; n++)
        expect(strcmp(engine_refusal_word(n), "no refusal") != 0, "a word for each refusal");
    expect(strcmp(engine_refusal_word(ENGINE_FULL_HAND), "full hand") == 0, "16 is a full hand");
    expect(strcmp(engine_refusal_word(ENGINE_TAKEN_BEFORE + 1), "no refusal") == 0, "45 is no refusal");
    expect(strcmp(engine_refusal_word(0), "accepted") == 0, "0 is none");
    expect(engine_version() == (ENGINE_VERSION << 16 | ENGINE_LAYOUT), "header and archive are of one version");
    expect(engine_version_interface(engine_version()) == ENGINE_VERSION, "the interface's");
    expect(engine_version_layout(engine_version()) == ENGINE_LAYOUT, "the layout's");

    load(S, sizeof S);
    expect(engine_count_value(engine_event_count(TABLE)) == 2, "S has two events");
    expect(engine_count_value(engine_behaviour_count(TABLE)) == 2, "and two behaviours");
    expect(engine_count_value(engine_event_rank(TABLE, 1)) == 2, "event 1 has rank 2");
    expect(engine_count_refusal(engine_event_rank(TABLE, 2)) == ENGINE_NO_SUCH_EVENT, "there is no event 2");
    expect(!engine_count_refused(engine_event_count(TABLE)), "a count is no refusal");
    memset(spoilt, 0xFF, sizeof spoilt);
    expect(engine_count_refusal(engine_event_count(spoilt, sizeof spoilt)) == ENGINE_FOREIGN, "a spoilt table");
    a = engine_step(spoilt, sizeof spoilt, ROUND);
    expect(engine_step_refused(a) && engine_step_kind(a) == ENGINE_STEP_REFUSED, "its step is refused");
    expect(engine_step_kind(a) != ENGINE_BROKE_IN, "and is no break-in");
    expect(engine_forecast_refusal(engine_forecast(spoilt, sizeof spoilt, ROUND)) == ENGINE_FOREIGN, "its forecast");
    expect(engine_board_refusal(engine_board(TABLE, ROUND, 9, ENGINE_HOST)) == ENGINE_NO_SUCH_BEHAVIOUR, "b9");
    expect(engine_board_refusal(engine_board(TABLE, ROUND, 0, ENGINE_HOST)) == 0, "b0 is not refused");
    expect(engine_formula_refusal(engine_formula((const uint8_t *)"+", 1, spoilt, 9)) == ENGINE_NO_FORMULA, "+");
    expect(engine_join_refusal(engine_join(S, 1, S, sizeof S, NULL, 0, spoilt, 9)) == ENGINE_TORN, "a torn sheet");
    expect(engine_board_value(UINT64_C(0x1FFFFFFFF)) == -1, "a word of ones is -1");
    expect(engine_board_value(UINT64_C(0x180000000)) == INT32_MIN, "the least value");
    expect(engine_told(UINT64_C(0xFFFFFFFFFFFFFFFF)) == UINT64_C(0xFFFFFFFFFFFFFF), "told keeps the lowest 56 bits");
}

/* A buffer of length 0 may be NULL, for each call. */
static void lend_nothing(void)
{
    load(S, sizeof S);
    expect(engine_compile(NULL, 0, NULL, 0, TABLE) == 0, "a sheet of no bytes");
    expect(engine_compile(S, sizeof S, NULL, 0, NULL, 0) == ENGINE_SHORT_TABLE, "no table");
    expect(engine_circle(NULL, 0, NULL, 0, NULL, 0) == 0, "no list");
    expect(engine_start(NULL, 0, NULL, 0) == ENGINE_FOREIGN, "start");
    expect(engine_arrive(NULL, 0, NULL, 0, 0, 0) == ENGINE_FOREIGN, "arrive");
    expect(engine_step(NULL, 0, NULL, 0) == ENGINE_FOREIGN, "step");
    expect(engine_board(NULL, 0, NULL, 0, 0, 0) == ENGINE_FOREIGN, "board");
    expect(engine_forecast(NULL, 0, NULL, 0) == ENGINE_FOREIGN, "forecast");
    expect(engine_preview(NULL, 0, NULL, 0, 0, 0, 0) == ENGINE_FOREIGN, "preview");
    expect(engine_mend(NULL, 0, NULL, 0, NULL, 0) == ENGINE_FOREIGN, "mend");
    expect(engine_formula(NULL, 0, NULL, 0) == ENGINE_NO_FORMULA, "formula");
    expect(engine_join(NULL, 0, NULL, 0, NULL, 0, NULL, 0) == UINT64_C(1) << 32, "two sheets of no bytes make one");
    expect(engine_assemble(NULL, 0, NULL, 0) == UINT64_C(1) << 32, "a text of no bytes is the rest day's");
    expect(engine_describe(NULL, 0, NULL, 0) == UINT64_C(1) << 32, "and a sheet of none has a text of none");
    expect(engine_replay(NULL, 0, NULL, 0, NULL, 0, NULL, 0) == 0, "no calls");
    expect(engine_event_count(NULL, 0) == ENGINE_FOREIGN, "event_count");
    expect(engine_agree(NULL, 0, NULL, 0) == 0 && engine_leak(NULL, 0, NULL, 0, 1) == 0, "agree and leak");
    expect(engine_frame_end(engine_frame(TABLE, ROUND, 5, NULL, 0)) == ENGINE_FRAME_IDLE, "frame");
}

/* Frames of a few steps, their commits in a buffer for one. */
static void frames(void)
{
    uint8_t one[ENGINE_ANSWER] = {0};
    uint64_t f;

    load(S, sizeof S);
    take(0);
    take(1);
    f = engine_frame(TABLE, ROUND, 5, NULL, 0);
    expect(engine_frame_end(f) == ENGINE_FRAME_FULL && engine_frame_steps(f) == 0, "no room for a commit");
    f = engine_frame(TABLE, ROUND, 5, one, sizeof one);
    expect(engine_frame_end(f) == ENGINE_FRAME_MADE && engine_frame_steps(f) == 5, "five steps");
    expect(engine_frame_commits(f) == 0, "and no commit");
    f = engine_frame(TABLE, ROUND, 100, one, sizeof one);
    expect(engine_frame_end(f) == ENGINE_FRAME_FULL && engine_frame_commits(f) == 1, "one commit fills the buffer");
    expect(engine_frame_steps(f) == 4, "after the rest of event 1");
    expect(engine_step_event(engine_answer_get(one, 0)) == 1, "which outranks event 0");
    f = engine_frame(TABLE, ROUND, 17, one, sizeof one);
    expect(engine_frame_end(f) == ENGINE_FRAME_MADE && engine_frame_commits(f) == 0, "17 steps of event 0");
    f = engine_frame(TABLE, ROUND, 1, one, sizeof one);
    expect(engine_frame_commits(f) == 1 && engine_step_event(engine_answer_get(one, 0)) == 0, "then its commit");
    expect(engine_frame_end(f) == ENGINE_FRAME_IDLE && engine_frame_steps(f) == 1, "which leaves nothing in hand");
    expect(engine_frame_end(engine_frame(TABLE, ROUND, 0, one, sizeof one)) == ENGINE_FRAME_MADE, "no step asked for");
    expect(engine_frame_end(engine_frame(TABLE, ROUND, 5, NULL, 0)) == ENGINE_FRAME_IDLE, "idle before no room");
    expect(engine_frame_end(engine_frame(table, 10, ROUND, 1, one, sizeof one)) == ENGINE_FRAME_REFUSED, "no table");
}

int main(void)
{
    static const int32_t want[][2] = {{2, 1}, {3, 2}, {5, 3}};
    int i, moved;

    expect(sizeof S == 74, "S has 74 bytes");
    expect(load(S, sizeof S) == 0, "S is accepted");
    for (i = 0; i < 3; i++) {
        take(0);
        play_out();
        expect(value(0) == want[i][0] && value(1) == want[i][1], "three times event 0");
    }
    take(1);
    play_out();
    take(0);
    play_out();
    expect(value(0) == 6 && value(1) == 5, "then 1, 0");

    expect(load(equals, sizeof equals) == 0, "the round of equal ranks is accepted");
    take(0);
    take(1);
    expect(!frame(5), "A runs, past its copies");
    take(2);
    moved = engine_step_kind(engine_step(TABLE, ROUND)) == ENGINE_BROKE_IN;
    play_out();
    expect(moved, "H breaks in");
    expect(value(0) == 4, "A before B: 4");

    load(S, sizeof S);
    for (i = 0; i < 64; i++)
        take(0);
    expect(engine_arrive(TABLE, ROUND, 0, ENGINE_HOST) == ENGINE_FULL_HAND, "the 65th");
    expect(engine_arrive(TABLE, ROUND, 2, ENGINE_HOST) == ENGINE_NO_SUCH_EVENT, "event 2");
    expect(engine_board(TABLE, ROUND, 2, ENGINE_HOST) == ENGINE_NO_SUCH_BEHAVIOUR, "behaviour 2");
    expect(engine_step(table, 10, round_, sizeof round_) == ENGINE_FOREIGN, "a short table");
    expect(engine_compile(S, sizeof S, easy, 0, table, ENGINE_TABLE - 1) == ENGINE_SHORT_TABLE,
           "a table of 34,815 bytes");
    expect(load(S, 0) == 0, "a sheet of no bytes is accepted");
    expect(frame(1), "and idle");
    expect(engine_arrive(TABLE, ROUND, 0, ENGINE_HOST) == ENGINE_NO_SUCH_EVENT, "it has no event");
    expect(engine_board(TABLE, ROUND, 0, ENGINE_HOST) == ENGINE_NO_SUCH_BEHAVIOUR, "and no behaviour");
    audit();
    audit_of_any_player();
    plan();
    hover();
    levels();
    ran_over();
    share();
    mend_bonus();
    write_formulas();
    show_circle();
    pool_sheets();
    judge_sheets();
    write_sheets();
    read_answers();
    lend_nothing();
    frames();
    puts(faults ? "rounds: faults" : "rounds: all as the scope says");
    return faults != 0;
}
