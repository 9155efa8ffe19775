/* What is held of the calls on rounds: a frame is its steps, a delivery is steps and an arrival, a preview is an
 * arrival, a run and a board, a replay is its calls, a refused call changes nothing, and phones agree where agree or
 * agree_for is 0. */
#include "fuzz.h"

#include <string.h>

/* Calls of one input; steps after which a run on bytes that were damaged is given up. */
enum { MOST_CALLS = 120, PATIENCE = 300000 };

/* A round under one of two tables, and the numbers of that table's events and behaviours. */
struct game {
    const struct table *table;
    struct round round;
    uint32_t events, behaviours;
};

/* Copies of the round: as it was, and as the same is reached by other calls. */
static struct round before, other;

#define OF(table, round) TABLE_OF(table), ROUND_OF(round)

static void tell(struct game *game)
{
    game->events = engine_count_value(engine_event_count(TABLE_OF(game->table)));
    game->behaviours = engine_count_value(engine_behaviour_count(TABLE_OF(game->table)));
}

static void unchanged(const struct game *game, const char *what)
{
    hold(same_round(&game->round, &before), what);
    tried[REFUSALS]++;
}

/* ---- the same by steps */

static void put_answer(uint8_t *at, uint64_t answer)
{
    int k;
    for (k = 0; k < 8; k++)
        at[k] = (uint8_t)(answer >> (56 - 8 * k));
}

static int is_idle(const struct table *table, const struct round *round)
{
    static struct round copy;
    fence_round(&copy);
    copy_round(&copy, round);
    return engine_step(OF(table, &copy)) == ENGINE_IDLE;
}

static uint64_t frame_end(uint64_t end, uint64_t commits, uint64_t steps) { return end << 56 | commits << 32 | steps; }

static uint64_t frame_by_steps(const struct table *table, struct round *round, uint32_t steps, uint8_t *commits,
                               size_t room)
{
    uint64_t written = 0, answer;
    uint32_t made;

    for (made = 0; made < steps; made++) {
        if (written == room / ENGINE_ANSWER)
            return frame_end(is_idle(table, round) ? ENGINE_FRAME_IDLE : ENGINE_FRAME_FULL, written, made);
        answer = engine_step(OF(table, round));
        if (answer == ENGINE_IDLE)
            return frame_end(ENGINE_FRAME_IDLE, written, made);
        if (engine_step_refused(answer))
            return frame_end(ENGINE_FRAME_REFUSED, written, made);
        if (engine_step_kind(answer) != ENGINE_COMMITTED)
            continue;
        put_answer(commits + ENGINE_ANSWER * written++, answer);
        hold(engine_told(answer) == (answer & ~ENGINE_OVER), "told leaves out the mark");
    }
    tried[CALLS_MADE] += made;
    return frame_end(steps > 0 && is_idle(table, round) ? ENGINE_FRAME_IDLE : ENGINE_FRAME_MADE, written, made);
}

/* Entry `number` by steps and an arrival; 0 where it takes too long, on damaged bytes alone. */
static uint64_t deliver_by_steps(const struct table *table, struct round *round, const uint32_t entry[3],
                                 uint8_t *commits, size_t room)
{
    uint64_t taken = engine_taken(OF(table, round)), answer;
    uint32_t refusal, steps = 0;

    if (engine_taken_refused(taken))
        return ENGINE_FOREIGN;
    if (engine_taken_number(taken) != entry[0])
        return engine_taken_number(taken) < entry[0] ? ENGINE_MISSING_ENTRIES : ENGINE_TAKEN_BEFORE;
    refusal = engine_arrive(OF(table, round), entry[1], entry[2]);
    if (refusal == 0)
        return frame_end(ENGINE_DELIVERED, 0, 0);
    if (refusal != ENGINE_FULL_HAND)
        return refusal;
    if (entry[0] >= 1000000)
        return ENGINE_SPENT;
    if (room < ENGINE_ANSWER)
        return frame_end(ENGINE_DELIVER_FULL, 0, 0);
    do {
        answer = engine_step(OF(table, round));
        if (engine_step_refused(answer))
            return frame_end(ENGINE_DELIVER_BROKEN, 0, steps);
    } while (++steps < PATIENCE && engine_step_kind(answer) != ENGINE_COMMITTED);
    put_answer(commits, answer);
    tried[FULL_HANDS]++;
    hold(steps == PATIENCE || engine_arrive(OF(table, round), entry[1], entry[2]) == 0, "a commit makes room");
    return steps < PATIENCE ? frame_end(ENGINE_DELIVERED, 1, steps) : 0;
}

/* Everything in hand, by frames; how many steps it took, or -1 where a step is refused. */
static long run_to_idle(const struct table *table, struct round *round)
{
    uint8_t commits[8 * ENGINE_ANSWER];
    uint64_t answer;
    long steps = 0;

    do {
        answer = engine_frame(OF(table, round), 100000, commits, sizeof commits);
        steps += engine_frame_steps(answer);
        tried[CALLS_MADE]++;
        if (engine_frame_end(answer) == ENGINE_FRAME_REFUSED)
            return -1;
    } while (engine_frame_end(answer) != ENGINE_FRAME_IDLE && steps < PATIENCE);
    return steps;
}

/* ---- each call of the round, held */

static void hold_arrive(struct game *game, uint32_t event, uint32_t player)
{
    uint64_t was = engine_taken(OF(game->table, &game->round)), is;
    uint32_t refusal = engine_arrive(OF(game->table, &game->round), event, player);

    is = engine_taken(OF(game->table, &game->round));
    tried[CALLS_MADE] += 3, tried[ARRIVALS]++;
    if (refusal) {
        unchanged(game, "a refused arrival changes nothing");
        hold(is == was, "and takes nothing in");
    } else {
        hold(is == was + 1 + (UINT64_C(1) << 40), "an arrival is taken in and joins the hand");
    }
}

static void hold_step(struct game *game)
{
    uint64_t answer = engine_step(OF(game->table, &game->round));
    tried[CALLS_MADE] += 2;
    if (answer == ENGINE_IDLE || engine_step_refused(answer))
        unchanged(game, "a step that is refused or idle changes nothing");
    hold(engine_told(~answer) == ~answer << 8 >> 8, "told keeps the lowest 56 bits of any number");
}

static void hold_frame(struct game *game, uint32_t steps, size_t room)
{
    uint8_t ours[16 * ENGINE_ANSWER], theirs[16 * ENGINE_ANSWER];
    uint64_t answer;

    memset(ours, FILL, sizeof ours);
    memset(theirs, FILL, sizeof theirs);
    copy_round(&other, &game->round);
    answer = engine_frame(OF(game->table, &game->round), steps, ours, room);
    hold(answer == frame_by_steps(game->table, &other, steps, theirs, room), "a frame answers as its steps do");
    hold(same_round(&game->round, &other), "a frame leaves the round of its steps");
    hold(memcmp(ours, theirs, sizeof ours) == 0, "a frame writes the commits of its steps");
    tried[CALLS_MADE]++, tried[FRAMES]++, tried[COMMITS] += engine_frame_commits(answer);
}

static void hold_deliver(struct game *game, const uint32_t entry[3], size_t room)
{
    uint8_t ours[2 * ENGINE_ANSWER], theirs[2 * ENGINE_ANSWER];
    uint64_t answer, expected;

    memset(ours, FILL, sizeof ours);
    memset(theirs, FILL, sizeof theirs);
    copy_round(&other, &game->round);
    expected = deliver_by_steps(game->table, &other, entry, theirs, room);
    answer = engine_deliver(OF(game->table, &game->round), entry[0], entry[1], entry[2], ours, room);
    tried[CALLS_MADE] += 3, tried[DELIVERIES]++;
    if (expected == 0)
        return;
    hold(answer == expected, "a delivery answers as steps and an arrival do");
    hold(same_round(&game->round, &other), "a delivery leaves the round of steps and an arrival");
    hold(memcmp(ours, theirs, sizeof ours) == 0, "a delivery writes the commit of its steps");
    if (engine_deliver_end(answer) == ENGINE_DELIVER_REFUSED || engine_deliver_end(answer) == ENGINE_DELIVER_FULL)
        unchanged(game, "a refused delivery changes nothing");
}

static void hold_board(struct game *game, uint32_t behaviour, uint32_t player)
{
    uint64_t answer = engine_board(OF(game->table, &game->round), behaviour, player);
    uint64_t hosts = engine_board(OF(game->table, &game->round), behaviour, ENGINE_HOST);

    tried[CALLS_MADE] += 2;
    unchanged(game, "a board reading changes nothing");
    hold(engine_board_refused(answer) || answer == hosts, "a player sees what the host sees");
}

/* What a preview should answer: as the arrival, then 18, 25, then the board once all is run. */
static uint64_t preview_by_calls(const struct game *game, uint32_t event, uint32_t behaviour, uint32_t player)
{
    uint32_t refusal;
    uint64_t seen;

    copy_round(&other, &game->round);
    refusal = engine_arrive(OF(game->table, &other), event, player);
    if (refusal)
        return refusal;
    seen = engine_board(OF(game->table, &other), behaviour, player);
    if (seen == ENGINE_NO_SUCH_BEHAVIOUR || seen == ENGINE_NO_RIGHT)
        return seen;
    hold(run_to_idle(game->table, &other) >= 0, "no step of a round that was not damaged is refused");
    return engine_board(OF(game->table, &other), behaviour, player);
}

static void hold_preview(struct game *game, uint32_t event, uint32_t behaviour, uint32_t player)
{
    uint64_t answer = engine_preview(OF(game->table, &game->round), event, behaviour, player);

    unchanged(game, "a preview changes nothing");
    hold(answer == preview_by_calls(game, event, behaviour, player), "a preview is arrival, run and board");
    tried[CALLS_MADE] += 4, tried[PREVIEWS]++;
}

/* Exact where nothing runs, so that the next step starts something or is idle; else a bound. */
static void hold_forecast(struct game *game)
{
    uint64_t answer = engine_forecast(OF(game->table, &game->round)), first;
    long steps;

    unchanged(game, "a forecast changes nothing");
    hold(!engine_forecast_refused(answer), "a round has a forecast");
    copy_round(&other, &game->round);
    first = engine_step(OF(game->table, &other));
    copy_round(&other, &game->round);
    steps = run_to_idle(game->table, &other);
    hold(steps <= (long)engine_forecast_steps(answer), "a forecast is a bound");
    if (engine_step_kind(first) == ENGINE_STARTED || first == ENGINE_IDLE) {
        hold(steps == (long)engine_forecast_steps(answer), "a forecast is exact while nothing runs");
        tried[FORECASTS]++;
    }
    tried[CALLS_MADE] += 2;
}

/* A change to the other table, or to the same one. */
static void hold_mend(struct game *game, const struct table *table)
{
    uint64_t was = engine_taken(OF(game->table, &game->round)), value = 0;
    int same = table == game->table, shown = 0;
    uint32_t refusal, b;

    copy_round(&other, &game->round);
    refusal = engine_mend(TABLE_OF(game->table), OF(table, &game->round));
    tried[CALLS_MADE] += 3;
    if (refusal) {
        hold(refusal == ENGINE_SETTLING || (refusal == ENGINE_STRANGE_HAND && !same),
             "a change is refused by 19 or 28");
        unchanged(game, "a refused change leaves the round");
        return;
    }
    for (b = 0; same && b < game->behaviours; b++) {
        value = engine_board(OF(game->table, &other), b, ENGINE_HOST);
        shown = !engine_board_refused(value);
        hold(!shown || engine_board(OF(table, &game->round), b, ENGINE_HOST) == value,
             "the same sheet keeps the board");
    }
    game->table = table;
    tell(game);
    hold(engine_taken(OF(game->table, &game->round)) == was, "a change keeps what was taken in and what is in hand");
    tried[MENDS]++;
}

/* Recorded calls made at once, and one by one. */
static uint64_t made_alone(const struct game *game, struct round *round, const uint8_t *call)
{
    uint32_t number = (uint32_t)call[1] << 24 | (uint32_t)call[2] << 16 | (uint32_t)call[3] << 8 | call[4];

    if (call[0] == ENGINE_CALL_ARRIVE)
        return engine_arrive(OF(game->table, round), number, call[5]);
    if (call[0] == ENGINE_CALL_STEP)
        return engine_step(OF(game->table, round));
    return engine_board(OF(game->table, round), number, call[5]);
}

static void hold_replay(struct game *game, struct part calls, size_t room)
{
    uint8_t list[24 * ENGINE_CALL], ours[24 * ENGINE_ANSWER], theirs[24 * ENGINE_ANSWER];
    size_t count = calls.length / CALL < 24 ? calls.length / CALL : 24, k, made;

    memset(ours, FILL, sizeof ours);
    memset(theirs, FILL, sizeof theirs);
    room = room < sizeof ours ? room : sizeof ours;
    for (k = 0; k < count; k++)
        engine_call_put(list, k, calls.bytes[CALL * k] % 4, calls.bytes[CALL * k + 1] % (game->events + 2),
                        calls.bytes[CALL * k + 2] % 10);
    copy_round(&other, &game->round);
    made = engine_replay(OF(game->table, &game->round), list, count * ENGINE_CALL, ours, room);
    hold(made == (count < room / ENGINE_ANSWER ? count : room / ENGINE_ANSWER),
         "a replay makes what there is room for");
    for (k = 0; k < made; k++)
        put_answer(theirs + ENGINE_ANSWER * k, made_alone(game, &other, list + ENGINE_CALL * k));
    hold(memcmp(ours, theirs, sizeof ours) == 0, "a replay answers as its calls do");
    hold(same_round(&game->round, &other), "a replay leaves the round of its calls");
    tried[CALLS_MADE] += 1 + made, tried[REPLAYS]++;
}

/* ---- short and damaged bytes: the calls are made on a copy, and what is held of them holds there, too */

static void hold_short(struct game *game, size_t cut)
{
    const uint8_t *table = game->table->bytes;
    uint8_t *round = game->round.bytes, some[8];
    size_t t = ENGINE_TABLE - cut % 2, r = ENGINE_ROUND - (cut % 2 ? cut % 3 : 1 + cut % 100);

    hold(engine_start(table, t, round, r) == ENGINE_FOREIGN &&
             engine_arrive(table, t, round, r, 0, 0) == ENGINE_FOREIGN &&
             engine_step(table, t, round, r) == ENGINE_FOREIGN && engine_taken(table, t, round, r) == ENGINE_FOREIGN &&
             engine_frame(table, t, round, r, 1, some, 8) == frame_end(ENGINE_FRAME_REFUSED, 0, 0) &&
             engine_deliver(table, t, round, r, 0, 0, 0, some, 8) == ENGINE_FOREIGN &&
             engine_board(table, t, round, r, 0, 0) == ENGINE_FOREIGN &&
             engine_forecast(table, t, round, r) == ENGINE_FOREIGN &&
             engine_preview(table, t, round, r, 0, 0, 0) == ENGINE_FOREIGN &&
             engine_mend(table, t, table, ENGINE_TABLE, round, r) == ENGINE_FOREIGN,
         "short buffers are refused by 14");
    tried[CALLS_MADE] += 10;
    unchanged(game, "calls on short buffers change nothing");
}

static void hold_damaged(const struct game *game, const uint8_t *call, struct part rest)
{
    static struct table table;
    static struct game damaged;
    uint32_t entry[3] = {0, call[2] % 4, 0}, at = (uint32_t)call[1] << 8 | call[2];
    uint64_t taken;

    fence_table(&table);
    fence_round(&damaged.round);
    copy_table(&table, game->table);
    copy_round(&damaged.round, &game->round);
    if (call[3] & 1)
        damaged.round.bytes[at % ENGINE_ROUND] ^= (uint8_t)(call[3] | 1);
    else
        table.bytes[(at * (call[3] & 2 ? 1 : 8)) % ENGINE_TABLE] ^= (uint8_t)(call[3] | 1);
    damaged.table = &table, damaged.events = game->events, damaged.behaviours = game->behaviours;
    taken = engine_taken(OF(&table, &damaged.round));
    entry[0] = engine_taken_number(taken);
    hold_frame(&damaged, call[3], 8 * ENGINE_ANSWER);
    copy_round(&before, &damaged.round);
    hold_deliver(&damaged, entry, ENGINE_ANSWER);
    copy_round(&before, &damaged.round);
    engine_preview(OF(&table, &damaged.round), 0, 0, ENGINE_HOST);
    engine_forecast(OF(&table, &damaged.round));
    unchanged(&damaged, "a preview and a forecast on damaged bytes change nothing");
    if (engine_mend(TABLE_OF(game->table), OF(&table, &damaged.round)))
        unchanged(&damaged, "a refused change on damaged bytes leaves the round");
    hold_replay(&damaged, rest, 24 * ENGINE_ANSWER);
    copy_round(&before, &damaged.round);
    if (engine_start(OF(&table, &damaged.round)))
        unchanged(&damaged, "a refused start leaves the round");
    tried[CALLS_MADE] += 6, tried[DAMAGED] += 10;
}

/* ---- two phones */

/* The events of the calls, delivered in order, with steps between them by one of two patterns; then run to idle. */
static void phone(const struct table *table, struct round *round, struct part calls, uint32_t events, uint32_t cut)
{
    uint8_t commits[8 * ENGINE_ANSWER];
    uint32_t number = 0, k;

    fence_round(round);
    hold(engine_start(OF(table, round)) == 0, "a round starts");
    for (k = 0; CALL * k + 1 < calls.length && k < MOST_CALLS; k++) {
        hold(engine_deliver_end(engine_deliver(OF(table, round), number++, calls.bytes[CALL * k + 1] % events,
                                               ENGINE_HOST, commits, sizeof commits)) == ENGINE_DELIVERED,
             "a phone takes in each entry");
        engine_frame(OF(table, round), cut * (calls.bytes[CALL * k] % 7), commits, sizeof commits);
    }
    hold(run_to_idle(table, round) >= 0, "a phone runs to idle");
    tried[CALLS_MADE] += 2 * number + 1;
}

static void hold_phones(const struct part parts[PARTS], const struct game *game)
{
    static struct round rounds[2];
    struct part sheet = parts[SHEET], params = parts[PARAMS], calls = parts[CALLS];
    uint32_t b;
    int all = engine_agree(sheet.bytes, sheet.length, params.bytes, params.length) == 0;

    if (game->events == 0)
        return;
    phone(game->table, &rounds[0], calls, game->events, 0);
    phone(game->table, &rounds[1], calls, game->events, 1 + (uint32_t)calls.length % 9);
    for (b = 0; b < game->behaviours; b++) {
        if (!all && engine_agree_for(sheet.bytes, sheet.length, params.bytes, params.length, b) != 0)
            continue;
        hold(engine_board(OF(game->table, &rounds[0]), b, ENGINE_HOST) ==
                 engine_board(OF(game->table, &rounds[1]), b, ENGINE_HOST),
             all ? "phones agree where agree is 0" : "phones agree on a behaviour where agree_for is 0");
        tried[CALLS_MADE] += 2, tried[AGREED_FOR] += !all;
    }
    tried[AGREED] += all != 0;
}

/* ---- the calls of an input */

enum kind { ARRIVE, STEP, FRAME, DELIVER, BOARD, PREVIEW, FORECAST, MEND, REPLAY, SHORT, DAMAGE, BURST, KINDS };

/* A number below a count, mostly, from one byte: at times the count itself, or far above. */
static uint32_t below(uint8_t byte, uint32_t count)
{
    return byte == 255 ? UINT32_MAX : byte % (count + 1 - (count > 0 && byte < 240));
}

/* One call on the game, its arguments within the sheet's counts but for some. */
static void make(struct game *game, const uint8_t *call, struct part rest)
{
    uint32_t event = below(call[1], game->events), player = below(call[2], ENGINE_PLAYERS), k;
    uint32_t sender = call[3] % 4 ? ENGINE_HOST : player, entry[3] = {0, event, sender};

    /* mostly the next entry, at times the one behind it or before it */
    entry[0] = engine_taken_number(engine_taken(OF(game->table, &game->round)));
    entry[0] += (uint32_t)(call[3] % 8 == 7) - (uint32_t)(call[3] % 8 == 6);
    switch (call[0] % KINDS) {
    case ARRIVE: hold_arrive(game, event, sender); break;
    case STEP: hold_step(game); break;
    case FRAME: hold_frame(game, (uint32_t)call[1] << call[2] % 5, call[3] % (16 * ENGINE_ANSWER)); break;
    case DELIVER: hold_deliver(game, entry, call[2] % 16); break;
    case BOARD: hold_board(game, below(call[1], game->behaviours), player); break;
    case PREVIEW: hold_preview(game, event, below(call[3], game->behaviours), call[2] % 4 ? 0 : player); break;
    case FORECAST: hold_forecast(game); break;
    case REPLAY: hold_replay(game, rest, (size_t)call[1] << 3 | call[2] % 8); break;
    case SHORT: hold_short(game, call[1]); break;
    case DAMAGE: hold_damaged(game, call, rest); break;
    default: /* BURST: the hand is filled */
        for (k = 0; k < call[3] % 80; k++) {
            copy_round(&before, &game->round);
            hold_arrive(game, game->events ? (call[1] + k * call[2]) % game->events : 0, ENGINE_HOST);
        }
    }
}

void hold_rounds(const struct part parts[PARTS], struct table tables[2], const int accepted[2])
{
    static struct game game;
    struct part rest = parts[CALLS];
    int k, own = 0;

    fence_round(&game.round);
    fence_round(&before);
    fence_round(&other);
    game.table = &tables[0];
    tell(&game);
    memset(game.round.bytes, FILL, ENGINE_ROUND);
    memset(other.bytes, 0x3C, ENGINE_ROUND);
    hold(engine_start(OF(game.table, &game.round)) == 0 && engine_start(OF(game.table, &other)) == 0, "a round starts");
    hold(same_round(&game.round, &other), "a fresh round depends on the table alone");
    hold_phones(parts, &game);
    for (k = 0; k < MOST_CALLS && rest.length >= CALL; k++) {
        const uint8_t *call = rest.bytes;
        rest.bytes += CALL, rest.length -= CALL;
        copy_round(&before, &game.round);
        if (call[0] % KINDS != MEND) {
            make(&game, call, rest);
            continue;
        }
        own = (call[1] & 1) && accepted[1] ? !own : own;
        hold_mend(&game, &tables[own]);
        own = game.table == &tables[1];
    }
}
