/* A match of two players, played in frames of a few steps: the other phone's table, entries of an order, rights, a look
 * ahead, a bonus sheet that joins in mid-round, a save and a load, a mended sheet, a crowd of entries at once, a board
 * at a place of the order, and an audit. Prints what happens: match SAVE ROUNDS SHEETS. The same match in Rust, Java and
 * JavaScript stands beside this folder. */
#include <stdio.h>
#include <stdlib.h>

#include "day.h" /* setter names day.sheet */
#include "match.h"

#define BUDGET 10u /* steps of a frame */
enum { TURN = DAY_EVENT_turn, BONUS = DAY_EVENT_bonus };

static void stop_if(uint32_t refusal, const char *what)
{
    if (refusal) {
        printf("%s: %s\n", what, match_word(refusal));
        exit(1);
    }
}

/* Who sent it is kept with an arrival, so a commit can be shown as the player's. Only the host is told that it ran
 * over: to the other phones goes engine_told(answer). */
static void committed(void *app, uint64_t answer)
{
    unsigned *commits = (unsigned *)app;

    (*commits)++;
    printf("    commit of arrival %u: event %u of player %u%s\n", (unsigned)engine_step_arrival(answer),
           (unsigned)engine_step_event(answer), (unsigned)engine_step_player(answer),
           engine_step_over(answer) ? ", which ran over" : "");
}

static void count_commit(void *app, uint64_t answer)
{
    (void)answer;
    (*(unsigned *)app)++;
}

/* Frames until nothing is left to do. */
static void play_out(struct match *m)
{
    unsigned frames = 0, commits = 0;
    int idle;

    do {
        stop_if(match_frame(m, BUDGET, committed, &commits, &idle), "frame");
        frames++;
    } while (!idle);
    printf("    idle after %u frames, %u commits\n", frames, commits);
}

/* The next entry of the order: an app gets event, player and number from whoever makes the order. What the sheet
 * refuses takes no number. */
static uint32_t entry;

static void send(struct match *m, uint32_t event, uint32_t player)
{
    unsigned commits = 0;
    uint32_t refusal = match_deliver(m, entry, event, player, committed, &commits);

    if (refusal == 0)
        entry++;
    printf("player %u sends event %u: %s\n", (unsigned)player, (unsigned)event, match_word(refusal));
}

/* So many entries at once, more than the hand has places for: none is refused. One that comes twice is. */
static void crowd(struct match *m, uint32_t count)
{
    unsigned commits = 0;
    uint64_t t;

    for (; count > 0; count--)
        stop_if(match_deliver(m, entry++, TURN, 2, committed, &commits), "an entry of the crowd");
    t = engine_taken(m->table, sizeof m->table, m->round, sizeof m->round);
    printf("    %u taken in, %u of them in hand\n", (unsigned)engine_taken_number(t),
           (unsigned)engine_taken_in_hand(t));
    printf("the last entry once more: %s\n", match_word(match_deliver(m, entry - 1, TURN, 2, committed, &commits)));
}

/* The board after all entries so far: a winner that is read from it is the same on every phone. */
static void settle(struct match *m, uint32_t player)
{
    unsigned commits = 0;
    struct shown board;
    uint32_t i;

    stop_if(match_board_after(m, entry, player, &board, count_commit, &commits), "the board");
    printf("    %u commits later, the board after %u entries: player %u sees", commits, (unsigned)entry,
           (unsigned)player);
    for (i = 0; i < board.count; i++)
        if (!board.hidden[i])
            printf(" b%u = %d", (unsigned)i, (int)board.values[i]);
    putchar('\n');
}

/* A change to another sheet after all entries so far. */
static void mend(struct match *m, const struct sheet *sheet, const char *what)
{
    unsigned commits = 0;

    stop_if(match_mend(m, entry, sheet, DAY_PARAMS, committed, &commits), what);
    printf("%s, after %u entries\n", what, (unsigned)entry);
}

/* Each player's screen: what it may not see is left out. */
static void show(struct match *m, uint32_t players)
{
    uint32_t behaviours = engine_count_value(engine_behaviour_count(m->table, sizeof m->table)), player, i;

    for (player = 1; player <= players; player++) {
        printf("    player %u sees", (unsigned)player);
        for (i = 0; i < behaviours; i++) {
            int32_t value;
            uint32_t refusal = match_read(m, i, player, &value);

            if (refusal == 0)
                printf(" b%u = %d", (unsigned)i, (int)value);
            else if (refusal != ENGINE_NO_RIGHT)
                printf(" b%u: %s", (unsigned)i, match_word(refusal));
        }
        putchar('\n');
    }
}

/* What a move would lead to, shown while the pointer rests on it. */
static void hover(const struct match *m, uint32_t event, uint32_t behaviour, uint32_t player)
{
    uint64_t a = engine_preview(m->table, sizeof m->table, m->round, sizeof m->round, event, behaviour, player);

    if (engine_board_refused(a))
        printf("player %u may not try event %u on b%u: %s\n", (unsigned)player, (unsigned)event, (unsigned)behaviour,
               engine_refusal_word(engine_board_refusal(a)));
    else
        printf("player %u tries event %u: b%u would be %d\n", (unsigned)player, (unsigned)event, (unsigned)behaviour,
               (int)engine_board_value(a));
}

static void plan(const struct match *m)
{
    uint64_t f = engine_forecast(m->table, sizeof m->table, m->round, sizeof m->round);

    if (!engine_forecast_refused(f))
        printf("    %u steps to idle\n", (unsigned)engine_forecast_steps(f));
}

/* Both in one sheet; parameters are lent as to compile. */
static void joined(struct sheet *both, const struct sheet *a, const struct sheet *b)
{
    uint64_t n = engine_join(a->bytes, a->len, b->bytes, b->len, DAY_PARAMS, sizeof DAY_PARAMS, both->bytes,
                             sizeof both->bytes);

    both->refusal = engine_join_refusal(n);
    both->len = engine_join_refused(n) ? 0 : engine_join_length(n);
}

static void describe(const struct match *m)
{
    uint32_t events = engine_count_value(engine_event_count(m->table, sizeof m->table)), e;

    printf("interface %u, layout %u; %u events of rank", (unsigned)engine_version_interface(engine_version()),
           (unsigned)engine_version_layout(engine_version()), (unsigned)events);
    for (e = 0; e < events; e++)
        printf(" %u", (unsigned)engine_count_value(engine_event_rank(m->table, sizeof m->table, e)));
    putchar('\n');
}

/* Before a sheet is played: whether the phones will agree, and whether what player 2 sees depends on what it may not
 * see. It does not here, and yet player 2, who sees b0 and b1, can work out their product, b2; and every phone is told
 * which events were committed and who sent them. */
static void judge(const struct sheet *s)
{
    uint64_t a = engine_agree(s->bytes, s->len, DAY_PARAMS, sizeof DAY_PARAMS);
    uint64_t l = engine_leak(s->bytes, s->len, DAY_PARAMS, sizeof DAY_PARAMS, 2);

    if (engine_agree_number(a) == ENGINE_DEPENDENT)
        printf("phones may disagree: events %u and %u differ in rank and share b%u\n", (unsigned)engine_agree_first(a),
               (unsigned)engine_agree_second(a), (unsigned)engine_agree_behaviour(a));
    if (engine_leak_number(l) == 0)
        printf("no behaviour that player 2 sees depends on one that is hidden from it\n");
}

/* Before a round: the other phone opens the match with the sheet that it has got, and sends its greeting; ours
 * compares. Here both are in one program; an app sends the bytes. */
static void compare(const struct match *m, const struct sheet *got)
{
    static uint8_t sent[MATCH_GREETING];
    static struct match other;

    stop_if(match_open(&other, got, DAY_PARAMS), "the other phone");
    match_greet(&other, sent);
    match_close(&other);
    printf("the other phone's greeting: %s\n", match_word(match_meets(m, sent)));
}

/* Saved while an event runs, closed, and gone on with. */
static void save_and_load(struct match *m, const char *path)
{
    unsigned commits = 0;
    int idle;

    stop_if(match_frame(m, 3, committed, &commits, &idle), "frame");
    stop_if(match_save(m, path), "save");
    match_close(m);
    stop_if(match_load(m, path), "load");
    printf("saved in mid-event, and loaded\n");
    play_out(m);
}

/* The record is played again; then one answer in it is changed, as a cheat would. */
static void settle_dispute(struct match *m)
{
    uint8_t *byte = m->asked.bytes + m->asked.len - 1;

    printf("audit: %s\n", match_word(match_audit(m)));
    *byte ^= 1;
    printf("audit of a changed record: %s\n", match_word(match_audit(m)));
    *byte ^= 1;
}

int main(int argc, char **argv)
{
    static struct match m;
    static struct sheet day, bonus, both;
    const char *save = argc > 1 ? argv[1] : "match.save", *rounds = argc > 2 ? argv[2] : "match.rounds";
    const char *sheets = argc > 3 ? argv[3] : "sheets";

    sheet_read(&day, sheets, "day");
    stop_if(match_open(&m, &day, DAY_PARAMS), "the day's puzzle");
    describe(&m);
    compare(&m, &day);
    sheet_read(&bonus, sheets, "turns");
    compare(&m, &bonus);
    judge(&day);
    send(&m, TURN, 2);
    send(&m, BONUS, 2);
    send(&m, BONUS, 1);
    plan(&m);
    play_out(&m);
    show(&m, 2);
    hover(&m, TURN, DAY_BEHAVIOUR_score, 2);
    hover(&m, TURN, DAY_BEHAVIOUR_secret, 2);

    sheet_read(&bonus, sheets, "squares");
    joined(&both, &day, &bonus);
    send(&m, TURN, 1);
    mend(&m, &both, "the league's bonus joins in");
    send(&m, BONUS, 1);
    save_and_load(&m, save);
    send(&m, BONUS, 1);
    play_out(&m);
    show(&m, 2);

    sheet_read(&bonus, sheets, "doubles");
    joined(&both, &day, &bonus);
    mend(&m, &both, "the bonus is mended");
    send(&m, BONUS, 1);
    play_out(&m);
    show(&m, 2);
    crowd(&m, 67);
    settle(&m, 1);
    show(&m, 2);
    settle_dispute(&m);
    stop_if(match_export(&m, "final, table 3", rounds), "export");
    match_close(&m);
    return 0;
}
