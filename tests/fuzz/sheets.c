/* What is held of the calls on sheets and texts. */
#include "fuzz.h"

#include <stdlib.h>
#include <string.h>

/* A sheet with its parameters, compile's number, and what its table tells of itself. */
struct sheet {
    uint8_t *bytes, *params;
    size_t length, params_length;
    uint32_t number, events, behaviours;
};

#define LENT(s) (s)->bytes, (s)->length, (s)->params, (s)->params_length

/* How many of a sheet's events and behaviours are asked about: all of them in most sheets. */
enum { SOME_EVENTS = 8, SOME_BEHAVIOURS = 12 };

static uint32_t least(uint32_t a, uint32_t b) { return a < b ? a : b; }

/* ---- compile: a refusal leaves the table, and the table depends on nothing but sheet and parameters */

static void hold_counts(struct sheet *s, const struct table *table)
{
    uint64_t events = engine_event_count(TABLE_OF(table)), behaviours = engine_behaviour_count(TABLE_OF(table));
    uint32_t e;

    hold(!engine_count_refused(events) && !engine_count_refused(behaviours), "a new table tells its counts");
    s->events = engine_count_value(events);
    s->behaviours = engine_count_value(behaviours);
    hold(s->events <= ENGINE_EVENTS && s->behaviours <= ENGINE_BEHAVIOURS, "counts are within the limits");
    for (e = 0; e < s->events; e++)
        hold(engine_event_rank(TABLE_OF(table), e) >> 4 == UINT64_C(1) << 28, "each event has a rank of 0 to 15");
    hold(engine_event_rank(TABLE_OF(table), s->events) == ENGINE_NO_SUCH_EVENT, "no rank of an event beyond");
    tried[CALLS_MADE] += 3 + s->events;
}

static void hold_compile(struct sheet *s, struct table *table)
{
    static struct table again;

    fence_table(&again);
    memset(table->bytes, FILL, ENGINE_TABLE);
    memset(again.bytes, 0x3C, ENGINE_TABLE);
    hold(engine_compile(LENT(s), table->bytes, ENGINE_TABLE - 1) == ENGINE_SHORT_TABLE, "a short table is refused");
    hold(untouched(table->bytes, 0, ENGINE_TABLE), "compile leaves a short table");
    s->number = engine_compile(LENT(s), TABLE_OF(table));
    s->events = s->behaviours = 0;
    tried[CALLS_MADE] += 2;
    if (s->number) {
        hold(untouched(table->bytes, 0, ENGINE_TABLE), "compile leaves the table of a sheet that it refuses");
        tried[SHEETS_REFUSED]++, tried[REFUSALS]++;
        return;
    }
    hold(engine_compile(LENT(s), TABLE_OF(&again)) == 0, "compile accepts the sheet again");
    hold(engine_same_table(table->bytes, again.bytes), "a table depends on sheet and parameters alone");
    hold_counts(s, table);
    tried[SHEETS_ACCEPTED]++;
}

/* ---- what is asked about a sheet */

static void hold_circle(const struct sheet *s)
{
    uint8_t *list = filled(ENGINE_CIRCLE_LIST);
    uint64_t answer = engine_circle(LENT(s), list, ENGINE_CIRCLE_LIST);
    uint32_t length = engine_circle_number(answer) == ENGINE_CIRCLE ? engine_circle_length(answer) : 0, k;

    hold(engine_circle_number(answer) == s->number, "circle gives compile's number");
    hold(s->number == ENGINE_CIRCLE ? 0 < length && length <= ENGINE_CIRCLE_LIST : answer == s->number,
         "a circle has 1 to 64 behaviours");
    hold(untouched(list, length, ENGINE_CIRCLE_LIST), "circle leaves the rest of the list");
    for (k = 0; k < length; k++)
        hold(list[k] < ENGINE_BEHAVIOURS, "a circle is one of behaviours");
    tried[CALLS_MADE]++;
    if (length) {
        memset(list, FILL, ENGINE_CIRCLE_LIST);
        hold(engine_circle(LENT(s), list, length - 1) == answer, "circle with a short list gives the same answer");
        hold(untouched(list, 0, ENGINE_CIRCLE_LIST), "circle leaves a short list");
        tried[CIRCLES]++;
    }
    free(list);
}

static uint32_t mirrored(uint32_t flags)
{
    return (flags & 0x30) | (flags & 5) << 1 | (flags & 10) >> 1;
}

/* Two events, asked about both ways round: whether they are independent, and whether they meet. */
static void hold_pair(const struct sheet *s, uint32_t e, uint32_t f, int *independent, int *meet)
{
    uint64_t one = engine_pair(LENT(s), e, f), other = engine_pair(LENT(s), f, e);
    uint32_t flags = engine_pair_flags(one);

    *independent = !engine_pair_dependent(one);
    *meet = !*independent && (flags & ENGINE_PAIR_MEET);
    hold(engine_pair_number(one) == 0 && engine_pair_number(other) == 0, "pair refuses no declared events");
    hold(engine_pair_dependent(other) == !*independent, "pair answers both ways round alike");
    if (!*independent)
        hold(engine_pair_behaviour(one) == engine_pair_behaviour(other) &&
                 mirrored(flags) == engine_pair_flags(other) && engine_pair_behaviour(one) < s->behaviours,
             "pair's flags are those of the other way round");
    tried[CALLS_MADE] += 2;
}

/* agree names the first two events of unequal rank that pair calls dependent; where none meet, agree_for is 0. */
static void hold_pairs(const struct sheet *s, const struct table *table, uint64_t agree)
{
    uint32_t e, f, b, first = ENGINE_NO_EVENT, second = ENGINE_NO_EVENT;
    int independent, meet, some = 0;

    for (e = 0; e < s->events; e++)
        for (f = e + 1; f < s->events; f++) {
            hold_pair(s, e, f, &independent, &meet);
            if (engine_event_rank(TABLE_OF(table), e) == engine_event_rank(TABLE_OF(table), f))
                continue;
            some |= meet;
            if (!independent && first == ENGINE_NO_EVENT)
                first = e, second = f;
        }
    hold((agree == 0) == (first == ENGINE_NO_EVENT), "agree is 0 where all events of unequal rank are independent");
    hold(agree == 0 || (engine_agree_first(agree) == first && engine_agree_second(agree) == second),
         "agree names the first two events that are not");
    for (b = 0; b < s->behaviours && !some; b++)
        hold(engine_agree_for(LENT(s), b) == 0, "agree_for is 0 where no events meet");
    tried[CALLS_MADE] += some ? 0 : s->behaviours;
}

static void hold_agree(const struct sheet *s, const struct table *table)
{
    uint64_t agree = engine_agree(LENT(s)), one;
    uint32_t b;

    hold(engine_agree_number(agree) == (s->number ? s->number : agree ? ENGINE_DEPENDENT : 0),
         "agree gives compile's number, 0 or 29");
    for (b = 0; b < least(s->behaviours, SOME_BEHAVIOURS); b++) {
        one = engine_agree_for(LENT(s), b);
        hold(one == 0 || (agree != 0 && engine_agree_number(one) == ENGINE_DEPENDENT), "agree_for gives 0 or 29");
    }
    hold(engine_agree_for(LENT(s), s->behaviours) == (s->number ? s->number : ENGINE_NO_SUCH_BEHAVIOUR),
         "agree_for refuses as compile does, then by 18");
    hold(engine_pair(LENT(s), s->events, 0) == (s->number ? s->number : ENGINE_NO_SUCH_EVENT) &&
             engine_pair(LENT(s), 0, UINT32_MAX) == (s->number ? s->number : ENGINE_NO_SUCH_EVENT),
         "pair refuses as compile does, then by 15");
    tried[CALLS_MADE] += 4 + b;
    if (!s->number && s->events <= SOME_EVENTS)
        hold_pairs(s, table, agree);
}

static void hold_leak(const struct sheet *s)
{
    uint32_t player;
    uint64_t answer;

    for (player = 0; player <= ENGINE_PLAYERS; player++) {
        answer = engine_leak(LENT(s), player);
        if (s->number || player == ENGINE_PLAYERS)
            hold(answer == (s->number ? s->number : ENGINE_NO_PLAYER), "leak refuses as compile does, then by 24");
        else
            hold(answer == 0 ||
                     (player != ENGINE_HOST && engine_leak_number(answer) == ENGINE_LEAK &&
                      engine_leak_seen(answer) < s->behaviours && engine_leak_hidden(answer) < s->behaviours),
                 "leak gives 0, or 30 with two behaviours, and for the host 0");
    }
    tried[CALLS_MADE] += player;
}

/* ---- calls that write to a buffer: as much as they tell, or nothing */

typedef uint64_t writer(const void *what, uint8_t *buffer, size_t length);

/* What was written, on the heap, with its length: NULL where the call refused. The buffer of `room` bytes is always
 * enough; one of just the length is, too; a shorter one is refused and stays. */
static uint8_t *hold_writer(writer *call, const void *what, size_t room, int (*refused)(uint64_t), struct part *out)
{
    uint8_t *all = filled(room), *exact, *few;
    uint64_t answer = call(what, all, room);

    tried[CALLS_MADE]++;
    out->length = refused(answer) ? 0 : (uint32_t)answer;
    hold(out->length <= room && untouched(all, out->length, room), "the rest of the buffer stays");
    if (refused(answer)) {
        tried[REFUSALS]++;
        free(all);
        return NULL;
    }
    exact = filled(out->length);
    hold(call(what, exact, out->length) == answer && memcmp(exact, all, out->length) == 0,
         "just enough room is enough");
    free(all);
    if (out->length) {
        few = filled(out->length - 1);
        hold(refused(call(what, few, out->length - 1)), "too little room is refused");
        hold(untouched(few, 0, out->length - 1), "a buffer that is too short stays");
        free(few);
        tried[REFUSALS]++;
    }
    tried[CALLS_MADE] += 2;
    out->bytes = exact;
    return exact;
}

static int is_refusal(uint64_t answer) { return answer >> 32 == 0; }
static int is_fault(uint64_t answer) { return answer >> 56 != 0; }

static uint64_t describe(const void *what, uint8_t *buffer, size_t length)
{
    const struct part *sheet = what;
    return engine_describe(sheet->bytes, sheet->length, buffer, length);
}

static uint64_t assemble(const void *what, uint8_t *buffer, size_t length)
{
    const struct part *text = what;
    uint64_t answer = engine_assemble(text->bytes, text->length, buffer, length);

    hold(!engine_assemble_refused(answer) ||
             (ENGINE_OUTSIDE <= engine_assemble_kind(answer) && engine_assemble_kind(answer) <= ENGINE_TEXT_TOO_LONG &&
              engine_assemble_line(answer) > 0 && engine_assemble_column(answer) > 0),
         "a fault has a kind, a line and a column");
    return answer;
}

static uint64_t formula(const void *what, uint8_t *buffer, size_t length)
{
    const struct part *text = what;
    return engine_formula(text->bytes, text->length, buffer, length);
}

static uint64_t join(const void *what, uint8_t *buffer, size_t length)
{
    const struct sheet *s = what;
    return engine_join(s[0].bytes, s[0].length, s[1].bytes, s[1].length, s->params, s->params_length, buffer, length);
}

/* A sheet that compile accepts becomes a text, and that the very bytes again. */
static void hold_describe(const struct part *sheet)
{
    static const uint8_t params[ENGINE_PARAMS];
    static struct table table;
    struct part text, again;
    uint8_t *described = hold_writer(describe, sheet, ENGINE_SHEET_TEXT, is_refusal, &text), *assembled, none[1];
    uint32_t number;

    fence_table(&table);
    if (!described) {
        number = engine_compile(sheet->bytes, sheet->length, params, ENGINE_PARAMS, TABLE_OF(&table));
        hold(number && engine_describe(sheet->bytes, sheet->length, none, 0) == number,
             "describe refuses what compile does, by its number");
        tried[CALLS_MADE] += 2;
        return;
    }
    assembled = hold_writer(assemble, &text, ENGINE_SHEET, is_fault, &again);
    hold(assembled != NULL && again.length == sheet->length &&
             (again.length == 0 || memcmp(assembled, sheet->bytes, again.length) == 0),
         "assemble makes the sheet of its description");
    tried[DESCRIBED]++;
    free(described);
    free(assembled);
}

/* A text's sheet is one that compile takes, but for circles, length and parameters. */
static void hold_text(struct part text)
{
    static struct table table;
    struct part sheet, lent = text;
    uint8_t *copy = exactly(text), *bytes;
    uint32_t number;

    lent.bytes = copy;
    fence_table(&table);
    bytes = hold_writer(assemble, &lent, ENGINE_SHEET, is_fault, &sheet);
    tried[bytes ? TEXTS_ACCEPTED : TEXTS_REFUSED]++;
    if (bytes) {
        number = engine_compile(bytes, sheet.length, NULL, 0, TABLE_OF(&table));
        hold(number == 0 || number == ENGINE_CIRCLE || number == ENGINE_OVERLONG || number == ENGINE_NO_PARAMETERS,
             "compile takes what assemble writes");
        if (number == 0)
            hold_describe(&sheet);
    }
    free(bytes);
    free(copy);
}

/* A formula's field is an expression of a sheet. */
static void hold_formula(struct part text)
{
    static struct table table;
    uint8_t sheet[3 + ENGINE_FIELD], *copy, *bytes;
    struct part field, lent = text;
    uint32_t number;

    lent.bytes = copy = exactly(text);
    bytes = hold_writer(formula, &lent, ENGINE_FIELD, is_refusal, &field);
    if (bytes) {
        fence_table(&table);
        sheet[0] = 2, sheet[1] = (uint8_t)(field.length >> 8), sheet[2] = (uint8_t)field.length;
        memcpy(sheet + 3, bytes, field.length);
        number = engine_compile(sheet, 3 + field.length, NULL, 0, TABLE_OF(&table));
        hold(number == 0 || number == ENGINE_UNKNOWN_NAME || number == ENGINE_CIRCLE || number == ENGINE_OVERLONG ||
                 number == ENGINE_NO_PARAMETERS,
             "compile reads the field that formula writes");
        tried[FORMULAS]++;
    }
    free(bytes);
    free(copy);
}

/* The text as a formula, and what stands behind the = or the : of some of its lines. */
static void hold_formulas(struct part text)
{
    size_t k;
    int some = 0;

    hold_formula(text);
    for (k = 0; k < text.length && some < 4; k++)
        if (text.bytes[k] == '=' || text.bytes[k] == ':') {
            struct part line = {text.bytes + k + 1, 0};
            while (k + 1 + line.length < text.length && line.bytes[line.length] != '\n')
                line.length++;
            hold_formula(line);
            k += line.length, some++;
        }
}

/* ---- join */

/* An event of the host's, run to idle: whether it was taken in. */
static int played(const struct table *table, struct round *round, uint32_t event)
{
    uint8_t commits[2 * ENGINE_ANSWER];
    int taken = engine_arrive(TABLE_OF(table), ROUND_OF(round), event, ENGINE_HOST) == 0;

    hold(engine_frame_end(engine_frame(TABLE_OF(table), ROUND_OF(round), UINT32_MAX, commits, sizeof commits)) ==
             ENGINE_FRAME_IDLE,
         "one event after the other runs to idle");
    tried[CALLS_MADE] += 2;
    return taken;
}

static void hold_half(const struct table *whole, const struct round *both, const struct table *table,
                      const struct round *half, uint32_t from)
{
    uint32_t b, count = engine_count_value(engine_behaviour_count(TABLE_OF(table)));

    for (b = 0; b < count; b++)
        hold(engine_board(TABLE_OF(whole), ROUND_OF(both), from + b, ENGINE_HOST) ==
                 engine_board(TABLE_OF(table), ROUND_OF(half), b, ENGINE_HOST),
             "each half of a joined board is that sheet's own");
    tried[CALLS_MADE] += 2 * b;
}

/* The joined sheet is accepted, and after the same events each half of its board is that sheet's own. */
static void hold_join(const struct sheet s[2], const struct table tables[2], struct part calls)
{
    static struct table whole;
    static struct round rounds[3];
    struct part joined;
    uint8_t *bytes = hold_writer(join, s, ENGINE_SHEET, is_refusal, &joined);
    size_t k;
    uint32_t event, most = s[0].events > s[1].events ? s[0].events : s[1].events;

    if (!bytes)
        return;
    fence_table(&whole);
    for (k = 0; k < 3; k++)
        fence_round(&rounds[k]);
    hold(engine_compile(bytes, joined.length, s->params, s->params_length, TABLE_OF(&whole)) == 0,
         "compile accepts a joined sheet");
    hold(engine_start(TABLE_OF(&whole), ROUND_OF(&rounds[2])) == 0 &&
             engine_start(TABLE_OF(&tables[0]), ROUND_OF(&rounds[0])) == 0 &&
             engine_start(TABLE_OF(&tables[1]), ROUND_OF(&rounds[1])) == 0,
         "rounds start");
    for (k = 0; most > 0 && k < 6 && CALL * k + 1 < calls.length; k++) {
        event = calls.bytes[CALL * k + 1] % most;
        hold(played(&whole, &rounds[2], event), "a joined sheet has the events of both");
        hold(played(&tables[0], &rounds[0], event) == (event < s[0].events) &&
                 played(&tables[1], &rounds[1], event) == (event < s[1].events),
             "each sheet has its own events");
    }
    hold_half(&whole, &rounds[2], &tables[0], &rounds[0], 0);
    hold_half(&whole, &rounds[2], &tables[1], &rounds[1], s[0].behaviours);
    tried[JOINED]++;
    free(bytes);
}

static void hold_sheet(struct sheet *s, struct part sheet, struct part params, struct table *table)
{
    s->bytes = exactly(sheet), s->length = sheet.length;
    s->params = exactly(params), s->params_length = params.length;
    hold_compile(s, table);
    hold_circle(s);
    hold_agree(s, table);
    hold_leak(s);
    sheet.bytes = s->bytes;
    hold_describe(&sheet);
}

void hold_sheets(const struct part parts[PARTS], struct table tables[2], int accepted[2])
{
    struct sheet sheets[2];
    int k;

    for (k = 0; k < 2; k++) {
        hold_sheet(&sheets[k], parts[SHEET + k], parts[PARAMS], &tables[k]);
        accepted[k] = sheets[k].number == 0;
    }
    hold_text(parts[TEXT]);
    hold_formulas(parts[TEXT]);
    hold_join(sheets, tables, parts[CALLS]);
    for (k = 0; k < 2; k++) {
        hold(sheets[k].length == 0 || memcmp(sheets[k].bytes, parts[SHEET + k].bytes, sheets[k].length) == 0,
             "no call changes a sheet");
        free(sheets[k].bytes);
        free(sheets[k].params);
    }
}
