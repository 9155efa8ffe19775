#include "match.h"

#include <stdio.h>
#include <stdlib.h>
#include <string.h>

#define COMMITS 64u    /* told of in one frame call; further ones come with the next */
#define TO_IDLE 300000u /* steps: more than the (64 + 1) x (4,096 + 1) that a hand takes at most */
#define ASKED 17u      /* bytes of the longest call in the record, but for a frame's commits */
#define SHEETS 65535   /* of a match, at most: files count them in two bytes */

const char *match_word(uint32_t number)
{
    switch (number) {
    case MATCH_NO_MEMORY: return "no memory";
    case MATCH_FILE: return "the file is not read or written";
    case MATCH_OTHER_VERSION: return "of another version";
    case MATCH_DIFFERS: return "the record comes to something else";
    case MATCH_SHEETS: return "no further sheet";
    case MATCH_OTHER_PROGRAM: return "another program";
    default: return engine_refusal_word(number);
    }
}

/* ---- bytes */

/* Room for so many bytes more; 0 where there is no memory. */
static int reserve(struct log *l, size_t bytes)
{
    size_t room = 2 * l->room + bytes + 64;
    uint8_t *grown;

    if (l->room - l->len >= bytes)
        return 1;
    grown = (uint8_t *)realloc(l->bytes, room);
    if (!grown)
        return 0;
    l->bytes = grown;
    l->room = room;
    return 1;
}

/* Appends a big-endian number of so many bytes; 0 where there is no memory. */
static int put(struct log *l, uint64_t number, size_t bytes)
{
    if (!reserve(l, bytes))
        return 0;
    while (bytes-- > 0)
        l->bytes[l->len++] = (uint8_t)(number >> 8 * bytes);
    return 1;
}

static int put_all(struct log *l, const uint8_t *bytes, size_t n)
{
    size_t i;

    for (i = 0; i < n; i++)
        if (!put(l, bytes[i], 1))
            return 0;
    return 1;
}

/* What is left to be read. */
struct reader {
    const uint8_t *at;
    size_t left;
    int torn; /* more was asked for than there is */
};

static const uint8_t *take(struct reader *r, size_t n)
{
    const uint8_t *at = r->at;

    if (n > r->left) {
        r->torn = 1;
        return NULL;
    }
    r->at += n;
    r->left -= n;
    return at;
}

static uint64_t get(struct reader *r, size_t bytes)
{
    const uint8_t *at = take(r, bytes);
    uint64_t number = 0;

    while (at && bytes-- > 0)
        number = number << 8 | *at++;
    return number;
}

/* ---- the record: a call's kind, what it was asked with, its answer */

/* There is room in the record before the engine is asked, so that what it has done is always kept. Where there is none
 * the engine is not asked: a move that is told to be refused was not taken in. */
enum { ASKED_ARRIVE = 0, ASKED_BOARD = 2, ASKED_MEND = 5, ASKED_FRAME = 6 };

/* An arrival, a board reading or a frame. */
static void record(struct match *m, unsigned kind, uint32_t first, uint32_t second, uint64_t answer)
{
    struct log *l = &m->asked;

    (void)(put(l, kind, 1) && put(l, first, 4) && put(l, second, 4) && put(l, answer, 8));
}

static void record_mend(struct match *m, size_t which, uint32_t answer)
{
    struct log *l = &m->asked;

    (void)(put(l, ASKED_MEND, 1) && put(l, which, 2) && put(l, answer, 8));
}

static uint32_t add_sheet(struct match *m, const struct sheet *sheet, const uint8_t params[ENGINE_PARAMS])
{
    struct played *sheets;

    if (m->count == SHEETS)
        return MATCH_SHEETS;
    sheets = (struct played *)realloc(m->sheets, (m->count + 1) * sizeof *sheets);
    if (!sheets)
        return MATCH_NO_MEMORY;
    m->sheets = sheets;
    sheets[m->count].sheet = *sheet;
    memcpy(sheets[m->count].params, params, ENGINE_PARAMS);
    m->count++;
    return 0;
}

static int same_sheet(const struct played *p, const struct sheet *sheet, const uint8_t params[ENGINE_PARAMS])
{
    return p->sheet.len == sheet->len && memcmp(p->sheet.bytes, sheet->bytes, sheet->len) == 0
        && memcmp(p->params, params, ENGINE_PARAMS) == 0;
}

/* A sheet's number; one that the match does not have yet is added. So a change that is tried again in each frame until
 * it is made adds its sheet once. */
static uint32_t find_sheet(struct match *m, const struct sheet *sheet, const uint8_t params[ENGINE_PARAMS],
                           size_t *which)
{
    for (*which = 0; *which < m->count; ++*which)
        if (same_sheet(m->sheets + *which, sheet, params))
            return 0;
    return add_sheet(m, sheet, params);
}

/* ---- playing */

static void empty(struct match *m)
{
    m->sheets = NULL;
    m->count = m->in_force = 0;
    m->asked.bytes = NULL;
    m->asked.len = m->asked.room = 0;
}

static uint32_t compiled(const struct sheet *s, const uint8_t params[ENGINE_PARAMS], uint8_t table[ENGINE_TABLE])
{
    if (s->refusal)
        return s->refusal;
    return engine_compile(s->bytes, s->len, params, ENGINE_PARAMS, table, ENGINE_TABLE);
}

uint32_t match_open(struct match *m, const struct sheet *sheet, const uint8_t params[ENGINE_PARAMS])
{
    uint32_t refusal;

    empty(m);
    refusal = compiled(sheet, params, m->table);
    if (refusal == 0)
        refusal = engine_start(m->table, sizeof m->table, m->round, sizeof m->round);
    return refusal ? refusal : add_sheet(m, sheet, params);
}

void match_close(struct match *m)
{
    free(m->sheets);
    free(m->asked.bytes);
    empty(m);
}

void match_greet(const struct match *m, uint8_t greeting[MATCH_GREETING])
{
    uint32_t version = engine_version(), k;

    for (k = 0; k < 4; k++)
        greeting[k] = (uint8_t)(version >> (24 - 8 * k));
    memcpy(greeting + 4, m->table, ENGINE_TABLE);
}

uint32_t match_meets(const struct match *m, const uint8_t greeting[MATCH_GREETING])
{
    struct reader r = {greeting, MATCH_GREETING, 0};

    if (get(&r, 4) != engine_version())
        return MATCH_OTHER_VERSION;
    return engine_same_table(m->table, r.at) ? 0 : (uint32_t)MATCH_OTHER_PROGRAM;
}

/* A delivery is recorded as what it is: a frame of the steps that made room, and the arrival. One that is refused did
 * nothing and is not recorded. */
uint32_t match_deliver(struct match *m, uint32_t number, uint32_t event, uint32_t player,
                       void (*commit)(void *app, uint64_t answer), void *app)
{
    uint8_t made[ENGINE_ANSWER];
    uint64_t d;

    if (!reserve(&m->asked, 2 * ASKED + sizeof made))
        return MATCH_NO_MEMORY;
    d = engine_deliver(m->table, sizeof m->table, m->round, sizeof m->round, number, event, player, made, sizeof made);
    if (engine_deliver_end(d) != ENGINE_DELIVERED)
        return engine_deliver_end(d) == ENGINE_DELIVER_BROKEN ? (uint32_t)ENGINE_FOREIGN : engine_deliver_refusal(d);
    if (engine_deliver_commits(d) > 0) {
        record(m, ASKED_FRAME, engine_deliver_steps(d), COMMITS, UINT64_C(1) << 32 | engine_deliver_steps(d));
        put_all(&m->asked, made, sizeof made);
        commit(app, engine_answer_get(made, 0));
    }
    record(m, ASKED_ARRIVE, event, player, 0);
    return 0;
}

uint32_t match_read(struct match *m, uint32_t behaviour, uint32_t player, int32_t *value)
{
    uint64_t answer;

    if (!reserve(&m->asked, ASKED))
        return MATCH_NO_MEMORY;
    answer = engine_board(m->table, sizeof m->table, m->round, sizeof m->round, behaviour, player);
    record(m, ASKED_BOARD, behaviour, player, answer);
    if (engine_board_refused(answer))
        return engine_board_refusal(answer);
    *value = engine_board_value(answer);
    return 0;
}

uint32_t match_frame(struct match *m, uint32_t steps, void (*commit)(void *app, uint64_t answer), void *app, int *idle)
{
    uint8_t commits[COMMITS * ENGINE_ANSWER];
    uint32_t k;
    uint64_t f;

    *idle = 0;
    do {
        if (!reserve(&m->asked, ASKED + sizeof commits))
            return MATCH_NO_MEMORY;
        f = engine_frame(m->table, sizeof m->table, m->round, sizeof m->round, steps, commits, sizeof commits);
        record(m, ASKED_FRAME, steps, COMMITS, f);
        put_all(&m->asked, commits, engine_frame_commits(f) * ENGINE_ANSWER);
        for (k = 0; k < engine_frame_commits(f); k++)
            commit(app, engine_answer_get(commits, k));
        steps -= engine_frame_steps(f);
    } while (engine_frame_end(f) == ENGINE_FRAME_FULL);
    *idle = engine_frame_end(f) == ENGINE_FRAME_IDLE;
    return engine_frame_end(f) == ENGINE_FRAME_REFUSED ? (uint32_t)ENGINE_FOREIGN : 0;
}

/* ---- at a place of the order */

/* Exactly so many entries are taken in, and the round is run to idle. A hand commits at most COMMITS times, so that two
 * frames do: there is room for both in the record, and for one call after them, before the first is made. */
static uint32_t settle(struct match *m, uint32_t number, void (*commit)(void *app, uint64_t answer), void *app)
{
    uint64_t taken = engine_taken(m->table, sizeof m->table, m->round, sizeof m->round);
    uint32_t refusal = 0;
    int idle = 0;

    if (engine_taken_refused(taken))
        return engine_taken_refusal(taken);
    if (engine_taken_number(taken) != number)
        return engine_taken_number(taken) < number ? (uint32_t)ENGINE_MISSING_ENTRIES : (uint32_t)ENGINE_TAKEN_BEFORE;
    if (!reserve(&m->asked, 3 * ASKED + 3 * COMMITS * ENGINE_ANSWER))
        return MATCH_NO_MEMORY;
    while (refusal == 0 && !idle)
        refusal = match_frame(m, TO_IDLE, commit, app, &idle);
    return refusal;
}

uint32_t match_board_after(struct match *m, uint32_t number, uint32_t player, struct shown *board,
                           void (*commit)(void *app, uint64_t answer), void *app)
{
    uint32_t refusal = settle(m, number, commit, app), i;

    board->count = engine_count_value(engine_behaviour_count(m->table, sizeof m->table));
    for (i = 0; i < board->count && refusal == 0; i++) {
        refusal = match_read(m, i, player, board->values + i);
        board->hidden[i] = refusal == ENGINE_NO_RIGHT;
        if (board->hidden[i])
            refusal = 0;
    }
    return refusal;
}

/* The round goes on under another of the match's sheets, if the engine lets it. */
static uint32_t change(struct match *m, const uint8_t *table, size_t which)
{
    uint32_t refusal;

    if (!reserve(&m->asked, ASKED))
        return MATCH_NO_MEMORY;
    refusal = engine_mend(m->table, sizeof m->table, table, ENGINE_TABLE, m->round, sizeof m->round);
    record_mend(m, which, refusal);
    if (refusal)
        return refusal;
    memcpy(m->table, table, sizeof m->table);
    m->in_force = which;
    return 0;
}

uint32_t match_mend(struct match *m, uint32_t number, const struct sheet *sheet, const uint8_t params[ENGINE_PARAMS],
                    void (*commit)(void *app, uint64_t answer), void *app)
{
    uint8_t *table = (uint8_t *)malloc(ENGINE_TABLE);
    uint32_t refusal = table ? compiled(sheet, params, table) : (uint32_t)MATCH_NO_MEMORY;
    size_t which = 0;

    if (refusal == 0)
        refusal = find_sheet(m, sheet, params, &which);
    if (refusal == 0)
        refusal = settle(m, number, commit, app);
    if (refusal == 0)
        refusal = change(m, table, which);
    free(table);
    return refusal;
}

/* ---- the audit */

struct audit {
    const struct match *m;
    struct reader asked;
    uint8_t table[ENGINE_TABLE], other[ENGINE_TABLE], round[ENGINE_ROUND];
};

/* A frame's commits must be those that stand behind its answer. */
static int same_frame(struct audit *a, uint32_t steps, uint32_t room, uint64_t answer)
{
    uint8_t commits[COMMITS * ENGINE_ANSWER];
    size_t n = engine_frame_commits(answer) * ENGINE_ANSWER;
    const uint8_t *told = take(&a->asked, n);

    return room == COMMITS && told && n <= sizeof commits
        && engine_frame(a->table, sizeof a->table, a->round, sizeof a->round, steps, commits, sizeof commits) == answer
        && memcmp(told, commits, n) == 0;
}

static int same_mend(struct audit *a, size_t which, uint64_t answer)
{
    const struct played *p = a->m->sheets + which;

    if (which >= a->m->count || compiled(&p->sheet, p->params, a->other) != 0
        || engine_mend(a->table, sizeof a->table, a->other, sizeof a->other, a->round, sizeof a->round) != answer)
        return 0;
    if (answer == 0)
        memcpy(a->table, a->other, sizeof a->table);
    return 1;
}

/* Asks the next call of the record again. */
static int same_call(struct audit *a)
{
    uint64_t kind = get(&a->asked, 1), first = get(&a->asked, kind == ASKED_MEND ? 2 : 4);
    uint32_t number = (uint32_t)first, player = kind == ASKED_MEND ? 0 : (uint32_t)get(&a->asked, 4);
    uint64_t answer = get(&a->asked, 8);

    if (a->asked.torn)
        return 0;
    switch (kind) {
    case ASKED_ARRIVE:
        return engine_arrive(a->table, sizeof a->table, a->round, sizeof a->round, number, player) == answer;
    case ASKED_BOARD:
        return engine_board(a->table, sizeof a->table, a->round, sizeof a->round, number, player) == answer;
    case ASKED_FRAME: return same_frame(a, number, player, answer);
    case ASKED_MEND: return same_mend(a, number, answer);
    default: return 0;
    }
}

uint32_t match_audit(const struct match *m)
{
    struct audit *a = (struct audit *)malloc(sizeof *a);
    uint32_t result = MATCH_NO_MEMORY;

    if (a) {
        a->m = m;
        a->asked.at = m->asked.bytes;
        a->asked.left = m->asked.len;
        a->asked.torn = 0;
        result = compiled(&m->sheets[0].sheet, m->sheets[0].params, a->table);
        if (result == 0)
            result = engine_start(a->table, sizeof a->table, a->round, sizeof a->round);
        while (result == 0 && a->asked.left > 0)
            if (!same_call(a))
                result = MATCH_DIFFERS;
        if (result == 0 && (memcmp(a->round, m->round, sizeof m->round) || memcmp(a->table, m->table, sizeof m->table)))
            result = MATCH_DIFFERS;
    }
    free(a);
    return result;
}

/* ---- files */

#define VERSION (ENGINE_VERSION << 16 | ENGINE_LAYOUT)

/* The sheets and the calls, as the league's format has them. */
static int put_record(struct log *l, const struct match *m)
{
    size_t k;
    int ok = put(l, m->count, 2);

    for (k = 0; k < m->count && ok; k++) {
        const struct played *p = m->sheets + k;

        ok = put(l, 1, 1) && put_all(l, p->params, sizeof p->params) && put(l, p->sheet.len, 4)
            && put_all(l, p->sheet.bytes, p->sheet.len);
    }
    return ok && put_all(l, m->asked.bytes, m->asked.len);
}

static uint32_t write_file(const char *path, const struct log *l)
{
    FILE *f = fopen(path, "wb");
    int ok = f && fwrite(l->bytes, 1, l->len, f) == l->len;

    if (f && fclose(f) != 0)
        ok = 0;
    return ok ? 0 : (uint32_t)MATCH_FILE;
}

/* The app's own file: a version, the round, which sheet is in force, the record. */
uint32_t match_save(const struct match *m, const char *path)
{
    struct log l = {NULL, 0, 0};
    uint32_t result = MATCH_NO_MEMORY;

    if (put(&l, VERSION, 4) && put_all(&l, m->round, sizeof m->round) && put(&l, m->in_force, 2) && put_record(&l, m))
        result = write_file(path, &l);
    free(l.bytes);
    return result;
}

static int get_sheet(struct reader *r, struct match *m)
{
    struct sheet s;
    const uint8_t *params, *bytes;

    sheet_begin(&s);
    if (get(r, 1) != 1)
        return 0;
    params = take(r, ENGINE_PARAMS);
    s.len = (size_t)get(r, 4);
    if (!params || s.len > sizeof s.bytes || !(bytes = take(r, s.len)))
        return 0;
    memcpy(s.bytes, bytes, s.len);
    return add_sheet(m, &s, params) == 0;
}

/* The match in a file's bytes, with the table of the sheet in force. */
static uint32_t parse(struct reader *r, struct match *m)
{
    uint64_t version = get(r, 4), count;
    const uint8_t *round = take(r, ENGINE_ROUND);
    const struct played *p;

    if (!round || version != VERSION)
        return round ? (uint32_t)MATCH_OTHER_VERSION : (uint32_t)MATCH_FILE;
    memcpy(m->round, round, ENGINE_ROUND);
    m->in_force = (size_t)get(r, 2);
    for (count = get(r, 2); count > 0; count--)
        if (!get_sheet(r, m))
            return MATCH_FILE;
    if (m->in_force >= m->count || !put_all(&m->asked, r->at, r->left))
        return MATCH_FILE;
    p = m->sheets + m->in_force;
    return compiled(&p->sheet, p->params, m->table);
}

static uint8_t *read_file(const char *path, size_t *n)
{
    FILE *f = fopen(path, "rb");
    uint8_t *bytes = NULL;
    long size = -1;

    if (f && fseek(f, 0, SEEK_END) == 0 && (size = ftell(f)) > 0 && fseek(f, 0, SEEK_SET) == 0)
        bytes = (uint8_t *)malloc((size_t)size);
    if (bytes && fread(bytes, 1, (size_t)size, f) != (size_t)size) {
        free(bytes);
        bytes = NULL;
    }
    if (f)
        fclose(f);
    *n = bytes ? (size_t)size : 0;
    return bytes;
}

/* Anybody may have changed the file, so what it says is held to its record. */
uint32_t match_load(struct match *m, const char *path)
{
    struct reader r = {NULL, 0, 0};
    uint8_t *bytes = read_file(path, &r.left);
    uint32_t result = MATCH_FILE;

    empty(m);
    if (bytes) {
        r.at = bytes;
        result = parse(&r, m);
    }
    free(bytes);
    return result ? result : match_audit(m);
}

/* CRC-32 as zip and PNG have it. */
static uint32_t sum(const uint8_t *bytes, size_t n)
{
    uint32_t s = 0xFFFFFFFF;
    int bit;

    while (n-- > 0)
        for (s ^= *bytes++, bit = 0; bit < 8; bit++)
            s = s >> 1 ^ (s & 1 ? 0xEDB88320 : 0);
    return ~s;
}

uint32_t match_export(const struct match *m, const char *name, const char *path)
{
    static const char top[] = "engine rounds 1\n";
    struct log l = {NULL, 0, 0}, body = {NULL, 0, 0};
    size_t n = strlen(name);
    uint32_t result = MATCH_NO_MEMORY;

    if (put(&body, VERSION, 4) && put(&body, n, 2) && put_all(&body, (const uint8_t *)name, n) && put_record(&body, m)
        && put_all(&l, (const uint8_t *)top, sizeof top - 1) && put(&l, 0xF5524E44, 4) && put(&l, body.len, 4)
        && put(&l, sum(body.bytes, body.len), 4) && put(&l, sum(l.bytes + sizeof top - 1, 12), 4)
        && put_all(&l, body.bytes, body.len))
        result = write_file(path, &l);
    free(l.bytes);
    free(body.bytes);
    return result;
}
