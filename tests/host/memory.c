/* The host where memory runs out, and where a refused change is tried again: memory SCRATCH. Linked so that realloc can
 * be made to fail. A call that answers that there is no memory has left the round as it was, every other is in the
 * record, and a sheet that is tried many times is kept once. */
#include <stdio.h>
#include <stdlib.h>
#include <string.h>

#include "app/match.h"

static const uint8_t no_params[ENGINE_PARAMS] = {0};
static int failing;
static unsigned failed, faults;

void *__real_realloc(void *old, size_t size);
void *__wrap_realloc(void *old, size_t size);

void *__wrap_realloc(void *old, size_t size)
{
    if (failing) {
        failed++;
        return NULL;
    }
    return __real_realloc(old, size);
}

static void expect(int ok, const char *what)
{
    if (!ok) {
        printf("memory: %s\n", what);
        faults++;
    }
}

static void count(void *app, uint64_t answer)
{
    (void)answer;
    ++*(unsigned *)app;
}

/* A behaviour with this start, and an event that raises it, where there is one. */
static void sheet_of(struct sheet *s, int events, int32_t start)
{
    static const struct handler up[] = {{0, 0, "b0 + 1"}};

    sheet_begin(s);
    if (events)
        sheet_event(s, 1, EVERYBODY);
    sheet_active(s, start, up, events ? 1 : 0, EVERYBODY);
}

static uint32_t taken(const struct match *m)
{
    return engine_taken_number(engine_taken(m->table, sizeof m->table, m->round, sizeof m->round));
}

/* The next entry of the order. */
static uint32_t deliver(struct match *m, unsigned *commits)
{
    return match_deliver(m, taken(m), 0, 1, count, commits);
}

/* A call: a delivery, a board reading, a frame or a change of sheets. */
static uint32_t call(struct match *m, unsigned kind, const struct sheet *other, unsigned *commits)
{
    int32_t value;
    int idle;

    switch (kind) {
    case 0: return deliver(m, commits);
    case 1: return match_read(m, 0, 1, &value);
    case 2: return match_frame(m, 100, count, commits, &idle);
    default: return match_mend(m, taken(m), other, no_params, count, commits);
    }
}

/* Calls of each kind, first without memory for a longer record. */
static void memory_runs_out(struct match *m, const struct sheet *other)
{
    static struct match before;
    unsigned commits = 0, told, k;
    uint32_t answer;

    for (k = 0; k < 200; k++) {
        before = *m;
        told = commits;
        failing = 1;
        answer = call(m, k % 4, other, &commits);
        failing = 0;
        if (answer == MATCH_NO_MEMORY) {
            expect(memcmp(m->round, before.round, sizeof m->round) == 0, "no memory is told of a call that was made");
            expect(m->asked.len == before.asked.len && commits == told, "a call that was not made is recorded or told");
            expect(m->in_force == before.in_force, "a change that was not made is in force");
            answer = call(m, k % 4, other, &commits);
        }
        expect(answer == 0, "a call fails though there is memory");
    }
    expect(failed > 3, "memory did not run out");
    expect(match_audit(m) == 0, "the record does not have every call");
}

/* A change whose place is not reached yet is refused and tried again in each frame; at its place it is made on an idle
 * round, though the event in hand is not in the other sheet. */
static void tried_again(struct match *m, const struct sheet *other, const char *path)
{
    static struct match before;
    size_t sheets = m->count;
    unsigned commits = 0, k;

    expect(deliver(m, &commits) == 0, "an event is delivered");
    before = *m;
    for (k = 0; k < 50; k++)
        expect(match_mend(m, taken(m) + 1, other, no_params, count, &commits) == ENGINE_MISSING_ENTRIES,
               "the entry before it is missing");
    expect(match_mend(m, taken(m) - 1, other, no_params, count, &commits) == ENGINE_TAKEN_BEFORE,
           "its place is passed");
    expect(memcmp(m->round, before.round, sizeof m->round) == 0 && commits == 0, "what is not made does nothing");
    expect(m->count == sheets + 1, "a sheet is kept once, however often it is tried");
    expect(match_mend(m, taken(m), other, no_params, count, &commits) == 0 && commits == 1, "at its place it is made");
    expect(m->count == sheets + 1, "and its sheet is the one that is kept");
    expect(match_save(m, path) == 0, "it is saved");
    match_close(m);
    expect(match_load(m, path) == 0 && m->count == sheets + 1 && m->in_force == sheets, "and gone on with");
}

int main(int argc, char **argv)
{
    static struct sheet first, second, without;
    static struct match m;

    if (argc < 2)
        return 2;
    sheet_of(&first, 1, 0);
    sheet_of(&second, 1, 5);
    sheet_of(&without, 0, 7);
    expect(match_open(&m, &first, no_params) == 0, "a match");
    memory_runs_out(&m, &second);
    tried_again(&m, &without, argv[1]);
    match_close(&m);
    return faults != 0;
}
