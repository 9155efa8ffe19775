/* Matches as two phones play them: phones FILE... Each file has sheets, an order of deliveries and changes of sheets, and
 * the board at its end (tests/second, phones.rs, writes them). Two threads play it with different numbers of steps a
 * frame and must both end with that board. With -DPLANTED the host hands events in by engine_arrive and drops refusals,
 * and the program succeeds where that is noticed. */
#include <pthread.h>
#include <stdio.h>
#include <stdlib.h>
#include <string.h>

#include "engine.h"

enum { FAST = 500, SLOW = 7, BURST = 90, MOST_SHEETS = 8, ENTRY = 0 };

struct match {
    uint8_t tables[MOST_SHEETS][ENGINE_TABLE];
    uint32_t turn_count;
    const uint8_t *turns; /* kind, then event and player or the number of a sheet: four bytes each */
    uint32_t values;
    const uint8_t *board;
};

struct phone {
    const struct match *match;
    uint32_t pace;
    uint8_t round[ENGINE_ROUND];
    uint8_t commits[FAST * ENGINE_ANSWER];
    int equal;
};

static void fail(const char *what)
{
    fprintf(stderr, "phones: %s\n", what);
    exit(2);
}

static uint32_t take(const uint8_t **at)
{
    const uint8_t *b = *at;
    *at += 4;
    return (uint32_t)b[0] << 24 | (uint32_t)b[1] << 16 | (uint32_t)b[2] << 8 | b[3];
}

static void read_match(struct match *m, const uint8_t *at)
{
    uint32_t count = take(&at), k;
    if (count > MOST_SHEETS)
        fail("too many sheets");
    for (k = 0; k < count; k++) {
        const uint8_t *params = at;
        uint32_t length;
        at += ENGINE_PARAMS;
        length = take(&at);
        if (engine_compile(at, length, params, ENGINE_PARAMS, m->tables[k], ENGINE_TABLE) != 0)
            fail("a sheet is refused");
        at += length;
    }
    m->turn_count = take(&at);
    m->turns = at;
    at += (size_t)m->turn_count * 12;
    m->values = take(&at);
    m->board = at;
}

static void run_to_idle(struct phone *p, const uint8_t *table)
{
    uint64_t answer;
    do
        answer = engine_frame(table, ENGINE_TABLE, p->round, ENGINE_ROUND, FAST, p->commits, sizeof p->commits);
    while (engine_frame_end(answer) == ENGINE_FRAME_MADE || engine_frame_end(answer) == ENGINE_FRAME_FULL);
    if (engine_frame_end(answer) != ENGINE_FRAME_IDLE)
        fail("a frame is refused");
}

/* Whether the entry was taken in. */
static int hand_in(struct phone *p, const uint8_t *table, uint32_t number, uint32_t event, uint32_t player)
{
#ifdef PLANTED
    (void)number;
    return engine_arrive(table, ENGINE_TABLE, p->round, ENGINE_ROUND, event, player) == 0;
#else
    uint64_t answer = engine_deliver(table, ENGINE_TABLE, p->round, ENGINE_ROUND, number, event, player, p->commits,
                                     sizeof p->commits);
    uint32_t refusal = engine_deliver_refusal(answer);
    if (refusal != 0 && refusal != ENGINE_NO_SUCH_EVENT && refusal != ENGINE_NO_RIGHT)
        fail("a delivery is refused");
    return engine_deliver_end(answer) == ENGINE_DELIVERED;
#endif
}

static void *play(void *own)
{
    struct phone *p = own;
    const struct match *m = p->match;
    const uint8_t *table = m->tables[0], *at = m->turns;
    uint32_t number = 0, k;
    if (engine_start(table, ENGINE_TABLE, p->round, ENGINE_ROUND) != 0)
        fail("a table is refused");
    for (k = 0; k < m->turn_count; k++) {
        uint32_t kind = take(&at), a = take(&at), b = take(&at);
        if (kind == ENTRY) {
            number += (uint32_t)hand_in(p, table, number, a, b);
        } else {
            run_to_idle(p, table);
            if (engine_mend(table, ENGINE_TABLE, m->tables[a], ENGINE_TABLE, p->round, ENGINE_ROUND) != 0)
                fail("a change is refused");
            table = m->tables[a];
        }
        if (p->pace == FAST || k % BURST == 0)
            engine_frame(table, ENGINE_TABLE, p->round, ENGINE_ROUND, p->pace, p->commits, sizeof p->commits);
    }
    run_to_idle(p, table);
    p->equal = 1;
    at = m->board;
    for (k = 0; k < m->values; k++)
        if (engine_board(table, ENGINE_TABLE, p->round, ENGINE_ROUND, k, ENGINE_HOST) != (UINT64_C(1) << 32) + take(&at))
            p->equal = 0;
    return NULL;
}

/* Whether both phones end with the board of the file. */
static int agree(const struct match *m)
{
    static struct phone phones[2];
    pthread_t threads[2];
    int k;
    for (k = 0; k < 2; k++) {
        phones[k].match = m;
        phones[k].pace = k == 0 ? FAST : SLOW;
        if (pthread_create(&threads[k], NULL, play, &phones[k]) != 0)
            fail("no thread");
    }
    for (k = 0; k < 2; k++)
        pthread_join(threads[k], NULL);
    return phones[0].equal && phones[1].equal;
}

int main(int argc, char **argv)
{
    static struct match m;
    int k, apart = 0;
    for (k = 1; k < argc; k++) {
        FILE *f = fopen(argv[k], "rb");
        static uint8_t bytes[1 << 20];
        if (f == NULL || fread(bytes, 1, sizeof bytes, f) == 0)
            fail("a match cannot be read");
        fclose(f);
        read_match(&m, bytes);
        apart += !agree(&m);
    }
#ifdef PLANTED
    printf("%d of %d matches: a host that drops refusals is noticed\n", apart, argc - 1);
    return apart == 0;
#else
    printf("%d matches by two phones in C: %d apart\n", argc - 1, apart);
    return apart != 0;
#endif
}
