/* Four threads on one table, each with a round of its own and all reading a fifth; and a thread of 512 KB, as iOS gives
 * one that is not the main one, which reads the formula that takes the most stack. */
#include <pthread.h>
#include <stdio.h>
#include <string.h>

#include "engine.h"

#define THREADS 4
#define ROUNDS 2000
#define SMALL_THREAD (512u * 1024u)
#define BRACKETS 511u /* and a name of two bytes: a text of 1,024 */

/* S of the scope: b0 = init 1 {0 => b0 + b1}; b1 = init 1 {0 => b0 - b1 later, 1 => 1}. */
static const uint8_t S[] = {
    0x01, 0, 1, 1, 0x01, 0, 1, 2,
    0x03, 0, 24, 0x04, 0, 4, 0, 0, 0, 1,
        0x05, 0, 14, 0, 0, 0x12, 0, 9, 4, 0x11, 0, 1, 0, 0x11, 0, 1, 1,
    0x03, 0, 36, 0x04, 0, 4, 0, 0, 0, 1,
        0x05, 0, 14, 0, 1, 0x12, 0, 9, 5, 0x11, 0, 1, 0, 0x11, 0, 1, 1,
        0x05, 0, 9, 1, 0, 0x10, 0, 4, 0, 0, 0, 1,
};

static uint8_t table[ENGINE_TABLE], shared[ENGINE_ROUND];
static int faults[THREADS];

#define TABLE table, sizeof table
#define ROUND round, sizeof round

static int32_t value(const uint8_t *round, uint32_t behaviour)
{
    return engine_board_value(engine_board(TABLE, round, ENGINE_ROUND, behaviour, ENGINE_HOST));
}

/* Event 0 three times gives (5,3); the fifth round has one event 0 in hand, which would give (2,1). */
static void *play(void *given)
{
    int *fault = (int *)given, i, e;
    uint8_t round[ENGINE_ROUND];

    for (i = 0; i < ROUNDS; i++) {
        *fault |= engine_start(TABLE, ROUND) != 0;
        for (e = 0; e < 3; e++) {
            *fault |= engine_arrive(TABLE, ROUND, 0, ENGINE_HOST) != 0;
            while (engine_step_kind(engine_step(TABLE, ROUND)) != ENGINE_IDLE)
                ;
        }
        *fault |= value(round, 0) != 5 || value(round, 1) != 3 || value(shared, 0) != 1;
        *fault |= engine_forecast_steps(engine_forecast(TABLE, shared, sizeof shared)) != 18;
        *fault |= engine_board_value(engine_preview(TABLE, shared, sizeof shared, 1, 0, ENGINE_HOST)) != 2;
    }
    return NULL;
}

/* A name in as many brackets as a text may have. */
static void *read_formula(void *given)
{
    static uint8_t text[ENGINE_TEXT], field[ENGINE_FIELD];
    int *fault = (int *)given;

    memset(text, '(', BRACKETS);
    text[BRACKETS] = 'b';
    text[BRACKETS + 1] = '0';
    memset(text + BRACKETS + 2, ')', BRACKETS);
    *fault = engine_formula_refused(engine_formula(text, sizeof text, field, sizeof field));
    return NULL;
}

static int small_thread(void)
{
    pthread_attr_t attributes;
    pthread_t thread;
    int fault = 1;

    if (pthread_attr_init(&attributes) != 0 || pthread_attr_setstacksize(&attributes, SMALL_THREAD) != 0
        || pthread_create(&thread, &attributes, read_formula, &fault) != 0)
        return 1;
    pthread_join(thread, NULL);
    return fault;
}

int main(void)
{
    pthread_t threads[THREADS];
    int i, sum = 0;

    sum += engine_compile(S, sizeof S, NULL, 0, TABLE) != 0 || engine_start(TABLE, shared, sizeof shared) != 0
        || engine_arrive(TABLE, shared, sizeof shared, 0, ENGINE_HOST) != 0;
    for (i = 0; i < THREADS; i++)
        sum += pthread_create(&threads[i], NULL, play, &faults[i]) != 0;
    for (i = 0; i < THREADS; i++) {
        pthread_join(threads[i], NULL);
        sum += faults[i];
    }
    sum += small_thread();
    puts(sum ? "threads: faults" : "threads: four at once, all as alone; the deepest formula in one of 512 KB");
    return sum != 0;
}
