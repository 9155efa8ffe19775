/* Times of the engine beside an archive of an earlier commit, in one process and in turn: old SHEETS RUNS. The calls of
 * the earlier archive are linked as old_ (tests/bench/run renames them); SHEETS is a folder that `second sheets` wrote.
 * What is printed are lines of words between tabs: old CALL INPUT NOW BEFORE RATIO, times in nanoseconds, each
 * `least/median/greatest`, the ratio of two times taken one after the other and then of the least ones. Both must
 * answer alike. */
#define _POSIX_C_SOURCE 200112L
#include <stdio.h>
#include <stdlib.h>
#include <string.h>
#include <time.h>

#include "engine.h"

uint32_t old_compile(const uint8_t *, size_t, const uint8_t *, size_t, uint8_t *, size_t);
uint64_t old_circle(const uint8_t *, size_t, const uint8_t *, size_t, uint8_t *, size_t);
uint32_t old_start(const uint8_t *, size_t, uint8_t *, size_t);
uint32_t old_arrive(const uint8_t *, size_t, uint8_t *, size_t, uint32_t, uint32_t);
uint64_t old_preview(const uint8_t *, size_t, const uint8_t *, size_t, uint32_t, uint32_t, uint32_t);

enum { IN_HAND = 63, MOST_RUNS = 101, ENGINES = 2 };
static const double span = 1.5e6; /* nanoseconds of a run where the call is shorter */

/* One engine's own bytes. */
static struct bytes {
    uint8_t table[ENGINE_TABLE], round[ENGINE_ROUND], list[ENGINE_CIRCLE_LIST];
} of[ENGINES];
static uint8_t sheet[ENGINE_SHEET];
static const uint8_t params[ENGINE_PARAMS];
static size_t sheet_len;

#define SHEET sheet, sheet_len, params, sizeof params
#define TABLE of[k].table, sizeof of[k].table
#define ROUND of[k].round, sizeof of[k].round
#define LIST of[k].list, sizeof of[k].list

/* k is 0 for the engine as it is, 1 for the earlier one. */
static uint64_t compile(int k) { return k ? old_compile(SHEET, TABLE) : engine_compile(SHEET, TABLE); }

static uint64_t circle(int k) { return k ? old_circle(SHEET, LIST) : engine_circle(SHEET, LIST); }

static uint64_t preview(int k)
{
    return k ? old_preview(TABLE, ROUND, 0, 0, 0) : engine_preview(TABLE, ROUND, 0, 0, 0);
}

static void fill_hand(int k)
{
    int i;

    compile(k);
    if (k)
        old_start(TABLE, ROUND);
    else
        engine_start(TABLE, ROUND);
    for (i = 0; i < IN_HAND; i++)
        if (k)
            old_arrive(TABLE, ROUND, 0, 0);
        else
            engine_arrive(TABLE, ROUND, 0, 0);
}

static double now(void)
{
    struct timespec t;

    clock_gettime(CLOCK_PROCESS_CPUTIME_ID, &t);
    return (double)t.tv_sec * 1e9 + (double)t.tv_nsec;
}

static double timed(uint64_t (*call)(int), int k, long reps)
{
    double from = now();
    volatile uint64_t sink = 0;
    long i;

    for (i = 0; i < reps; i++)
        sink += call(k);
    return (now() - from) / (double)reps;
}

static int by_size(const void *a, const void *b)
{
    double x = *(const double *)a, y = *(const double *)b;

    return x < y ? -1 : x > y;
}

static void print_spread(double *times, int n)
{
    qsort(times, (size_t)n, sizeof *times, by_size);
    printf("\t%.6g/%.6g/%.6g", times[0], times[n / 2], times[n - 1]);
}

static void row(const char *name, const char *input, uint64_t (*call)(int), int runs)
{
    double times[ENGINES][MOST_RUNS], ratio[MOST_RUNS];
    long reps[ENGINES];
    int k, i;

    if ((call(0) & 255) != (call(1) & 255)) {
        fprintf(stderr, "%s, %s: the engines differ\n", name, input);
        exit(1);
    }
    for (k = 0; k < ENGINES; k++) {
        reps[k] = (long)(span / timed(call, k, 1));
        reps[k] = reps[k] < 1 ? 1 : reps[k];
    }
    for (i = 0; i < runs; i++) {
        for (k = 0; k < ENGINES; k++)
            times[k][i] = timed(call, k, reps[k]);
        ratio[i] = times[0][i] / times[1][i];
    }
    printf("old\t%s\t%s", name, input);
    for (k = 0; k < ENGINES; k++)
        print_spread(times[k], runs);
    print_spread(ratio, runs);
    printf("/%.4g\n", times[0][0] / times[1][0]);
    fputc('.', stderr);
}

static void read_sheet(const char *folder, const char *name)
{
    char path[4096];
    FILE *file;

    snprintf(path, sizeof path, "%s/%s", folder, name);
    file = fopen(path, "rb");
    if (!file) {
        perror(path);
        exit(1);
    }
    sheet_len = fread(sheet, 1, sizeof sheet, file);
    fclose(file);
}

int main(int argc, char **argv)
{
    int runs = argc > 2 ? atoi(argv[2]) : 15;

    if (argc < 2 || runs < 1 || runs > MOST_RUNS) {
        fprintf(stderr, "old SHEETS RUNS: at most %d runs\n", MOST_RUNS);
        return 2;
    }
    read_sheet(argv[1], "game");
    fill_hand(0);
    fill_hand(1);
    row("preview", "a game, 63 in hand", preview, runs);
    read_sheet(argv[1], "longest");
    fill_hand(0);
    fill_hand(1);
    row("preview", "63 in hand, an event of 4,042 instructions", preview, runs);
    read_sheet(argv[1], "backward");
    row("compile", "12 events, 64 actives in a backward chain", compile, runs);
    read_sheet(argv[1], "ring");
    row("circle", "a ring of 64 under 32 events", circle, runs);
    fputc('\n', stderr);
    return 0;
}
