/* A winner has a place in the order: two phones of different speed that look for one whenever they are idle name two;
 * read after the same number of entries, they name one. 90 points each, 10 for a hit, 100 wins: docs/HOST.md's race. */
#include <stdio.h>
#include <string.h>

#include "app/match.h"

static const uint8_t no_params[ENGINE_PARAMS] = {0};
static int faults;

static void expect(int holds, const char *what)
{
    if (!holds) {
        printf("race: not so: %s\n", what);
        faults++;
    }
}

static void count(void *app, uint64_t answer)
{
    (void)answer;
    (*(unsigned *)app)++;
}

static void race(struct sheet *s)
{
    static const struct handler first[] = {{0, 0, "b0 + 10"}}, second[] = {{1, 0, "b1 + 10"}};

    sheet_begin(s);
    sheet_event(s, 1, EVERYBODY);
    sheet_event(s, 1, EVERYBODY);
    sheet_active(s, 90, first, 1, EVERYBODY);
    sheet_active(s, 90, second, 1, EVERYBODY);
}

/* The first player with 100 points; 0 for none. */
static unsigned winner(const struct shown *board)
{
    unsigned i;

    for (i = 0; i < board->count; i++)
        if (board->values[i] >= 100)
            return i + 1;
    return 0;
}

/* Plays both entries: the winner that the phone finds when it is first idle, and the one after two entries. */
static void play(const struct sheet *s, int fast, unsigned *found, unsigned *placed)
{
    static const uint32_t order[] = {1, 0};
    static struct match m;
    struct shown board;
    unsigned commits = 0;
    uint32_t n;

    *found = *placed = 0;
    expect(match_open(&m, s, no_params) == 0, "a match");
    for (n = 0; n < 2; n++) {
        expect(match_deliver(&m, n, order[n], 1, count, &commits) == 0, "an entry is taken in");
        if ((fast || n == 1) && *found == 0 && match_board_after(&m, n + 1, 1, &board, count, &commits) == 0)
            *found = winner(&board);
    }
    expect(match_board_after(&m, 1, 1, &board, count, &commits) == ENGINE_TAKEN_BEFORE, "one entry is passed");
    expect(match_board_after(&m, 3, 1, &board, count, &commits) == ENGINE_MISSING_ENTRIES, "a third is missing");
    expect(match_board_after(&m, 2, 1, &board, count, &commits) == 0 && commits == 2, "the board after two");
    *placed = winner(&board);
    expect(match_audit(&m) == 0, "the record has every call");
    match_close(&m);
}

int main(void)
{
    static struct sheet s;
    unsigned found[2], placed[2];

    race(&s);
    play(&s, 1, found, placed);
    play(&s, 0, found + 1, placed + 1);
    expect(found[0] == 2 && found[1] == 1, "whenever it is idle the fast phone finds player 2, the slow one player 1");
    expect(placed[0] == 1 && placed[1] == 1, "after two entries both find player 1");
    return faults != 0;
}
