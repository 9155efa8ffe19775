/* Wrong engines, to see that the fuzz target notices them: each call with its faults, of which the environment's
 * FUZZ_FAULT names one. Linked by --wrap, so that target and engine stay as they are. */
#include "fuzz.h"

#include <stdlib.h>
#include <string.h>

typedef const uint8_t *bytes;

static int fault(int number)
{
    static int named = -1;
    const char *word;
    if (named < 0) {
        word = getenv("FUZZ_FAULT");
        named = word ? atoi(word) : 0;
    }
    return named == number;
}

static int refused(uint64_t answer) { return answer >> 32 == 0; }

#define WRONG(type, name, ...)                                                                                         \
    type __real_engine_##name(__VA_ARGS__);                                                                            \
    type __wrap_engine_##name(__VA_ARGS__);                                                                            \
    type __wrap_engine_##name(__VA_ARGS__)

#define TABLE bytes t, size_t tl
#define ROUND uint8_t *r, size_t rl
#define SEEN bytes r, size_t rl
#define SHEET bytes s, size_t sl, bytes p, size_t pl
#define BUFFER uint8_t *b, size_t bl

WRONG(uint32_t, version, void) { return __real_engine_version() + (uint32_t)fault(1); }

WRONG(uint32_t, compile, SHEET, uint8_t *t, size_t tl)
{
    uint8_t last = tl >= ENGINE_TABLE ? t[ENGINE_TABLE - 1] : 0;
    /* with 39 the engine itself is told of a byte more than there is */
    uint32_t number = __real_engine_compile(s, sl + (size_t)fault(39), p, pl, t, tl);
    if (fault(2) && number == ENGINE_UNKNOWN_NAME) /* a refused sheet leaves its counts behind */
        t[0]++;
    if (fault(3) && number == 0) /* an old byte stays */
        t[ENGINE_TABLE - 1] = last;
    if (fault(4) && number == 0 && tl > ENGINE_TABLE) /* a byte beyond the table */
        t[ENGINE_TABLE] = 0;
    if (fault(5) && number == 0 && pl < ENGINE_PARAMS) /* a byte beyond the parameters */
        t[ENGINE_TABLE - 1] = p[pl];
    return number;
}

WRONG(uint64_t, circle, SHEET, uint8_t *l, size_t ll)
{
    uint64_t answer = __real_engine_circle(s, sl, p, pl, l, ll);
    if (fault(6) && engine_circle_number(answer) == ENGINE_CIRCLE && ll > 0) /* a short list is written, too */
        l[0] = 0;
    return answer;
}

WRONG(uint64_t, agree, SHEET)
{
    uint64_t answer = __real_engine_agree(s, sl, p, pl);
    return fault(7) && engine_agree_number(answer) == ENGINE_DEPENDENT ? 0 : answer; /* every sheet agrees */
}

WRONG(uint64_t, agree_for, SHEET, uint32_t b)
{
    uint64_t answer = __real_engine_agree_for(s, sl, p, pl, b);
    return fault(8) && engine_agree_number(answer) == ENGINE_DEPENDENT ? 0 : answer; /* every behaviour is safe */
}

WRONG(uint64_t, pair, SHEET, uint32_t e, uint32_t f)
{
    if (fault(9) && e > f) /* the flags of the other way round */
        return __real_engine_pair(s, sl, p, pl, f, e);
    return __real_engine_pair(s, sl, p, pl, e, f);
}

WRONG(uint64_t, leak, SHEET, uint32_t player)
{
    return __real_engine_leak(s, sl, p, pl, fault(10) && player == 0 ? 1 : player); /* the host as a player */
}

WRONG(uint64_t, formula, bytes text, size_t length, BUFFER)
{
    uint64_t answer = __real_engine_formula(text, length, b, bl);
    if (fault(11) && !refused(answer) && (uint32_t)answer < bl) /* a byte behind the field */
        b[(uint32_t)answer] = 0;
    return answer;
}

WRONG(uint64_t, assemble, bytes text, size_t length, BUFFER)
{
    uint64_t answer = __real_engine_assemble(text, length, b, bl);
    if (fault(12) && engine_assemble_kind(answer) == ENGINE_DECLARED_TWICE && bl > 0) /* a byte before the fault */
        b[0] = 1;
    return answer;
}

WRONG(uint64_t, describe, bytes s, size_t sl, BUFFER)
{
    uint64_t answer = __real_engine_describe(s, sl, b, bl);
    uint8_t *at = refused(answer) ? NULL : memchr(b, '-', (uint32_t)answer);
    if (fault(13) && at) /* a - becomes a + */
        *at = '+';
    return answer;
}

WRONG(uint64_t, join, bytes s, size_t sl, bytes o, size_t ol, bytes p, size_t pl, BUFFER)
{
    if (fault(14)) /* the second sheet first */
        return __real_engine_join(o, ol, s, sl, p, pl, b, bl);
    return __real_engine_join(s, sl, o, ol, p, pl, b, bl);
}

WRONG(uint64_t, event_count, TABLE) { return __real_engine_event_count(t, tl) - (uint64_t)(fault(15) && t[3] > 1); }

WRONG(uint64_t, behaviour_count, TABLE)
{
    uint64_t answer = __real_engine_behaviour_count(t, tl);
    return answer + (uint64_t)(fault(16) && !refused(answer) && (uint32_t)answer > 3);
}

WRONG(uint64_t, event_rank, TABLE, uint32_t e)
{
    uint64_t answer = __real_engine_event_rank(t, tl, e);
    return fault(17) && answer == ENGINE_NO_SUCH_EVENT ? UINT64_C(1) << 32 : answer;
}

WRONG(uint32_t, start, TABLE, ROUND)
{
    uint8_t last = rl >= ENGINE_ROUND ? r[ENGINE_ROUND - 1] : 0;
    uint32_t number = __real_engine_start(t, tl, r, rl);
    if (fault(18) && number == 0) /* an old byte stays */
        r[ENGINE_ROUND - 1] = last;
    return number;
}

WRONG(uint32_t, arrive, TABLE, ROUND, uint32_t e, uint32_t player)
{
    uint32_t number = __real_engine_arrive(t, tl, r, rl, e, player);
    if (fault(19) && number == ENGINE_NO_RIGHT) /* anybody may send */
        return __real_engine_arrive(t, tl, r, rl, e, ENGINE_HOST);
    if (fault(20) && number == ENGINE_FULL_HAND) /* a refused arrival is counted */
        r[3]++;
    return number;
}

WRONG(uint64_t, deliver, TABLE, ROUND, uint32_t number, uint32_t e, uint32_t player, BUFFER)
{
    uint64_t answer = __real_engine_deliver(t, tl, r, rl, number, e, player, b, bl);
    if (fault(21) && answer == ENGINE_TAKEN_BEFORE) /* an entry that was taken in before */
        return __real_engine_deliver(t, tl, r, rl, number + 1, e, player, b, bl);
    if (fault(22) && engine_deliver_commits(answer)) /* a commit that is not told */
        memset(b, FILL, 8);
    return answer;
}

WRONG(uint64_t, taken, TABLE, SEEN)
{
    uint64_t answer = __real_engine_taken(t, tl, r, rl);
    if (fault(23) && engine_taken_in_hand(answer) == ENGINE_HAND) /* a full hand is told as one less */
        answer -= UINT64_C(1) << 40;
    return answer;
}

WRONG(uint64_t, step, TABLE, ROUND)
{
    uint64_t answer = __real_engine_step(t, tl, r, rl);
    if (fault(24) && answer == ENGINE_IDLE) /* an idle step changes a byte */
        r[ENGINE_ROUND - 1] ^= 1;
    if (fault(25)) /* the mark is lost */
        answer &= ~ENGINE_OVER;
    if (fault(26) && rl > ENGINE_ROUND) /* a byte beyond the round is read */
        answer += (uint64_t)(r[ENGINE_ROUND] == 0xEE);
    return answer;
}

WRONG(uint64_t, frame, TABLE, ROUND, uint32_t steps, BUFFER)
{
    uint64_t answer = __real_engine_frame(t, tl, r, rl, steps, b, bl);
    if (fault(27) && engine_frame_end(answer) == ENGINE_FRAME_MADE && steps > 9) /* a step too many */
        __real_engine_step(t, tl, r, rl);
    if (fault(28) && engine_frame_commits(answer) > 1) /* the second commit in the place of the first */
        memcpy(b, b + ENGINE_ANSWER, ENGINE_ANSWER);
    if (fault(29) && engine_frame_end(answer) == ENGINE_FRAME_FULL) /* no room is told as all made */
        answer &= ~(UINT64_C(3) << 56);
    return answer;
}

WRONG(uint64_t, told, uint64_t answer) { return fault(30) ? answer : __real_engine_told(answer); }

WRONG(uint64_t, board, TABLE, SEEN, uint32_t i, uint32_t player)
{
    uint64_t answer = __real_engine_board(t, tl, r, rl, i, player);
    if (fault(31) && answer == ENGINE_NO_RIGHT) /* what is hidden is shown */
        return __real_engine_board(t, tl, r, rl, i, ENGINE_HOST);
    return answer;
}

WRONG(uint64_t, forecast, TABLE, SEEN)
{
    uint64_t answer = __real_engine_forecast(t, tl, r, rl);
    return answer - (uint64_t)(fault(32) && !refused(answer) && (uint32_t)answer > 20);
}

WRONG(uint64_t, preview, TABLE, SEEN, uint32_t e, uint32_t i, uint32_t player)
{
    static uint8_t copy[ENGINE_ROUND];
    uint64_t answer = __real_engine_preview(t, tl, r, rl, e, i, player);
    if (fault(33) && !refused(answer)) /* tried on the round itself */
        __real_engine_arrive(t, tl, (uint8_t *)(uintptr_t)r, rl, e, player);
    if (fault(34) && !refused(answer)) { /* without what is in hand */
        memcpy(copy, r, ENGINE_ROUND);
        answer = __real_engine_board(t, tl, copy, ENGINE_ROUND, i, player);
    }
    return answer;
}

WRONG(uint32_t, mend, bytes old, size_t ol, TABLE, ROUND)
{
    uint32_t number = __real_engine_mend(old, ol, t, tl, r, rl);
    if (fault(35) && number == ENGINE_STRANGE_HAND) /* a refused change drops the hand */
        r[7] = 0;
    if (fault(36) && number == 0) /* the board starts anew */
        number = __real_engine_start(t, tl, r, rl);
    return number;
}

WRONG(size_t, replay, TABLE, ROUND, bytes c, size_t cl, uint8_t *a, size_t al)
{
    size_t made = __real_engine_replay(t, tl, r, rl, c, cl, a, al), k;
    for (k = 0; fault(37) && k < made; k++) /* refusals are told as taken in */
        if (c[ENGINE_CALL * k] == ENGINE_CALL_ARRIVE)
            a[ENGINE_ANSWER * k + 7] = 0;
    if (fault(38) && made > 12) /* a list that is cut */
        made--;
    return made;
}
