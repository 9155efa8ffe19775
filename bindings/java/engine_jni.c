/* The library that poqashem.Engine loads: each of its native methods is the call of that name in engine.h. A buffer is
 * a direct ByteBuffer, lent whole; for null, and for a buffer that is not direct, one of no bytes is lent. */
#include <jni.h>

#include "engine.h"

struct lent {
    uint8_t *at;
    engine_size len;
};

static struct lent lend(JNIEnv *env, jobject buffer)
{
    struct lent l = {NULL, 0};
    jlong capacity;

    if (buffer == NULL)
        return l;
    l.at = (uint8_t *)(*env)->GetDirectBufferAddress(env, buffer);
    capacity = (*env)->GetDirectBufferCapacity(env, buffer);
    if (l.at != NULL && capacity > 0)
        l.len = (engine_size)capacity;
    return l;
}

#define METHOD(result, name, ...) \
    JNIEXPORT result JNICALL Java_poqashem_Engine_##name(JNIEnv *env, jclass own, __VA_ARGS__)
/* A buffer that was lent, as the two arguments of a call. */
#define LENT(buffer) buffer##_.at, buffer##_.len
#define LEND(buffer) struct lent buffer##_ = lend(env, buffer)

/* Those whose arguments are numbers alone. */
JNIEXPORT jint JNICALL Java_poqashem_Engine_version(JNIEnv *env, jclass own)
{
    (void)env, (void)own;
    return (jint)engine_version();
}

METHOD(jlong, told, jlong answer)
{
    (void)env, (void)own;
    return (jlong)engine_told((uint64_t)answer);
}

/* Sheets. */
METHOD(jint, compile, jobject sheet, jobject params, jobject table)
{
    LEND(sheet);
    LEND(params);
    LEND(table);
    (void)own;
    return (jint)engine_compile(LENT(sheet), LENT(params), LENT(table));
}

METHOD(jlong, circle, jobject sheet, jobject params, jobject list)
{
    LEND(sheet);
    LEND(params);
    LEND(list);
    (void)own;
    return (jlong)engine_circle(LENT(sheet), LENT(params), LENT(list));
}

METHOD(jlong, agree, jobject sheet, jobject params)
{
    LEND(sheet);
    LEND(params);
    (void)own;
    return (jlong)engine_agree(LENT(sheet), LENT(params));
}

METHOD(jlong, agree_1for, jobject sheet, jobject params, jint behaviour)
{
    LEND(sheet);
    LEND(params);
    (void)own;
    return (jlong)engine_agree_for(LENT(sheet), LENT(params), (uint32_t)behaviour);
}

METHOD(jlong, pair, jobject sheet, jobject params, jint first, jint second)
{
    LEND(sheet);
    LEND(params);
    (void)own;
    return (jlong)engine_pair(LENT(sheet), LENT(params), (uint32_t)first, (uint32_t)second);
}

METHOD(jlong, leak, jobject sheet, jobject params, jint player)
{
    LEND(sheet);
    LEND(params);
    (void)own;
    return (jlong)engine_leak(LENT(sheet), LENT(params), (uint32_t)player);
}

METHOD(jlong, formula, jobject text, jobject buffer)
{
    LEND(text);
    LEND(buffer);
    (void)own;
    return (jlong)engine_formula(LENT(text), LENT(buffer));
}

METHOD(jlong, assemble, jobject text, jobject buffer)
{
    LEND(text);
    LEND(buffer);
    (void)own;
    return (jlong)engine_assemble(LENT(text), LENT(buffer));
}

METHOD(jlong, describe, jobject sheet, jobject buffer)
{
    LEND(sheet);
    LEND(buffer);
    (void)own;
    return (jlong)engine_describe(LENT(sheet), LENT(buffer));
}

METHOD(jlong, join, jobject first, jobject second, jobject params, jobject buffer)
{
    LEND(first);
    LEND(second);
    LEND(params);
    LEND(buffer);
    (void)own;
    return (jlong)engine_join(LENT(first), LENT(second), LENT(params), LENT(buffer));
}

METHOD(jlong, event_1count, jobject table)
{
    LEND(table);
    (void)own;
    return (jlong)engine_event_count(LENT(table));
}

METHOD(jlong, behaviour_1count, jobject table)
{
    LEND(table);
    (void)own;
    return (jlong)engine_behaviour_count(LENT(table));
}

METHOD(jlong, event_1rank, jobject table, jint event)
{
    LEND(table);
    (void)own;
    return (jlong)engine_event_rank(LENT(table), (uint32_t)event);
}

/* Rounds. */
METHOD(jint, start, jobject table, jobject round)
{
    LEND(table);
    LEND(round);
    (void)own;
    return (jint)engine_start(LENT(table), LENT(round));
}

METHOD(jint, arrive, jobject table, jobject round, jint event, jint player)
{
    LEND(table);
    LEND(round);
    (void)own;
    return (jint)engine_arrive(LENT(table), LENT(round), (uint32_t)event, (uint32_t)player);
}

METHOD(jlong, step, jobject table, jobject round)
{
    LEND(table);
    LEND(round);
    (void)own;
    return (jlong)engine_step(LENT(table), LENT(round));
}

METHOD(jlong, frame, jobject table, jobject round, jint steps, jobject commits)
{
    LEND(table);
    LEND(round);
    LEND(commits);
    (void)own;
    return (jlong)engine_frame(LENT(table), LENT(round), (uint32_t)steps, LENT(commits));
}

METHOD(jlong, deliver, jobject table, jobject round, jint number, jint event, jint player, jobject commits)
{
    LEND(table);
    LEND(round);
    LEND(commits);
    (void)own;
    return (jlong)engine_deliver(LENT(table), LENT(round), (uint32_t)number, (uint32_t)event, (uint32_t)player,
                                 LENT(commits));
}

METHOD(jlong, taken, jobject table, jobject round)
{
    LEND(table);
    LEND(round);
    (void)own;
    return (jlong)engine_taken(LENT(table), LENT(round));
}

METHOD(jlong, board, jobject table, jobject round, jint behaviour, jint player)
{
    LEND(table);
    LEND(round);
    (void)own;
    return (jlong)engine_board(LENT(table), LENT(round), (uint32_t)behaviour, (uint32_t)player);
}

METHOD(jlong, forecast, jobject table, jobject round)
{
    LEND(table);
    LEND(round);
    (void)own;
    return (jlong)engine_forecast(LENT(table), LENT(round));
}

METHOD(jlong, preview, jobject table, jobject round, jint event, jint behaviour, jint player)
{
    LEND(table);
    LEND(round);
    (void)own;
    return (jlong)engine_preview(LENT(table), LENT(round), (uint32_t)event, (uint32_t)behaviour, (uint32_t)player);
}

METHOD(jint, mend, jobject old, jobject table, jobject round)
{
    LEND(old);
    LEND(table);
    LEND(round);
    (void)own;
    return (jint)engine_mend(LENT(old), LENT(table), LENT(round));
}

METHOD(jlong, replay, jobject table, jobject round, jobject calls, jobject answers)
{
    LEND(table);
    LEND(round);
    LEND(calls);
    LEND(answers);
    (void)own;
    return (jlong)engine_replay(LENT(table), LENT(round), LENT(calls), LENT(answers));
}
