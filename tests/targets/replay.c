/* Replays a record of calls: replay FILE [STACKS]. Every answer, every sum of a written buffer and all bytes kept in
 * the record must come out again. tests/second/src/record.rs writes the record and says how it is laid out. STACKS has
 * lines `NAME KB`: then each kind of call is made in a thread of its own, whose stack has exactly so many KB for the
 * call below the frame that makes it; the byte under these cannot be touched. The most bytes that each kind of call
 * left a mark in are printed, and what the thread itself takes. In WebAssembly there are no threads, and no STACKS. */
#define _DEFAULT_SOURCE
#define _XOPEN_SOURCE 600
#include <stdarg.h>
#include <stdio.h>
#include <stdlib.h>
#include <string.h>
#ifndef __wasm__
#include <pthread.h>
#include <semaphore.h>
#include <signal.h>
#include <sys/mman.h>
#include <unistd.h>
#endif

#include "engine.h"

#define SLOTS 16
#define GUARD 64
#define MARK 0xA5
#define MOST 8 /* buffers of a call */

/* A buffer between guards, at an odd address in every second slot: no call needs any alignment. */
static struct slot {
    uint8_t *room, *bytes;
    size_t len;
} slots[SLOTS];

struct lent {
    uint8_t *at;
    size_t len;
};

/* One for each call: the buffers and the numbers in their order. */
typedef uint64_t maker(const struct lent *b, const uint64_t *n);
#define BUFFER(k) b[k].at, b[k].len
#define NUMBER(k) (uint32_t)n[k]
#define CALL(name, ...) \
    static uint64_t make_##name(const struct lent *b, const uint64_t *n) \
    { \
        (void)b, (void)n; \
        return engine_##name(__VA_ARGS__); \
    }
CALL(compile, BUFFER(0), BUFFER(1), BUFFER(2))
CALL(circle, BUFFER(0), BUFFER(1), BUFFER(2))
CALL(start, BUFFER(0), BUFFER(1))
CALL(arrive, BUFFER(0), BUFFER(1), NUMBER(0), NUMBER(1))
CALL(step, BUFFER(0), BUFFER(1))
CALL(told, n[0])
CALL(board, BUFFER(0), BUFFER(1), NUMBER(0), NUMBER(1))
CALL(forecast, BUFFER(0), BUFFER(1))
CALL(preview, BUFFER(0), BUFFER(1), NUMBER(0), NUMBER(1), NUMBER(2))
CALL(mend, BUFFER(0), BUFFER(1), BUFFER(2))
CALL(formula, BUFFER(0), BUFFER(1))
CALL(join, BUFFER(0), BUFFER(1), BUFFER(2), BUFFER(3))
CALL(replay, BUFFER(0), BUFFER(1), BUFFER(2), BUFFER(3))
CALL(event_count, BUFFER(0))
CALL(behaviour_count, BUFFER(0))
CALL(event_rank, BUFFER(0), NUMBER(0))
CALL(frame, BUFFER(0), BUFFER(1), NUMBER(0), BUFFER(2))
CALL(agree, BUFFER(0), BUFFER(1))
CALL(agree_for, BUFFER(0), BUFFER(1), NUMBER(0))
CALL(pair, BUFFER(0), BUFFER(1), NUMBER(0), NUMBER(1))
CALL(deliver, BUFFER(0), BUFFER(1), NUMBER(0), NUMBER(1), NUMBER(2), BUFFER(2))
CALL(taken, BUFFER(0), BUFFER(1))
CALL(leak, BUFFER(0), BUFFER(1), NUMBER(0))
CALL(assemble, BUFFER(0), BUFFER(1))
CALL(describe, BUFFER(0), BUFFER(1))

static uint64_t make_version(const struct lent *b, const uint64_t *n)
{
    (void)b, (void)n;
    return engine_version();
}

static const struct {
    const char *name;
    maker *make;
} makers[] = {
    {"compile", make_compile}, {"circle", make_circle}, {"start", make_start}, {"arrive", make_arrive},
    {"step", make_step}, {"told", make_told}, {"board", make_board}, {"forecast", make_forecast},
    {"preview", make_preview}, {"mend", make_mend}, {"formula", make_formula}, {"join", make_join},
    {"replay", make_replay}, {"version", make_version}, {"event_count", make_event_count},
    {"behaviour_count", make_behaviour_count}, {"event_rank", make_event_rank}, {"frame", make_frame},
    {"agree", make_agree}, {"agree_for", make_agree_for}, {"pair", make_pair}, {"deliver", make_deliver},
    {"taken", make_taken},
    {"leak", make_leak}, {"assemble", make_assemble}, {"describe", make_describe},
};

static struct call {
    char name[32], takes[16];
    maker *make;
    uint8_t *stack;           /* the lowest byte that may be touched; painted up to the frame */
    const uint8_t *frame;     /* of the thread's function, which makes the call */
    size_t room;              /* bytes below the frame */
    void *handler;            /* the stack of the handler that tells of a stack run over */
#ifndef __wasm__
    pthread_t thread;
    sem_t asked, done;
#endif
} calls[64];
static size_t known;
static uint64_t made;
static int measured;

static const uint8_t *at, *end;

static void fail(const char *format, ...)
{
    va_list words;

    va_start(words, format);
    fprintf(stderr, "call %llu: ", (unsigned long long)made);
    vfprintf(stderr, format, words);
    fputc('\n', stderr);
    va_end(words);
    exit(1);
}

static const uint8_t *take(size_t n)
{
    const uint8_t *here = at;

    if ((size_t)(end - at) < n)
        fail("the record is torn");
    at += n;
    return here;
}

static uint64_t number(size_t bytes)
{
    const uint8_t *here = take(bytes);
    uint64_t n = 0;

    while (bytes-- > 0)
        n = n << 8 | *here++;
    return n;
}

static struct slot *slot(void)
{
    uint64_t k = number(1);

    if (k >= SLOTS)
        fail("slot %u", (unsigned)k);
    return slots + k;
}

static uint32_t sum(const uint8_t *bytes, size_t n)
{
    uint32_t s = 0x811C9DC5;

    while (n-- > 0)
        s = (s ^ *bytes++) * 0x01000193;
    return s;
}

static void check_guards(const struct slot *s)
{
    size_t i;

    for (i = 0; s->room && i < GUARD; i++)
        if (s->bytes[s->len + i] != MARK || s->room[i] != MARK)
            fail("a byte beside slot %d was changed", (int)(s - slots));
}

static void resize(struct slot *s, size_t len)
{
    check_guards(s);
    free(s->room);
    s->room = (uint8_t *)malloc(len + 2 * GUARD + 1);
    if (!s->room)
        fail("no memory");
    memset(s->room, MARK, len + 2 * GUARD + 1);
    s->bytes = s->room + GUARD + (s - slots) % 2;
    s->len = len;
}

/* A word of the list of calls, up to a space or the line's end. */
static void read_word(char *word, size_t room)
{
    size_t n = 0;

    while (n + 1 < room && at < end && *at != ' ' && *at != '\n')
        word[n++] = (char)*at++;
    word[n] = 0;
    take(1);
}

/* The names and signatures on top of the record. */
static void read_calls(void)
{
    size_t i;

    for (known = 0; at < end && *at != '\n'; known++) {
        struct call *c = calls + known;

        if (known == sizeof calls / sizeof *calls)
            fail("too many kinds of calls");
        read_word(c->name, sizeof c->name);
        read_word(c->takes, sizeof c->takes);
        for (i = 0; i < sizeof makers / sizeof *makers; i++)
            if (strcmp(makers[i].name, c->name) == 0)
                c->make = makers[i].make;
        if (!c->make)
            fail("this program does not know %s", c->name);
    }
    take(1);
}

/* ---- a call in a thread of its own */

#ifndef __wasm__
#define BELOW 262144u       /* bytes under a stack that cannot be touched; more than the least that a thread may have */
#define PAINT 0x5C
#define HANDLER 65536u      /* bytes of a handler's stack */
#define SERVES 256u         /* bytes below its frame that the thread's own function works in */
#define ALIGNED 64u
#define PAGE 65536u /* a multiple of every page size */

static struct call *asked_for;
static const struct lent *buffers_of;
static const uint64_t *numbers_of;
static uint64_t answered;
static size_t own; /* what the thread takes above the frame that makes the calls: its control block and first frames */

/* A call ran over its stack: says which, on a stack of the handler's own. */
static void ran_over(int number)
{
    static const char words[] = " takes more stack than it was given\n";
    const char *name = asked_for ? asked_for->name : "the program";
    ssize_t n = write(STDERR_FILENO, name, strlen(name));

    n += write(STDERR_FILENO, words, sizeof words - 1);
    _exit(n < 0 ? number : 1);
}

/* The handler's stack is made by whoever makes the thread: malloc itself would take more of a small stack than a call. */
static void watch_stack(void *handlers)
{
    struct sigaction action;
    stack_t room;

    memset(&room, 0, sizeof room);
    room.ss_size = HANDLER;
    room.ss_sp = handlers;
    memset(&action, 0, sizeof action);
    action.sa_handler = ran_over;
    action.sa_flags = SA_ONSTACK;
    if (!room.ss_sp || sigaltstack(&room, NULL) != 0 || sigaction(SIGSEGV, &action, NULL) != 0)
        fail("no handler");
}

/* A thread for one kind of call: it makes each that is asked for. Without a maker it only tells where its frame is. */
static void *serve(void *given)
{
    struct call *c = (struct call *)given;

    c->frame = (const uint8_t *)__builtin_frame_address(0);
    if (!c->make)
        return NULL;
    watch_stack(c->handler);
    memset(c->stack, PAINT, (size_t)(c->frame - c->stack) - SERVES);
    sem_post(&c->done);
    for (;;) {
        sem_wait(&c->asked);
        answered = c->make(buffers_of, numbers_of);
        sem_post(&c->done);
    }
}

/* The thread's stack: so many bytes for the call, the thread's own above them, and below pages that cannot be touched;
 * these count toward the least size that a thread may be given, and nothing else. */
static void give_thread(struct call *c, size_t bytes)
{
    size_t whole = (bytes + own + PAGE - 1) / PAGE * PAGE;
    uint8_t *room = (uint8_t *)mmap(NULL, whole + BELOW, PROT_NONE, MAP_PRIVATE | MAP_ANONYMOUS, -1, 0);
    pthread_attr_t attributes;

    if (room == MAP_FAILED || mprotect(room + BELOW, whole, PROT_READ | PROT_WRITE) != 0)
        fail("no stack of %lu bytes", (unsigned long)bytes);
    c->stack = room + BELOW;
    c->room = bytes;
    c->handler = malloc(HANDLER);
    if (sem_init(&c->asked, 0, 0) != 0 || sem_init(&c->done, 0, 0) != 0 || pthread_attr_init(&attributes) != 0
        || pthread_attr_setstack(&attributes, room, BELOW + bytes + own) != 0
        || pthread_create(&c->thread, &attributes, serve, c) != 0)
        fail("no thread with a stack of %lu bytes", (unsigned long)bytes);
}

/* What a thread takes before it makes a call, measured by one that makes none. */
static void measure_own(void)
{
    static struct call none;

    own = PAGE;
    give_thread(&none, PAGE);
    pthread_join(none.thread, NULL);
    own = (size_t)(none.stack + none.room + own - none.frame);
    own = (own + ALIGNED - 1) / ALIGNED * ALIGNED;
}

static void read_stacks(const char *path)
{
    FILE *file = fopen(path, "r");
    char name[32];
    unsigned long kb;
    size_t k;

    measure_own();
    while (file && fscanf(file, "%31s %lu", name, &kb) == 2)
        for (k = 0; k < known; k++)
            if (strcmp(calls[k].name, name) == 0) {
                give_thread(calls + k, kb * 1024);
                sem_wait(&calls[k].done);
            }
    if (file)
        fclose(file);
    for (k = 0; k < known; k++)
        if (!calls[k].stack)
            fail("%s does not say the stack of %s", path, calls[k].name);
}

static uint64_t make_in_thread(struct call *c, const struct lent *b, const uint64_t *n)
{
    asked_for = c;
    buffers_of = b;
    numbers_of = n;
    sem_post(&c->asked);
    sem_wait(&c->done);
    return answered;
}

/* The painted bytes that are left at the bottom were never touched. */
static size_t touched(const struct call *c)
{
    const uint8_t *at = c->stack;

    while (at < c->frame && *at == PAINT)
        at++;
    return (size_t)(c->frame - at);
}

static void print_stacks(void)
{
    size_t k;

    for (k = 0; k < known; k++)
        printf("%s %lu of %lu, ", calls[k].name, (unsigned long)touched(calls + k), (unsigned long)calls[k].room);
    printf("and the thread itself %lu\n", (unsigned long)own);
}
#else
static void read_stacks(const char *path)
{
    fail("%s: no threads here", path);
}

static uint64_t make_in_thread(struct call *c, const struct lent *b, const uint64_t *n)
{
    return c->make(b, n);
}

static void print_stacks(void)
{
}
#endif

static void make_one(void)
{
    struct lent b[MOST];
    uint64_t n[MOST], got, want, k = number(1);
    struct slot *written[MOST];
    size_t buffers = 0, numbers = 0, writes = 0, i;
    const char *takes;

    if (k >= known)
        fail("call of kind %u", (unsigned)k);
    for (takes = calls[k].takes; *takes; takes++)
        if (*takes == 'n' || *takes == 'q') {
            n[numbers++] = number(*takes == 'n' ? 4 : 8);
        } else {
            struct slot *s = slot();

            b[buffers].len = (size_t)number(4);
            if (b[buffers].len > s->len)
                fail("%s is lent more than there is", calls[k].name);
            b[buffers].at = b[buffers].len ? s->bytes : NULL;
            buffers++;
            if (*takes == 'w')
                written[writes++] = s;
        }
    got = measured ? make_in_thread(calls + k, b, n) : calls[k].make(b, n);
    want = number(8);
    if (got != want)
        fail("%s answers %llu, not %llu", calls[k].name, (unsigned long long)got, (unsigned long long)want);
    for (i = 0; i < writes; i++)
        if (sum(written[i]->bytes, written[i]->len) != number(4))
            fail("%s leaves other bytes in slot %d", calls[k].name, (int)(written[i] - slots));
    made++;
}

static void run(void)
{
    for (;;) {
        int op = (int)number(1);
        struct slot *s;
        size_t n;

        if (op == 'C') {
            make_one();
            continue;
        }
        if (op == 'E')
            break;
        s = slot();
        if (op == 'Y') {
            struct slot *from = slot();

            resize(s, from->len);
            memcpy(s->bytes, from->bytes, from->len);
            continue;
        }
        n = (size_t)number(4);
        if (op == 'B') {
            resize(s, n);
            memcpy(s->bytes, take(n), n);
        } else if (op == 'F') {
            resize(s, n);
            memset(s->bytes, (int)number(1), n);
        } else if (op == 'P' && n < s->len) {
            s->bytes[n] = (uint8_t)number(1);
        } else if (op == 'K') {
            check_guards(s);
            if (n != s->len || memcmp(s->bytes, take(n), n) != 0)
                fail("other bytes in slot %d", (int)(s - slots));
        } else {
            fail("the record is damaged");
        }
    }
    if (number(8) != made || at != end)
        fail("the record says another number of calls");
}

int main(int argc, char **argv)
{
    FILE *file = argc > 1 ? fopen(argv[1], "rb") : NULL;
    uint8_t *record;
    long n;

    if (!file || fseek(file, 0, SEEK_END) || (n = ftell(file)) < 1 || fseek(file, 0, SEEK_SET)) {
        fprintf(stderr, "replay FILE: no record to read\n");
        return 2;
    }
    record = (uint8_t *)malloc((size_t)n);
    if (!record || fread(record, 1, (size_t)n, file) != (size_t)n) {
        fprintf(stderr, "%s is not read\n", argv[1]);
        return 2;
    }
    fclose(file);
    at = record;
    end = record + n;
    measured = argc > 2;
    read_calls();
    if (measured)
        read_stacks(argv[2]);
    run();
    if (measured)
        print_stacks();
    else
        printf("%llu calls, every answer and byte as recorded\n", (unsigned long long)made);
    return 0;
}
