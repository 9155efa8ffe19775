#include "sheet.h"

#include <stdio.h>
#include <string.h>

enum { EVENT = 0x01, PASSIVE = 0x02, ACTIVE = 0x03, START = 0x04, HANDLER = 0x05, VIEWERS = 0x08, HEAD = 3 };

void sheet_read(struct sheet *s, const char *folder, const char *name)
{
    static uint8_t text[ENGINE_SHEET_TEXT];
    char path[4096];
    struct engine_assembled a;
    size_t n;
    FILE *f;

    sheet_begin(s);
    snprintf(path, sizeof path, "%s/%s.sheet", folder, name);
    f = fopen(path, "rb");
    if (!f) {
        s->refusal = ENGINE_TEXT_TOO_LONG;
        return;
    }
    n = fread(text, 1, sizeof text, f);
    fclose(f);
    a = engine_try_assemble(text, n, s->bytes, sizeof s->bytes);
    s->refusal = a.refusal;
    s->len = a.length;
}

void sheet_begin(struct sheet *s)
{
    s->len = 0;
    s->refusal = 0;
}

static void byte(struct sheet *s, unsigned value)
{
    if (s->len < sizeof s->bytes)
        s->bytes[s->len++] = (uint8_t)value;
    else if (s->refusal == 0)
        s->refusal = ENGINE_LONG_SHEET;
}

/* A field's tag and a length to be filled in: where it begins. */
static size_t begin(struct sheet *s, unsigned tag)
{
    size_t at = s->len;

    byte(s, tag);
    byte(s, 0);
    byte(s, 0);
    return at;
}

static void end(struct sheet *s, size_t at)
{
    size_t len = s->len - at - HEAD;

    if (s->refusal == 0) {
        s->bytes[at + 1] = (uint8_t)(len >> 8);
        s->bytes[at + 2] = (uint8_t)len;
    }
}

/* The formula's field, written by the engine in its place. */
static void expression(struct sheet *s, const char *formula)
{
    uint64_t answer = engine_formula((const uint8_t *)formula, strlen(formula), s->bytes + s->len,
                                     sizeof s->bytes - s->len);

    if (!engine_formula_refused(answer))
        s->len += engine_formula_length(answer);
    else if (s->refusal == 0)
        s->refusal = engine_formula_refusal(answer);
}

static void seen_by(struct sheet *s, unsigned viewers)
{
    size_t at;

    if (viewers == EVERYBODY)
        return;
    at = begin(s, VIEWERS);
    byte(s, viewers);
    end(s, at);
}

void sheet_event(struct sheet *s, uint8_t rank, unsigned senders)
{
    size_t at = begin(s, EVENT);

    byte(s, rank);
    if (senders != EVERYBODY)
        byte(s, senders);
    end(s, at);
}

void sheet_active(struct sheet *s, int32_t start, const struct handler *handlers, size_t count, unsigned viewers)
{
    size_t at = begin(s, ACTIVE), inner = begin(s, START), i;
    uint32_t word = (uint32_t)start;

    byte(s, word >> 24 & 0xFF);
    byte(s, word >> 16 & 0xFF);
    byte(s, word >> 8 & 0xFF);
    byte(s, word & 0xFF);
    end(s, inner);
    for (i = 0; i < count; i++) {
        inner = begin(s, HANDLER);
        byte(s, handlers[i].event);
        byte(s, handlers[i].later);
        expression(s, handlers[i].formula);
        end(s, inner);
    }
    seen_by(s, viewers);
    end(s, at);
}

void sheet_passive(struct sheet *s, const char *formula, unsigned viewers)
{
    size_t at = begin(s, PASSIVE);

    expression(s, formula);
    seen_by(s, viewers);
    end(s, at);
}
