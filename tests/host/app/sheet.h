/* A sheet from a file of the setter's text, or put together from formulas, as a setter's screen would: events first,
 * then behaviours. */
#ifndef SHEET_H
#define SHEET_H

#include "engine.h"

struct sheet {
    uint8_t bytes[ENGINE_SHEET];
    size_t len;
    uint32_t refusal; /* of the text, or of the first formula that was turned down; 0 where all is well */
};

struct handler {
    uint8_t event;
    uint8_t later; /* 0 immediate, 1 later */
    const char *formula;
};

#define EVERYBODY 0xFFu            /* who may send an event, or see a behaviour */
#define PLAYER(n) (1u << (n))      /* a bit for each; the host always may */

/* The sheet of the file folder/name.sheet; refused by ENGINE_TEXT_TOO_LONG where the file cannot be read. */
void sheet_read(struct sheet *s, const char *folder, const char *name);

void sheet_begin(struct sheet *s);
void sheet_event(struct sheet *s, uint8_t rank, unsigned senders);
void sheet_active(struct sheet *s, int32_t start, const struct handler *handlers, size_t count, unsigned viewers);
void sheet_passive(struct sheet *s, const char *formula, unsigned viewers);

#endif
