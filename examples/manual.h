/*
 * Functions of docs/MANUAL.md, sections 15, 18 and 20, that modem.c uses. But for the comments they stand here as they
 * stand there, which tests/manual compares.
 */
#ifndef MANUAL_H
#define MANUAL_H

#include <stddef.h>
#include <stdint.h>

#include "abr.h"

/* Section 15: a clock that jumps. */
typedef struct {
    uint64_t raw, engine; /* begin with the first reading in both */
    uint64_t slot;        /* your shortest slot; a jump counts as one */
} steady_clock;

static uint64_t steady(steady_clock *clock, uint64_t raw)
{
    const uint64_t most = UINT64_C(100000000); /* a longer step is a jump; better two slots, if none is left out */
    uint64_t step = raw > clock->raw ? raw - clock->raw : 0;
    clock->raw = raw;
    clock->engine += step > most ? clock->slot : step;
    return clock->engine; /* the slot's own time */
}

/* Section 20: the own line as a port, here with the leaves as numbers of the connections. */
typedef struct {
    uint64_t capacity;                   /* units, at most 512,000,000,000 / g */
    uint64_t s, g;                       /* the longest slot, and what the capacity needs: s < g */
    uint64_t depth, filled;              /* A, and what opens and rises have poured into the bucket */
    uint64_t total, cap[64];             /* of the connections, 0 while closed */
    uint64_t least[64], peak[64];        /* the rates of their codes of MCR and PCR; set them with each open */
} own_line;

static void line_slot(own_line *line) /* before each slot */
{
    uint64_t paid = line->g - line->s;
    line->filled -= line->filled < paid ? line->filled : paid;
}

static uint64_t line_room(const own_line *line, size_t which) /* what the others leave; an open's ICR is at most this */
{
    return line->capacity - (line->total - line->cap[which]);
}

static uint64_t line_rise(const own_line *line, uint64_t from, uint64_t to)
{
    return from < to ? (line->g * (to - from) + to - 1) / to : 0;
}

static void line_set(own_line *line, size_t which, uint64_t cap, uint64_t poured) /* a close: 0 and 0 */
{
    line->total += cap - line->cap[which];
    line->cap[which] = cap;
    line->filled += poured;
}

static int line_open(own_line *line, size_t which, uint64_t icr) /* 1: open it now; 0: there is no room yet */
{
    int fits = icr <= line_room(line, which) && line->filled + line->g <= line->depth;
    if (fits) {
        line_set(line, which, icr, line->g);
    }
    return fits;
}

/* Backward RM cells alone. */
static uint32_t line_receive(own_line *line, abr_table *to, size_t which, uint64_t share, uint8_t *backward)
{
    uint64_t cap = line->cap[which], room = line_room(line, which), limit = share < room ? share : room;
    if (limit > cap && line->filled + line_rise(line, cap, limit) > line->depth) {
        limit = cap;
    }
    uint32_t refusal = abr_limit(limit, backward, ABR_CELL_OCTETS);
    if (refusal == ABR_OK) {
        refusal = abr_receive(to, backward, ABR_CELL_OCTETS).refusal;
    }
    if (refusal == ABR_OK) {
        uint64_t er = abr_rate(abr_read(backward, ABR_CELL_OCTETS).rm.er).rate;
        er = er < line->peak[which] ? er : line->peak[which];
        er = er > line->least[which] ? er : line->least[which];
        line_set(line, which, er, line_rise(line, cap, er));
    }
    return refusal;
}

/* Section 18: a trace. */
static size_t put_number(uint8_t *to, uint64_t number)
{
    size_t length = 0;
    for (; number > 0x7F; number >>= 7) {
        to[length++] = (uint8_t)(number | 0x80);
    }
    to[length++] = (uint8_t)number;
    return length;
}

/* The time is that since the predecessor, by the times passed; at most 16 octets. */
static size_t put_cell(uint8_t *to, uint64_t since, abr_sent sent)
{
    size_t length = put_number(to, since);
    length += put_number(to + length, sent.kind);
    return length + put_number(to + length, sent.acr_before);
}

#endif /* MANUAL_H */
