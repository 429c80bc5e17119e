/*
 * What transmitter.c and modem.c share: answers that are checked, codes of rates, headers of data cells (section 8 of
 * the manual), and cells on their way.
 */
#ifndef COMMON_H
#define COMMON_H

#include <stdio.h>
#include <stdlib.h>
#include <string.h>

#include "abr.h"

#define US UINT64_C(1000)
#define MS UINT64_C(1000000)
#define WIRE 4096u /* cells that are on their way at once, at most */

/* ---- Checks ------------------------------------------------------------- */

static inline void fail(const char *what, const char *why)
{
    fprintf(stderr, "%s: %s\n", what, why);
    exit(1);
}

static inline void accepted(const char *what, uint32_t refusal)
{
    if (refusal != ABR_OK) {
        fail(what, abr_refusal_text(refusal));
    }
}

static inline void must(int condition, const char *what)
{
    if (!condition) {
        fail(what, "not so");
    }
}

/* ---- Rates and octets --------------------------------------------------- */

static inline uint64_t rate_of(uint32_t code)
{
    abr_rated rated = abr_rate(code);
    accepted("rate", rated.refusal);
    return rated.rate;
}

/* The greatest code whose rate is not above this one, for a peak that is policed. */
static inline uint32_t code_down(uint64_t rate)
{
    abr_coded coded = abr_code(rate);
    accepted("code", coded.refusal);
    return coded.code;
}

/* The least code whose rate is not below this one, for what was sold. */
static inline uint32_t code_up(uint64_t rate)
{
    uint32_t code = code_down(rate);
    if (rate_of(code) == rate) {
        return code;
    }
    return code == 0 ? 0x4000 : code + 1;
}

/* Octet 5 of a header: the remainder of octets 1 to 4, times x^8, by x^8 + x^2 + x + 1, exclusive-or 0x55. */
static inline uint8_t header_check(const uint8_t *header)
{
    uint8_t remainder = 0;
    for (int octet = 0; octet < 4; octet++) {
        remainder ^= header[octet];
        for (int bit = 0; bit < 8; bit++) {
            remainder = (uint8_t)(remainder & 0x80 ? remainder << 1 ^ 0x07 : remainder << 1);
        }
    }
    return remainder ^ 0x55;
}

/* The header of a data cell: GFC 0, CLP 0, a payload type from 0 to 3: 1 ends a frame of AAL 5, 2 is the congestion
 * mark. */
static inline void write_header(uint8_t *cell, uint32_t vpi, uint32_t vci, uint32_t type)
{
    cell[0] = (uint8_t)(vpi >> 4);
    cell[1] = (uint8_t)(vpi << 4 | vci >> 12);
    cell[2] = (uint8_t)(vci >> 4);
    cell[3] = (uint8_t)(vci << 4 | type << 1);
    cell[4] = header_check(cell);
}

/* ---- Cells on their way ------------------------------------------------- */

/* Each with the time of its arrival, in the order in which they arrive. */
typedef struct {
    uint64_t arrival[WIRE];
    uint8_t cell[WIRE][ABR_CELL_OCTETS];
    size_t first, count;
} wire;

static inline void put(wire *to, uint64_t arrival, const uint8_t *cell)
{
    must(to->count < WIRE, "a wire has room");
    size_t place = (to->first + to->count++) % WIRE;
    to->arrival[place] = arrival;
    memcpy(to->cell[place], cell, ABR_CELL_OCTETS);
}

/* The next cell that has arrived, or a null pointer; it stays where it is until the next put. */
static inline uint8_t *arrived(wire *from, uint64_t now)
{
    size_t place = from->first;
    if (from->count == 0 || from->arrival[place] > now) {
        return NULL;
    }
    from->first = (place + 1) % WIRE;
    from->count--;
    return from->cell[place];
}

#endif /* COMMON_H */
