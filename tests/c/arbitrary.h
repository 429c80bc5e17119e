/* Random words, and tables that no call made. */
#ifndef ARBITRARY_H
#define ARBITRARY_H

#include <string.h>

#include "abr.h"

/*
 * Where the words of a table stand that find connections and winners; no caller
 * may rely on it.
 */
enum {
    LEAVES = ABR_CONNECTIONS_MAX,
    GROUPS = (LEAVES + 63) / 64,
    RECORD_WORDS = 24,                     /* of a leaf: first its key, 2^64 - 1 - ready instant, or 0 */
    IDENTITY = 1,                          /* of them: Trm, n and in the low 24 bits the name, VPI * 65,536 + VCI */
    CHANGE = 9,                            /* the rates before and after its last backward cell */
    LAST_OUT_OF_RATE = 23,                 /* its last out-of-rate cell */
    USED = (2 * GROUPS + 17) / 16 * 16 - 2 * GROUPS, /* a bit for each leaf that is taken */
    SAMPLES = USED + GROUPS,               /* every 64th word of the directory, then every 8th */
    DIRECTORY = SAMPLES + 9 * GROUPS,      /* (name + 1) * LEAVES + leaf, falling, then zeros */
    NODES = DIRECTORY + LEAVES,            /* at p name * 2^32 + 2 * (leaf + 1) of the winner, or 0, and its key */
    RECORDS = NODES + 2 * LEAVES,          /* RECORD_WORDS a leaf */
    MEMBER_WORDS = 256,                    /* a member's each: (2^24 - name) * 65,536 + cells, falling, then zeros */
    MEMBERS = RECORDS + RECORD_WORDS * LEAVES,
    LAYOUT_WORDS = MEMBERS + MEMBER_WORDS
};

typedef char layout_is_that_of_the_table[LAYOUT_WORDS == ABR_TABLE_WORDS ? 1 : -1];

/* The connections that are opened in a table, below one of these; of MOST_OPENS the last ones are refused. */
enum { SOME_OPENS = LEAVES / 16 + 6, MOST_OPENS = LEAVES + 16 };

/* A part of a table. */
typedef struct {
    unsigned first, count;
} part;

static const part parts[] = {{USED, GROUPS},       {SAMPLES, 9 * GROUPS},        {DIRECTORY, LEAVES},
                             {NODES, 2 * LEAVES}, {RECORDS, MEMBERS - RECORDS}, {MEMBERS, MEMBER_WORDS}};

static uint64_t state; /* of the generator, xorshift64* (Vigna); never 0 */

static uint64_t next(void)
{
    state ^= state >> 12;
    state ^= state << 25;
    state ^= state >> 27;
    return state * UINT64_C(0x2545F4914F6CDD1D);
}

/* A random word, often at the edge of some field's range. */
static uint64_t edge_word(void)
{
    static const uint64_t edges[] = {0, 1, 2, 31, 32, 53, 63, 64, 65, 255, 256, LEAVES - 1, LEAVES, LEAVES + 1, 1023,
                                     1024, 65535, 65536, 65568, 65536 * LEAVES, 1 << 24, UINT64_C(1) << 34,
                                     ABR_TABLE_WORDS - 1, ABR_TABLE_WORDS, UINT64_C(1) << 32, UINT64_C(1) << 62,
                                     UINT64_C(1) << 63};
    uint64_t word = next();
    switch (word & 7) {
    case 0: return ~UINT64_C(0) - (next() & 63);
    case 1: return next() & 0xFFFF;
    case 2: return next() % LEAVES;
    case 3: return next() >> (next() & 63);
    case 4: return next();
    default: return edges[next() % (sizeof edges / sizeof edges[0])];
    }
}

/* A VPI and a VCI. */
typedef struct {
    uint32_t vpi, vci;
} address;

/* The VCIs of a table are 32 and those that follow it in this step, rising or falling; each is on so many VPIs. */
static uint32_t step, falling, paths;

static address address_of(uint32_t place)
{
    uint32_t vpi = place % paths, further = step * (place / paths);
    address at = {falling ? 255 - vpi : vpi, falling ? 65535 - further : 32 + further};
    return at;
}

static uint64_t name_of(address at)
{
    return UINT64_C(65536) * at.vpi + at.vci;
}

/* Paths on some VPIs, each with members whose VCIs are near those of the table, and data on them. */
static uint32_t open_paths(abr_table *table, abr_params params)
{
    uint32_t refused = 0;
    for (uint64_t i = next() % 5; i > 0; i--) {
        uint32_t vpi = (uint32_t)next() & (next() % 2 ? 3 : 255);
        refused |= abr_open_path(table, vpi, 0, params).refusal;
        for (uint64_t member = next() % 90; member > 0; member--) {
            uint32_t vci = 32 + (uint32_t)(next() % 200);
            refused |= abr_add_member(table, vpi, vci).refusal;
            refused |= abr_offer_member(table, vpi, vci, next() & 3).refusal;
        }
    }
    return refused;
}

/* A table that calls made: some open connections, perhaps with free leaves between, data, and cells of every sort. */
static void reached_table(abr_table *table)
{
    uint8_t cell[ABR_CELL_OCTETS];
    uint32_t count = (uint32_t)(next() % (next() % 4 ? SOME_OPENS : MOST_OPENS)), closes = (uint32_t)next() & 1;
    uint32_t refused = 0;
    abr_params params = abr_house(0x7FFF, next() % 2 ? 0x4000 : 0, 0x53E8 + (uint32_t)(next() & 0xFF));
    step = next() % 2 ? 1 : 63; /* side by side, or over all VCIs */
    falling = next() % 2;
    paths = next() % 2 ? 1 : next() % 2 ? 3 : 256;
    memset(table, 0, sizeof *table);
    refused |= next() % 2 ? open_paths(table, params) : ABR_OK;
    for (uint32_t i = 0; i < count; i++) {
        address at = address_of(i), other = address_of((uint32_t)(next() % count));
        refused |= abr_open(table, at.vpi, at.vci, i, params).refusal;
        refused |= abr_offer(table, at.vpi, at.vci, next() & 0xFF).refusal;
        refused |= abr_set_level(table, (uint32_t)(next() % 3));
        refused |= abr_make(table, at.vpi, at.vci, i).refusal;
        refused |= abr_slot(table, i, cell, sizeof cell).refusal;
        refused |= abr_out_of_rate(table, at.vpi, at.vci, i, cell, sizeof cell);
        if (closes && next() % 4 == 0) {
            refused |= abr_close(table, other.vpi, other.vci).refusal;
        }
    }
    /* more opens than leaves among them, opens of members, closes of what is not open and makings at level 0 */
    (void)refused;
}

/* A word for a place of the directory or of the tournament, in range but by chance only the right one. */
static uint64_t wrong_entry(void)
{
    uint64_t leaf = next() % LEAVES;
    uint64_t name = name_of(address_of((uint32_t)(next() % MOST_OPENS)));
    return next() % 2 ? (name << 32) + 2 * (leaf + 1) : (name + 1) * LEAVES + leaf;
}

/* One word of a part of a table made wrong; the words before are those of the part as calls left it. */
static uint64_t wrong_word(uint64_t how, const uint64_t *before, unsigned place, unsigned count)
{
    switch (how) {
    case 0: return 0;
    case 1: return ~UINT64_C(0);
    case 2: return ~before[place];
    case 3: return before[count - 1 - place];                    /* the other way round: a rising directory */
    case 4: return before[(place + 1) % count];                  /* moved by one */
    case 5: return before[place ^ (count > 1 && place % 3 == 0)]; /* twice what stands beside it */
    case 6: return next() % 8 ? before[place] : 0;               /* holes */
    case 7: return next() % 8 ? before[place] : wrong_entry();
    case 8: return wrong_entry();
    case 9: return before[place] | next();
    default: return edge_word();
    }
}

/* A table that calls made, with one or more parts wrong, each in its own way. */
static void wrong_parts(abr_table *table)
{
    static uint64_t before[LAYOUT_WORDS];
    uint64_t times = 1 + next() % 3;
    reached_table(table);
    while (times--) {
        const part *p = &parts[next() % (sizeof parts / sizeof parts[0])];
        uint64_t how = next() % 11, *words = table->words + p->first;
        memcpy(before, words, p->count * sizeof *words);
        for (unsigned i = 0; i < p->count; i++) {
            words[i] = wrong_word(how, before, i, p->count);
        }
    }
}

/* All random, all at edges, or all of one word. */
static void random_table(abr_table *table, uint64_t kind)
{
    uint64_t one = edge_word();
    for (unsigned i = 0; i < ABR_TABLE_WORDS; i++) {
        table->words[i] = kind == 0 ? next() : kind == 1 ? edge_word() : one;
    }
}

/* All random, mostly zero, or made by calls and then with some words or whole parts wrong. */
static void arbitrary_table(abr_table *table)
{
    uint64_t kind = next() % 12;
    uint64_t wrong = 1 + next() % (kind == 5 ? 400 : 20);
    if (kind < 3) {
        random_table(table, kind);
        return;
    }
    if (kind > 5) {
        wrong_parts(table);
        return;
    }
    if (kind == 3) {
        memset(table, 0, sizeof *table);
    } else {
        reached_table(table);
    }
    while (wrong--) {
        uint64_t place = next() % 3 ? next() % ABR_TABLE_WORDS : next() % RECORDS;
        uint64_t bit = UINT64_C(1) << (next() & 63);
        table->words[place] = next() % 3 ? edge_word() : table->words[place] ^ bit;
    }
}

#endif
