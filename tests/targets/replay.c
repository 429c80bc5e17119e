/*
 * Makes the calls of the differential lists again, on any processor: replay <CALLS. CALLS is what
 * tests/differential/src/bin/calls.rs writes. After every thousand calls it prints a digest of every answer, every
 * octet written, every next ready instant, slot's time and allowed rate so far, of all that can be read of the pair of
 * each call, of a leaf, of a member and of the link, and of the words of the table: numbers, so that the order of
 * octets does not count. Two processors agree if they print the same.
 */
#include <stdio.h>
#include <stdlib.h>
#include <string.h>

#include "abr.h"

enum {
    OPEN, CLOSE, RECEIVE, OFFER, SET_LEVEL, SLOT, MAKE, OUT_OF_RATE, OPEN_PATH, ADD, OFFER_MEMBER, REMOVE, ACR, EXPORT,
    WRITE_RM, READ, CODE, RATE, IMPORT, FAIR_SHARE, LIMIT, PORT, JUDGE, HOUSE, NEW_LIST
};

enum { EVERY = 1000, LONGEST = 64, TRACE_MAX = 1 << 20 };

static abr_table table;
static uint8_t buffer[LONGEST], trace[TRACE_MAX];
static uint64_t demands[2048];
static uint64_t digest = 1;

static void fold(uint64_t number)
{
    digest = (digest ^ number) * UINT64_C(0x9E3779B97F4A7C15);
    digest ^= digest >> 29;
}

static void fold_octets(const uint8_t *octets, size_t count)
{
    for (size_t i = 0; i < count; i++) {
        fold(octets[i]);
    }
}

static void fail(const char *what)
{
    fprintf(stderr, "replay: %s\n", what);
    exit(2);
}

static int octet(void)
{
    int c = getchar_unlocked();
    if (c == EOF) {
        fail("the calls end inside a call");
    }
    return c;
}

/* a number as a trace has it; first is its first octet */
static uint64_t number_from(int first)
{
    uint64_t number = 0;
    unsigned shift = 0;
    for (int c = first;; c = octet()) {
        number |= (uint64_t)(c & 127) << shift;
        shift += 7;
        if (c < 128) {
            return number;
        }
    }
}

static uint64_t number(void) { return number_from(octet()); }
static uint32_t small(void) { return (uint32_t)number(); }

static size_t octets(uint8_t *into, size_t most)
{
    size_t count = (size_t)number();
    if (count > most) {
        fail("more octets than expected");
    }
    for (size_t i = 0; i < count; i++) {
        into[i] = (uint8_t)octet();
    }
    return count;
}

static size_t rates(void)
{
    size_t count = (size_t)number();
    if (count > sizeof demands / sizeof *demands) {
        fail("more demands than expected");
    }
    for (size_t i = 0; i < count; i++) {
        demands[i] = number();
    }
    return count;
}

static abr_params params(void)
{
    uint32_t p[11];
    for (size_t i = 0; i < 11; i++) {
        p[i] = small();
    }
    abr_params all = {p[0], p[1], p[2], p[3], p[4], p[5], p[6], p[7], p[8], p[9], p[10]};
    return all;
}

static abr_rm rm_fields(void)
{
    uint32_t f[12];
    for (size_t i = 0; i < 12; i++) {
        f[i] = small();
    }
    abr_rm all = {f[0], f[1], f[2], f[3], f[4], f[5], f[6], f[7], f[8], f[9], f[10], f[11]};
    return all;
}

static void fold_opened(abr_opened a)
{
    fold(a.refusal);
    fold(a.comparisons);
    fold(a.leaf);
}

static void fold_answer(abr_answer a)
{
    fold(a.refusal);
    fold(a.comparisons);
}

static void fold_closed(abr_closed a)
{
    fold(a.refusal);
    fold(a.comparisons);
    fold(a.cells);
}

static void fold_acr(uint32_t vpi, uint32_t vci)
{
    abr_allowed a = abr_acr(&table, vpi, vci);
    fold(a.refusal);
    fold(a.reserved);
    fold(a.acr);
    fold((uint64_t)a.change);
}

static void fold_rm(abr_rm f)
{
    const uint32_t all[12] = {f.vpi, f.vci, f.dir, f.bn, f.ci, f.ni, f.ra, f.er, f.ccr, f.mcr, f.ql, f.sn};
    for (size_t i = 0; i < 12; i++) {
        fold(all[i]);
    }
}

static void fold_params(abr_params p)
{
    const uint32_t all[11] = {p.pcr, p.mcr, p.icr, p.n, p.r, p.d, p.c, p.tbe, p.frtt, p.adtf, p.trm};
    for (size_t i = 0; i < 11; i++) {
        fold(all[i]);
    }
}

static void fold_connection(abr_connection c)
{
    const uint64_t times[] = {c.opened, c.last_sent, c.last_forward, c.ready, c.last_made, c.last_out_of_rate};
    const uint32_t names[] = {c.refusal, c.kind, c.vpi, c.vci, c.leaf, c.waiting, c.crm};
    const uint32_t counts[] = {c.k,      c.unanswered, c.backward_sent, c.efci,
                               c.turned, c.made_level, c.served,        c.reserved};
    for (size_t i = 0; i < sizeof names / sizeof *names; i++) {
        fold(names[i]);
    }
    fold_params(c.params);
    fold(c.icr_used);
    fold(c.acr);
    fold((uint64_t)c.change);
    for (size_t i = 0; i < sizeof times / sizeof *times; i++) {
        fold(times[i]);
    }
    for (size_t i = 0; i < sizeof counts / sizeof *counts; i++) {
        fold(counts[i]);
    }
}

/* what can be read of a pair, which may be of no connection */
static void fold_pair(uint32_t vpi, uint32_t vci)
{
    fold_acr(vpi, vci);
    fold_connection(abr_status(&table, vpi, vci));
}

static void fold_received(abr_received a)
{
    fold(a.refusal);
    fold(a.comparisons);
    fold(a.kind);
    fold(a.vpi);
    fold(a.vci);
    fold(a.leaf);
    fold(a.acr);
    fold_pair(a.vpi, a.vci);
}

static void fold_sent(abr_sent a)
{
    fold(a.refusal);
    fold(a.comparisons);
    fold(a.kind);
    fold(a.vpi);
    fold(a.vci);
    fold(a.leaf);
    fold(a.acr);
    fold(a.acr_before);
    fold(a.made);
    fold(a.reserved);
    fold_pair(a.vpi, a.vci);
}

/* a leaf and a member, drawn from the digest, among the first or among all and past their ends; and the link */
static void fold_drawn(void)
{
    uint32_t leaf = (uint32_t)(digest >> 50) & (digest & 1 ? 7u : 2047u);
    uint32_t number = (uint32_t)(digest >> 40) & (digest & 2 ? 7u : 511u);
    abr_totals link = abr_link(&table);
    fold_connection(abr_at(&table, leaf));
    abr_member member = abr_member_at(&table, number);
    fold(member.refusal);
    fold(member.vpi);
    fold(member.vci);
    fold(member.waiting);
    fold(link.connections);
    fold(link.connections_max);
    fold(link.members);
    fold(link.level);
    fold(link.last);
}

#ifndef ABR_NO_DOUBLES
static void fold_double(double x)
{
    uint64_t bits;
    memcpy(&bits, &x, sizeof bits);
    fold(bits);
}
#endif

/* the two calls with doubles; where they are left out their arguments are read all the same */
static void with_doubles(uint64_t sort)
{
    uint64_t first = number();
    uint32_t second = sort == EXPORT ? small() : 0;
#ifndef ABR_NO_DOUBLES
    if (sort == EXPORT) {
        uint32_t refusal = 99;
        abr_contract a = abr_export(&table, (uint32_t)first, second, &refusal);
        fold(refusal);
        fold_double(a.pcr);
        fold_double(a.mcr);
        fold_double(a.icr);
    } else {
        double x;
        memcpy(&x, &first, sizeof x);
        abr_imported a = abr_import(x);
        fold(a.refusal);
        fold(a.code);
        fold_double(a.remainder);
    }
#else
    (void)first;
    (void)second;
#endif
}

/* a call with a pair */
static void on_pair(uint64_t sort)
{
    uint32_t vpi = small(), vci = sort == OPEN_PATH ? ABR_PATH_VCI : small();
    uint64_t third = sort == CLOSE || sort == ADD || sort == REMOVE || sort == ACR ? 0 : number();
    switch (sort) {
    case OPEN: fold_opened(abr_open(&table, vpi, vci, third, params())); break;
    case OPEN_PATH: fold_opened(abr_open_path(&table, vpi, third, params())); break;
    case CLOSE: fold_closed(abr_close(&table, vpi, vci)); break;
    case REMOVE: fold_closed(abr_remove_member(&table, vpi, vci)); break;
    case ADD: fold_answer(abr_add_member(&table, vpi, vci)); break;
    case OFFER: fold_answer(abr_offer(&table, vpi, vci, third)); break;
    case OFFER_MEMBER: fold_answer(abr_offer_member(&table, vpi, vci, third)); break;
    case MAKE: fold_answer(abr_make(&table, vpi, vci, third)); break;
    case OUT_OF_RATE: fold(abr_out_of_rate(&table, vpi, vci, third, buffer, (size_t)number())); break;
    default: break;
    }
    fold_pair(vpi, vci);
}

/* The calls without a table on the octets of a cell or of a trace. */
static void on_octets(uint64_t sort)
{
    uint64_t first = sort == LIMIT || sort == PORT ? number() : 0;
    size_t count = sort == PORT ? rates() : 0;
    switch (sort) {
    case WRITE_RM: {
        abr_rm fields = rm_fields();
        fold(abr_write_rm(fields, buffer, (size_t)number()));
        break;
    }
    case READ: {
        abr_cell a = abr_read(buffer, octets(buffer, LONGEST));
        fold(a.refusal);
        fold(a.kind);
        fold(a.efci);
        fold_rm(a.rm);
        break;
    }
    case LIMIT: fold(abr_limit(first, buffer, octets(buffer, LONGEST))); break;
    case PORT: fold(abr_port(first, demands, count, buffer, octets(buffer, LONGEST))); break;
    case JUDGE: {
        abr_verdict a = abr_judge(trace, octets(trace, TRACE_MAX));
        fold(a.refusal);
        fold(a.rule);
        fold(a.cell);
        break;
    }
    default: fail("no such call");
    }
}

/* Those on rates alone. */
static void on_rates(uint64_t sort)
{
    uint64_t first = sort == FAIR_SHARE || sort == CODE ? number() : 0;
    switch (sort) {
    case CODE: {
        abr_coded a = abr_code(first);
        fold(a.refusal);
        fold(a.code);
        break;
    }
    case RATE: {
        abr_rated a = abr_rate(small());
        fold(a.refusal);
        fold(a.reserved);
        fold(a.rate);
        break;
    }
    case FAIR_SHARE: {
        abr_share a = abr_fair_share(first, demands, rates());
        fold(a.refusal);
        fold(a.limited);
        fold(a.rate);
        break;
    }
    case HOUSE: {
        uint32_t pcr = small(), mcr = small(), icr = small();
        fold_params(abr_house(pcr, mcr, icr));
        break;
    }
    default: fail("no such call");
    }
}

static void call(uint64_t sort)
{
    switch (sort) {
    case OPEN: case CLOSE: case OFFER: case MAKE: case OUT_OF_RATE: case OPEN_PATH: case ADD: case OFFER_MEMBER:
    case REMOVE: case ACR: on_pair(sort); break;
    case RECEIVE: fold_received(abr_receive(&table, buffer, octets(buffer, LONGEST))); break;
    case SET_LEVEL: fold(abr_set_level(&table, small())); break;
    case SLOT: {
        uint64_t time = number();
        fold_sent(abr_slot(&table, time, buffer, (size_t)number()));
        break;
    }
    case EXPORT: case IMPORT: with_doubles(sort); break;
    case CODE: case RATE: case FAIR_SHARE: case HOUSE: on_rates(sort); break;
    default: on_octets(sort);
    }
    fold_octets(buffer, LONGEST);
    fold_drawn();
    uint64_t next = abr_next_ready(&table);
    fold(next);
    fold(abr_slot_time(&table, next ^ digest >> 40, digest >> 44));
}

int main(void)
{
    uint64_t calls = 0;
    if (abr_version() != ABR_VERSION || abr_table_words() != ABR_TABLE_WORDS) {
        fail("abr.h and libabr.a do not belong together");
    }
    for (int c; (c = getchar_unlocked()) != EOF;) {
        uint64_t sort = number_from(c);
        if (sort == NEW_LIST) {
            memset(&table, 0, sizeof table);
            continue;
        }
        call(sort);
        if (++calls % EVERY == 0) {
            for (size_t i = 0; i < ABR_TABLE_WORDS; i++) {
                fold(table.words[i]);
            }
            printf("%llu calls %016llx\n", (unsigned long long)calls, (unsigned long long)digest);
        }
    }
    printf("%llu calls in all %016llx\n", (unsigned long long)calls, (unsigned long long)digest);
    return 0;
}
