/*
 * A scenario: two connections on one link, VCI 33 on VPI 0 and VCI 32 on VPI 1, at
 * 1,000 cells per second each. The first receives CI once, the second an explicit
 * rate; a cell is turned, and two are made. Then VCI 34 on VPI 255, without a minimum,
 * falls to rate 0 and has out-of-rate cells. Last a path on VPI 7 with two members. All
 * that can be read of them is read between. The numbers were computed by hand from
 * documents 01 and 02. Valid as C and as C++.
 */
#ifndef SCENARIO_H
#define SCENARIO_H

#include <string.h>

#include "abr.h"
#include "check.h"

#define MS UINT64_C(1000000)

/* VPI and VCI of the connections, each pair as two arguments; a slot that is idle has two zeros. */
#define FIRST 0u, 33u
#define SECOND 1u, 32u
#define THIRD 255u, 34u
#define NOT_OPEN 1u, 33u
#define PATH 7u, ABR_PATH_VCI
#define LOWER 7u, 40u
#define UPPER 7u, 50u
#define NOBODY 0u, 0u

/* The comparisons for a connection that wins every match, before the call or after it. */
#define ROUNDS ABR_COMPARISONS_MAX

/* No answer has padding: two are the same exactly if their octets are. */
#define SAME(a, b) (memcmp(&(a), &(b), sizeof(a)) == 0)

static const uint32_t thousand = 0x53E8, slowest = 0x4000;
static abr_table table;
static uint8_t cell[ABR_CELL_OCTETS];

/* The second is opened first, in leaf 0, and beside it the first in leaf 1. Each later one finds leaf 0 free. */
static int both_open;

static uint32_t leaf_of(uint32_t vpi)
{
    return both_open && vpi == 0 ? 1 : 0;
}

/* The earliest ready instant. */
static int next_is(uint64_t time)
{
    return abr_next_ready(&table) == time;
}

/* The time to pass to a slot whose own time is now. */
static int passed_is(uint64_t now, uint64_t lag, uint64_t time)
{
    return abr_slot_time(&table, now, lag) == time;
}

/* The slot at a time goes to a connection with this kind, and the rates before and after it. */
static int slot_moves(uint64_t time, uint32_t vpi, uint32_t vci, uint32_t kind, uint64_t before, uint64_t acr)
{
    abr_sent sent = abr_slot(&table, time, cell, sizeof cell);
    abr_sent expected = {ABR_OK, ROUNDS, kind, vpi, vci, leaf_of(vpi), acr, before, 0, 0};
    return SAME(sent, expected);
}

/* It leaves the rate as it is. A slot is idle, with zeros in all, exactly before the earliest ready instant. */
static int slot_is(uint64_t time, uint32_t vpi, uint32_t vci, uint32_t kind, uint64_t acr)
{
    static const abr_sent idle = {0, 0, 0, 0, 0, 0, 0, 0, 0, 0};
    int early = time < abr_next_ready(&table);
    if (kind == ABR_SENT_IDLE) {
        abr_sent sent = abr_slot(&table, time, cell, sizeof cell);
        return early && SAME(sent, idle);
    }
    return !early && slot_moves(time, vpi, vci, kind, acr, acr);
}

/* The slot at a time sends the cell that was made on a connection. */
static int slot_sends_made(uint64_t time, uint32_t vpi, uint32_t vci, uint64_t acr)
{
    abr_sent sent = abr_slot(&table, time, cell, sizeof cell);
    abr_sent expected = {ABR_OK, ROUNDS, ABR_SENT_TURNED, vpi, vci, leaf_of(vpi), acr, acr, 1, 0};
    return SAME(sent, expected);
}

/* Refusal and comparisons of an answer. */
static int is(abr_answer answer, uint32_t refusal, uint32_t comparisons)
{
    return answer.refusal == refusal && answer.comparisons == comparisons;
}

/* An open takes this leaf, with one comparison. */
static int opened_in(abr_opened opened, uint32_t leaf)
{
    return opened.refusal == ABR_OK && opened.comparisons == 1 && opened.leaf == leaf;
}

static int open_refused(abr_opened opened, uint32_t refusal)
{
    return opened.refusal == refusal && opened.comparisons == 0 && opened.leaf == 0;
}

/* The same of a close, and the data cells that waited (document 02, L12). */
static int closed_is(abr_closed closed, uint32_t refusal, uint32_t comparisons, uint64_t cells)
{
    return closed.refusal == refusal && closed.comparisons == comparisons && closed.cells == cells;
}

/* What was received, the leaf of its connection and the rate afterwards. */
static int received_is(abr_received received, uint32_t comparisons, uint32_t kind, uint32_t vpi, uint32_t vci,
                       uint64_t acr)
{
    abr_received expected = {ABR_OK, comparisons, kind, vpi, vci, leaf_of(vpi), acr};
    return SAME(received, expected);
}

static int receive_refused(abr_received received, uint32_t refusal)
{
    abr_received expected = {0, 0, 0, 0, 0, 0, 0};
    expected.refusal = refusal;
    return SAME(received, expected);
}

/* A backward cell for a connection is received. */
static abr_received feedback(uint32_t vpi, uint32_t vci, uint32_t ci, uint32_t er)
{
    abr_rm rm = {vpi, vci, 1, 0, ci, 0, 0, er, 0, 0, 0, 0};
    uint8_t octets[ABR_CELL_OCTETS];
    CHECK(abr_write_rm(rm, octets, sizeof octets) == ABR_OK);
    return abr_receive(&table, octets, sizeof octets);
}

/* The connection wins all its matches, before and after. */
static int feedback_gives(uint32_t vpi, uint32_t vci, uint32_t ci, uint32_t er, uint64_t acr)
{
    return received_is(feedback(vpi, vci, ci, er), ROUNDS, ABR_RECEIVED_BACKWARD, vpi, vci, acr);
}

/* A data cell is received, with or without the congestion mark; octet 5 is found by trying all. */
static abr_received data_cell(uint32_t vpi, uint32_t vci, uint32_t efci)
{
    uint8_t octets[ABR_CELL_OCTETS] = {0};
    unsigned check = 0;
    octets[0] = (uint8_t)(vpi >> 4);
    octets[1] = (uint8_t)(vpi << 4 | vci >> 12);
    octets[2] = (uint8_t)(vci >> 4);
    octets[3] = (uint8_t)(vci << 4 | efci << 2);
    do {
        octets[4] = (uint8_t)check;
    } while (abr_read(octets, sizeof octets).refusal != ABR_OK && ++check < 256);
    return abr_receive(&table, octets, sizeof octets);
}

/* The allowed rate of a connection, and what its last backward cell made of it (document 02, L9). */
static int acr_is(uint32_t vpi, uint32_t vci, uint64_t acr, int64_t change)
{
    abr_allowed allowed = abr_acr(&table, vpi, vci), expected = {ABR_OK, 0, acr, change};
    return SAME(allowed, expected);
}

/* A channel as its open leaves it, with the house set: CRM is 16,777,215 / 32, rounded up. */
static abr_connection opened_channel(uint32_t vpi, uint32_t vci, uint64_t time)
{
    abr_connection it;
    memset(&it, 0, sizeof it);
    it.kind = ABR_CHANNEL;
    it.vpi = vpi;
    it.vci = vci;
    it.leaf = leaf_of(vpi);
    it.params = abr_house(thousand, slowest, thousand);
    it.crm = 524288;
    it.icr_used = it.acr = 512000;
    it.opened = time;
    it.last_sent = it.last_forward = it.ready = it.last_made = it.last_out_of_rate = ABR_NEVER;
    return it;
}

/* All that can be read of a pair; the leaf has the same of a channel or a path. */
static int status_is(abr_connection expected)
{
    abr_connection status = abr_status(&table, expected.vpi, expected.vci), there = abr_at(&table, expected.leaf);
    return SAME(status, expected) && (expected.kind == ABR_MEMBER || SAME(there, expected));
}

/* A member of a path: its own name and data, all else is the path's. */
static int member_status_is(abr_connection path, uint32_t vci, uint32_t waiting)
{
    path.kind = ABR_MEMBER;
    path.vci = vci;
    path.waiting = waiting;
    return status_is(path);
}

/* Nothing is read where nothing is open: zeros beside the refusal. */
static int unread(abr_connection status)
{
    abr_connection expected;
    memset(&expected, 0, sizeof expected);
    expected.refusal = ABR_REFUSED_NOT_OPEN;
    return SAME(status, expected);
}

static int member_is(const abr_table *of, uint32_t number, uint32_t vpi, uint32_t vci, uint32_t waiting)
{
    abr_member member = abr_member_at(of, number), expected = {ABR_OK, vpi, vci, waiting};
    return SAME(member, expected);
}

/* There are so many members, and none with that number or a greater one. */
static int members_end(const abr_table *of, uint32_t number)
{
    const uint32_t numbers[] = {number, 255, 256, 257, 65536 + number - 1, 0x80000000u, 0xFFFFFFFFu};
    static const abr_member none = {ABR_REFUSED_NOT_OPEN, 0, 0, 0};
    int wrong = number > 255 || abr_link(of).members != number;
    for (size_t i = 0; i < sizeof numbers / sizeof numbers[0]; i++) {
        abr_member member = abr_member_at(of, numbers[i]);
        wrong |= !SAME(member, none);
    }
    return !wrong;
}

/* What belongs to no single connection: how many there are, the level and the last accepted time. */
static int link_is(uint32_t connections, uint32_t members, uint32_t level, uint64_t last)
{
    abr_totals link = abr_link(&table), expected = {connections, ABR_CONNECTIONS_MAX, members, level, last};
    return SAME(link, expected);
}

/* What must be read of the two, brought up to date by hand after each part. */
static abr_connection first, second;

static int both_read(void)
{
    return status_is(first) && status_is(second);
}

static void opens(void)
{
    abr_params params = abr_house(thousand, slowest, thousand);
    CHECK(params.pcr == thousand && params.mcr == slowest && params.icr == thousand);
    CHECK(params.n == ABR_HOUSE_N && params.r == ABR_HOUSE_R && params.d == ABR_HOUSE_D);
    CHECK(params.c == ABR_HOUSE_C && params.tbe == ABR_HOUSE_TBE && params.frtt == ABR_HOUSE_FRTT);
    CHECK(params.adtf == ABR_HOUSE_ADTF && params.trm == ABR_HOUSE_TRM);
    CHECK(link_is(0, 0, 0, 0) && members_end(&table, 0));
    CHECK(unread(abr_at(&table, 0)) && unread(abr_status(&table, SECOND)));
    CHECK(open_refused(abr_open(&table, 256, 31, 0, params), ABR_REFUSED_LOW_VCI));
    CHECK(next_is(ABR_NEVER));
    both_open = 1;
    CHECK(opened_in(abr_open(&table, SECOND, 0, params), 0) && opened_in(abr_open(&table, FIRST, 0, params), 1));
    CHECK(open_refused(abr_open(&table, FIRST, 0, params), ABR_REFUSED_ALREADY_OPEN));
    first = opened_channel(FIRST, 0);
    second = opened_channel(SECOND, 0);
    CHECK(both_read() && link_is(2, 0, 0, 0));
    CHECK(next_is(ABR_NEVER) && passed_is(7, 3, 7)); /* nothing waits */
    CHECK(is(abr_offer(&table, FIRST, 100), ABR_OK, ROUNDS));
    CHECK(is(abr_offer(&table, SECOND, 100), ABR_OK, 1));
    first.waiting = second.waiting = 100;
    first.ready = second.ready = 0; /* their opening */
    CHECK(next_is(0) && both_read());
    CHECK(is(abr_offer(&table, NOT_OPEN, 100), ABR_REFUSED_NOT_OPEN, 0));
    CHECK(is(abr_offer(&table, SECOND, ABR_WAITING_MAX), ABR_REFUSED_TOO_MUCH_DATA, 0));
}

/* Leaves in which nothing is open, and numbers past the last leaf, which are never cut to one that is taken. */
static void free_leaves(void)
{
    static const uint32_t leaves[] = {2,    ABR_CONNECTIONS_MAX - 1, ABR_CONNECTIONS_MAX, ABR_CONNECTIONS_MAX + 1,
                                      1023, 2 * ABR_CONNECTIONS_MAX, 65536,               65537,
                                      1024, 0x80000000u,             0xFFFFFFFFu};
    for (size_t i = 0; i < sizeof leaves / sizeof leaves[0]; i++) {
        CHECK(unread(abr_at(&table, leaves[i])));
    }
    CHECK(unread(abr_status(&table, NOT_OPEN)) && unread(abr_status(&table, 0, ABR_PATH_VCI)));
}

/* A VPI over 255 or a VCI over 65,535 is never cut or added to make a connection that is open (document 02, L6). */
static void out_of_range(uint32_t vpi, uint32_t vci)
{
    uint32_t refusal = ABR_OK;
    abr_rm rm = {0, 0, 1, 0, 0, 0, 0, 0, 0, 0, 0, 0};
    rm.vpi = vpi;
    rm.vci = vci;
    CHECK(open_refused(abr_open(&table, vpi, vci, 0, abr_house(thousand, slowest, thousand)), ABR_REFUSED_RANGE));
    CHECK(closed_is(abr_close(&table, vpi, vci), ABR_REFUSED_NOT_OPEN, 0, 0));
    CHECK(is(abr_offer(&table, vpi, vci, 1), ABR_REFUSED_NOT_OPEN, 0));
    CHECK(is(abr_add_member(&table, vpi, vci), ABR_REFUSED_NOT_OPEN, 0));
    CHECK(is(abr_offer_member(&table, vpi, vci, 1), ABR_REFUSED_NOT_OPEN, 0));
    CHECK(closed_is(abr_remove_member(&table, vpi, vci), ABR_REFUSED_NOT_OPEN, 0, 0));
    CHECK(is(abr_make(&table, vpi, vci, 0), ABR_REFUSED_NOT_OPEN, 0));
    CHECK(abr_out_of_rate(&table, vpi, vci, 0, cell, sizeof cell) == ABR_REFUSED_NOT_OPEN);
    CHECK(abr_acr(&table, vpi, vci).refusal == ABR_REFUSED_NOT_OPEN && unread(abr_status(&table, vpi, vci)));
    CHECK(abr_export(&table, vpi, vci, &refusal).pcr == 0 && refusal == ABR_REFUSED_NOT_OPEN);
    CHECK(abr_write_rm(rm, cell, sizeof cell) == ABR_REFUSED_RANGE);
}

/* The slot's cell, read. */
static abr_rm rm_in_cell(void)
{
    abr_cell read = abr_read(cell, sizeof cell);
    CHECK(read.refusal == ABR_OK && read.kind == ABR_CELL_RM && read.efci == 0);
    return read.rm;
}

static void both_send(void)
{
    abr_rm rm;
    CHECK(slot_is(0, FIRST, ABR_SENT_FORWARD, 512000));
    rm = rm_in_cell();
    CHECK(rm.vpi == 0 && rm.vci == 33 && rm.dir == 0);
    CHECK(rm.er == thousand && rm.ccr == thousand && rm.mcr == slowest);
    CHECK(next_is(0) && slot_is(1, SECOND, ABR_SENT_FORWARD, 512000) && next_is(1 * MS));
    CHECK(slot_is(2, NOBODY, ABR_SENT_IDLE, 0));
    CHECK(passed_is(1, 9, 1) && passed_is(2, 9, 2)); /* before the last time, and at it */
    CHECK(passed_is(1 * MS - 1, ABR_NEVER, 1 * MS - 1)); /* nothing is ready */
    CHECK(passed_is(1 * MS + 5, 10, 1 * MS) && passed_is(1 * MS + 5, 5, 1 * MS) && passed_is(1 * MS + 5, 2, 1 * MS + 3));
    CHECK(passed_is(1 * MS + 5, 0, 1 * MS + 5) && passed_is(1 * MS + 5, ABR_NEVER, 1 * MS));
    CHECK(passed_is(ABR_NEVER, ABR_NEVER, 1 * MS) && passed_is(ABR_NEVER, 1, ABR_NEVER - 1));
    CHECK(slot_is(1 * MS, FIRST, ABR_SENT_DATA, 512000));
    CHECK(next_is(1 * MS + 1) && slot_is(1 * MS + 1, SECOND, ABR_SENT_DATA, 512000) && next_is(2 * MS));
    first.waiting = second.waiting = 99;
    first.k = first.unanswered = second.k = second.unanswered = 1;
    first.last_forward = 0;
    first.last_sent = 1 * MS;
    first.ready = 2 * MS;
    second.last_forward = 1;
    second.last_sent = 1 * MS + 1;
    second.ready = 2 * MS + 1;
    CHECK(both_read() && link_is(2, 0, 0, 1 * MS + 1));
}

static void feedback_moves_the_rates(void)
{
    CHECK(feedback_gives(FIRST, 1, ABR_CODE_MAX, 480000));
    CHECK(acr_is(FIRST, 480000, -32000) && acr_is(SECOND, 512000, 0) && next_is(2 * MS + 1));
    CHECK(feedback_gives(SECOND, 0, 0x4E00, 65536)); /* 128 cells per second */
    CHECK(acr_is(SECOND, 65536, 65536 - 512000) && next_is(2 * MS + 66667));
    CHECK(slot_is(2 * MS + 66666, NOBODY, ABR_SENT_IDLE, 0)); /* the gap is 1,066,667 */
    CHECK(slot_is(2 * MS + 66667, FIRST, ABR_SENT_DATA, 480000));
    CHECK(slot_is(8 * MS + 812500, FIRST, ABR_SENT_DATA, 480000));
    CHECK(slot_is(8 * MS + 812501, SECOND, ABR_SENT_DATA, 65536)); /* 7,812,500 */
    CHECK(feedback_gives(FIRST, 0, ABR_CODE_MAX, 512000));
    CHECK(acr_is(FIRST, 512000, 32000));
    first.waiting = 97;
    first.change = 32000;
    first.last_sent = 8 * MS + 812500;
    first.ready = 9 * MS + 812500;
    first.k = 3;
    second.waiting = 98;
    second.acr = 65536;
    second.change = -446464;
    second.last_sent = 8 * MS + 812501;
    second.ready = 16 * MS + 625001;
    second.k = 2;
    first.unanswered = second.unanswered = 0;
    CHECK(both_read());
}

/* It is received twice before it is sent: the first is marked by the level, and its CI is kept. */
static void a_cell_is_turned(void)
{
    abr_rm rm = {FIRST, 0, 0, 0, 0, 0, thousand, thousand, slowest, 0, 0};
    uint8_t octets[ABR_CELL_OCTETS];
    CHECK(abr_set_level(&table, 3) == ABR_REFUSED_TOO_LARGE);
    CHECK(abr_write_rm(rm, octets, sizeof octets) == ABR_OK);
    CHECK(abr_set_level(&table, 2) == ABR_OK);
    CHECK(received_is(abr_receive(&table, octets, sizeof octets), ROUNDS, ABR_RECEIVED_FORWARD, FIRST, 512000));
    first.turned = 1;
    CHECK(both_read() && link_is(2, 0, 2, 8 * MS + 812501));
    CHECK(abr_set_level(&table, 0) == ABR_OK);
    CHECK(received_is(abr_receive(&table, octets, sizeof octets), ROUNDS, ABR_RECEIVED_FORWARD, FIRST, 512000));
    CHECK(slot_is(20 * MS, FIRST, ABR_SENT_TURNED, 512000));
    first.turned = 0;
    first.backward_sent = 1;
    first.last_sent = 20 * MS;
    first.ready = 21 * MS;
    first.k = 4;
    CHECK(both_read());
    rm = rm_in_cell();
    CHECK(rm.vpi == 0 && rm.vci == 33 && rm.dir == 1 && rm.ci == 1 && rm.ni == 0);
    CHECK(rm.er == thousand && rm.ccr == thousand && rm.mcr == slowest);
}

/* Two cells are made on the second, which is due since 16,625,001; the first is due at 21 ms too, but later. */
static void cells_are_made(void)
{
    abr_rm rm;
    CHECK(is(abr_make(&table, SECOND, ABR_TIME_MAX + 1), ABR_REFUSED_TIME, 0));
    CHECK(is(abr_make(&table, NOT_OPEN, 21 * MS), ABR_REFUSED_NOT_OPEN, 0));
    CHECK(is(abr_make(&table, SECOND, 20 * MS - 1), ABR_REFUSED_TIME_BACKWARD, 0));
    CHECK(abr_set_level(&table, 2) == ABR_OK);
    CHECK(is(abr_make(&table, SECOND, 21 * MS), ABR_OK, ROUNDS));
    second.made_level = 2;
    second.last_made = 21 * MS;
    CHECK(both_read());
    CHECK(abr_slot(&table, 21 * MS - 1, cell, sizeof cell).refusal == ABR_REFUSED_TIME_BACKWARD);
    CHECK(abr_set_level(&table, 1) == ABR_OK);
    CHECK(slot_sends_made(21 * MS, SECOND, 65536));
    rm = rm_in_cell();
    CHECK(rm.vpi == 1 && rm.vci == 32 && rm.dir == 1 && rm.bn == 1 && rm.ci == 1 && rm.ni == 0 && rm.ra == 0);
    CHECK(rm.er == thousand && rm.ccr == 0 && rm.mcr == 0 && rm.ql == 0 && rm.sn == 0);
    CHECK(is(abr_make(&table, SECOND, 121 * MS - 1), ABR_REFUSED_MADE_TOO_SOON, 0));
    CHECK(is(abr_make(&table, SECOND, 121 * MS), ABR_OK, 1));
    second.made_level = second.backward_sent = 1; /* this one at level 1, and one was sent */
    second.last_made = 121 * MS;
    second.last_sent = 21 * MS;
    second.ready = 28 * MS + 812500;
    second.k = 3;
    CHECK(both_read() && link_is(2, 0, 1, 121 * MS));
    CHECK(abr_set_level(&table, 0) == ABR_OK);
    CHECK(is(abr_make(&table, SECOND, 300 * MS), ABR_REFUSED_NOT_CONGESTED, 0));
}

/* The mark of the last data cell is saved. The first wins its matches; the second loses its own, which ends it. */
static void data_is_received(void)
{
    CHECK(received_is(data_cell(FIRST, 1), ROUNDS, ABR_RECEIVED_DATA, FIRST, 512000));
    CHECK(received_is(data_cell(SECOND, 1), 1, ABR_RECEIVED_DATA, SECOND, 65536));
    first.efci = second.efci = 1;
    CHECK(both_read());
    CHECK(received_is(data_cell(FIRST, 0), ROUNDS, ABR_RECEIVED_DATA, FIRST, 512000));
    first.efci = 0;
    CHECK(both_read() && receive_refused(data_cell(NOT_OPEN, 1), ABR_REFUSED_NOT_OPEN) && both_read());
}

/* A rate and the refusal beside it. */
static int rate_is(uint32_t code, uint32_t refusal, uint64_t rate)
{
    abr_rated rated = abr_rate(code), expected = {refusal, 0, rate};
    return SAME(rated, expected);
}

/* 1,000 cells per second and its code; beside a refusal there is 0. */
static void codes(void)
{
    abr_coded coded = abr_code(512000);
    CHECK(coded.refusal == ABR_OK && coded.code == thousand);
    coded = abr_code(ABR_RATE_MAX + 1);
    CHECK(coded.refusal == ABR_REFUSED_TOO_LARGE && coded.code == 0);
    CHECK(rate_is(thousand, ABR_OK, 512000) && rate_is(0x10000 | thousand, ABR_REFUSED_RANGE, 0));
    CHECK(rate_is(0x8000 | thousand, ABR_REFUSED_RESERVED_BIT, 0));
    CHECK(abr_rate(0x18000).refusal == ABR_REFUSED_RANGE && abr_rate(0x4000).rate == 512);
}

/* An import has this code and remainder. */
static int import_is(double cells, uint32_t code, double remainder)
{
    abr_imported imported = abr_import(cells);
    return imported.refusal == ABR_OK && imported.code == code && imported.remainder == remainder;
}

static int import_refused(double cells)
{
    abr_imported imported = abr_import(cells);
    return imported.refusal == ABR_REFUSED_DOUBLE && imported.code == 0 && imported.remainder == 0;
}

/* Doubles (document 02, L8). At 1,000 cells per second code rates are 1 apart; the largest is 2^32 - 2^22. */
static void doubles(void)
{
    const double two_to_32 = 4294967296.0, infinite = 1e300 * 1e300;
    CHECK(import_is(0.0, 0, 0) && import_is(-0.0, 0, 0));
    CHECK(import_is(1.0, 0x4000, 0) && import_is(1000, thousand, 0));
    CHECK(import_is(1000.25, thousand, 0.25) && import_is(1000.75, thousand, 0.75));
    CHECK(import_is(two_to_32 - 4194304, ABR_CODE_MAX, 0));
    CHECK(import_is(two_to_32 - 1, ABR_CODE_MAX, 4194303));
    CHECK(import_refused(two_to_32) && import_refused(0.9999999) && import_refused(1e-310));
    CHECK(import_refused(-1.0) && import_refused(-1e-310));
    CHECK(import_refused(infinite) && import_refused(-infinite) && import_refused(infinite - infinite));
}

/* A connection has the contract of both, or is refused. */
static void exports(uint32_t vpi, uint32_t vci, uint32_t expected)
{
    uint32_t refusal = 99;
    abr_contract contract = abr_export(&table, vpi, vci, &refusal);
    double cells = expected == ABR_OK ? 1000 : 0, least = expected == ABR_OK ? 1 : 0;
    CHECK(refusal == expected && contract.pcr == cells && contract.mcr == least && contract.icr == cells);
}

/* The share of a capacity among four demands, whose sum is 2,000 (document 02, L10); ~0 if there is no limit. */
static uint64_t share_of(uint64_t capacity)
{
    static const uint64_t demands[4] = {800, 0, 200, 1000};
    abr_share share = abr_fair_share(capacity, demands, 4);
    CHECK(share.refusal == ABR_OK && share.limited <= 1 && (share.limited || share.rate == ABR_RATE_MAX));
    return share.limited ? share.rate : ~UINT64_C(0);
}

/* Too many demands, and too large a one: before anything about the cell, and with zeros beside the refusal. */
static void demands_refused(void)
{
    static uint64_t demands[ABR_DEMANDS_MAX + 1];
    abr_share share;
    demands[0] = ABR_RATE_MAX;
    share = abr_fair_share(9, demands, ABR_DEMANDS_MAX);
    CHECK(share.refusal == ABR_OK && share.limited == 1 && share.rate == 9);
    demands[0]++;
    share = abr_fair_share(9, demands, ABR_DEMANDS_MAX);
    CHECK(share.refusal == ABR_REFUSED_DEMAND_TOO_LARGE && share.limited == 0 && share.rate == 0);
    share = abr_fair_share(9, demands, ABR_DEMANDS_MAX + 1);
    CHECK(share.refusal == ABR_REFUSED_TOO_MANY_DEMANDS && share.limited == 0 && share.rate == 0);
    CHECK(abr_port(9, demands, ABR_DEMANDS_MAX, cell, 52) == ABR_REFUSED_DEMAND_TOO_LARGE);
    CHECK(abr_port(9, demands, ABR_DEMANDS_MAX + 1, cell, 52) == ABR_REFUSED_TOO_MANY_DEMANDS);
}

/* ER of a backward or forward cell that has passed a port with one demand of 2,000 cells per second; the rest stays. */
static uint32_t er_after(uint32_t dir, uint32_t er, uint64_t capacity)
{
    static const uint64_t demand = 1024000;
    abr_rm rm = {FIRST, 0, 0, 1, 0, 1, 0, thousand, slowest, 7, 9}, after;
    rm.dir = dir;
    rm.er = er;
    CHECK(abr_write_rm(rm, cell, sizeof cell) == ABR_OK);
    CHECK(abr_port(capacity, &demand, 1, cell, sizeof cell) == ABR_OK);
    after = rm_in_cell();
    rm.er = after.er;
    CHECK(memcmp(&after, &rm, sizeof rm) == 0);
    return after.er;
}

/* The rate of no limit leaves a backward cell as it is, but for a code of rate 0, which any limit writes as 0x0000. */
static void no_limit_limits_nothing(void)
{
    static const uint32_t codes[] = {ABR_CODE_MAX, 0x53E8, 0x4000, 0, 0x3FFF};
    static const uint64_t demand = 1;
    abr_share share = abr_fair_share(0, &demand, 0);
    CHECK(share.refusal == ABR_OK && share.limited == 0 && share.rate == ABR_RATE_MAX);
    for (size_t i = 0; i < sizeof codes / sizeof codes[0]; i++) {
        uint8_t before[ABR_CELL_OCTETS];
        abr_rm rm = {FIRST, 1, 0, 1, 0, 1, 0, thousand, slowest, 7, 9};
        rm.er = codes[i];
        CHECK(abr_write_rm(rm, cell, sizeof cell) == ABR_OK);
        memcpy(before, cell, sizeof before);
        CHECK(abr_limit(share.rate, cell, sizeof cell) == ABR_OK);
        CHECK((memcmp(before, cell, sizeof before) == 0) == (codes[i] != 0x3FFF));
        CHECK(rm_in_cell().er == (codes[i] == 0x3FFF ? 0 : codes[i]));
    }
}

/* A port: the share, and ER lowered to it. 512,511 is between the rates of 0x53E8 and the code after it. */
static void passes_a_port(void)
{
    CHECK(share_of(2000) == ~UINT64_C(0) && share_of(1999) == 999 && share_of(1800) == 800);
    CHECK(share_of(1799) == 799 && share_of(601) == 200 && share_of(599) == 199 && share_of(2) == 0);
    demands_refused();
    no_limit_limits_nothing();
    CHECK(er_after(1, ABR_CODE_MAX, 512511) == thousand && er_after(1, ABR_CODE_MAX, 0) == 0);
    CHECK(er_after(1, slowest, 512000) == slowest && er_after(1, 0x3FFF, 512000) == 0);
    CHECK(er_after(1, ABR_CODE_MAX, 1024000) == ABR_CODE_MAX && er_after(0, ABR_CODE_MAX, 512000) == ABR_CODE_MAX);
    CHECK(abr_limit(ABR_RATE_ONE, cell, 52) == ABR_REFUSED_LENGTH);
    cell[20] ^= 1;
    CHECK(abr_limit(ABR_RATE_ONE, cell, sizeof cell) == ABR_REFUSED_CRC);
}

/* Gives octets the CRC-10 that belongs in them, found by trying all; their refusal then. */
static uint32_t read_with_crc(uint8_t *octets)
{
    uint32_t crc = 0, refusal;
    do {
        octets[51] = (uint8_t)(crc >> 8);
        octets[52] = (uint8_t)crc;
        refusal = abr_read(octets, ABR_CELL_OCTETS).refusal;
    } while (refusal == ABR_REFUSED_CRC && ++crc < 1024);
    return refusal;
}

/* Bit 15 in each rate code of a cell alone, of a connection that is open or not (document 02, L7). */
static void reserved_bit_in_a_cell(uint32_t vpi, uint32_t vci)
{
    abr_rm rm = {0, 0, 1, 0, 0, 0, 0, 0x4000, 0x4000, 0x4000, 0, 0};
    uint8_t octets[ABR_CELL_OCTETS];
    rm.vpi = vpi;
    rm.vci = vci;
    for (int code = 7; code <= 11; code += 2) {
        CHECK(abr_write_rm(rm, octets, sizeof octets) == ABR_OK);
        octets[code] |= 0x80;
        CHECK(receive_refused(abr_receive(&table, octets, sizeof octets), ABR_REFUSED_CRC));
        CHECK(read_with_crc(octets) == ABR_REFUSED_RESERVED_BIT);
        CHECK(receive_refused(abr_receive(&table, octets, sizeof octets), ABR_REFUSED_RESERVED_BIT));
        octets[5] = 2;
        CHECK(read_with_crc(octets) == ABR_REFUSED_PROTOCOL);
    }
}

/* The same in each rate code of an open, of an address that is out of range too. */
static void reserved_bit_in_an_open(void)
{
    uint32_t codes[3];
    for (int place = 0; place < 3; place++) {
        abr_params params;
        codes[0] = codes[2] = thousand;
        codes[1] = slowest;
        codes[place] |= 0x8000;
        params = abr_house(codes[0], codes[1], codes[2]);
        CHECK(open_refused(abr_open(&table, NOT_OPEN, 0, params), ABR_REFUSED_RESERVED_BIT));
        CHECK(open_refused(abr_open(&table, 256, 32, 0, params), ABR_REFUSED_RESERVED_BIT));
        CHECK(open_refused(abr_open(&table, 256, 31, 0, params), ABR_REFUSED_LOW_VCI));
        codes[place] |= 0x10000;
        params = abr_house(codes[0], codes[1], codes[2]);
        CHECK(open_refused(abr_open(&table, NOT_OPEN, 0, params), ABR_REFUSED_RANGE));
    }
}

/* 100 cells were offered to each; the first had three data slots, the second two. Only data cells count. */
static void closes(void)
{
    abr_allowed allowed;
    CHECK(closed_is(abr_close(&table, FIRST), ABR_OK, ROUNDS, 97));
    CHECK(closed_is(abr_close(&table, FIRST), ABR_REFUSED_NOT_OPEN, 0, 0));
    allowed = abr_acr(&table, FIRST);
    CHECK(allowed.refusal == ABR_REFUSED_NOT_OPEN && allowed.reserved == 0 && allowed.acr == 0 && allowed.change == 0);
    CHECK(unread(abr_status(&table, FIRST)) && unread(abr_at(&table, 1)));
    CHECK(status_is(second) && link_is(1, 0, 0, 121 * MS));
    CHECK(closed_is(abr_close(&table, SECOND), ABR_OK, ROUNDS, 98) && next_is(ABR_NEVER));
    CHECK(unread(abr_at(&table, 0)) && link_is(0, 0, 0, 121 * MS));
    both_open = 0;
}

/* The refusals of an out-of-rate cell in their order; nothing else is open, and the last time is 121 ms. */
static void out_of_rate_refused(void)
{
    CHECK(abr_out_of_rate(&table, NOT_OPEN, ABR_TIME_MAX + 1, cell, 52) == ABR_REFUSED_LENGTH);
    CHECK(abr_out_of_rate(&table, NOT_OPEN, ABR_TIME_MAX + 1, cell, sizeof cell) == ABR_REFUSED_TIME);
    CHECK(abr_out_of_rate(&table, NOT_OPEN, 0, cell, sizeof cell) == ABR_REFUSED_NOT_OPEN);
    CHECK(abr_out_of_rate(&table, THIRD, 121 * MS - 1, cell, sizeof cell) == ABR_REFUSED_TIME_BACKWARD);
    CHECK(abr_out_of_rate(&table, THIRD, 200 * MS, cell, sizeof cell) == ABR_OK);
    CHECK(abr_out_of_rate(&table, THIRD, 200 * MS - 1, cell, sizeof cell) == ABR_REFUSED_TIME_BACKWARD);
    CHECK(abr_out_of_rate(&table, THIRD, 300 * MS - 1, cell, sizeof cell) == ABR_REFUSED_OUT_OF_RATE_TOO_SOON);
    CHECK(abr_out_of_rate(&table, THIRD, 300 * MS, cell, sizeof cell) == ABR_OK);
}

/* It has sent nothing from a slot, and its minimum is kept as it was given. */
static int third_is_read(void)
{
    abr_connection third = opened_channel(THIRD, 121 * MS);
    third.params.mcr = 0x01FF;
    third.waiting = 10;
    third.acr = 0;
    third.change = -512000;
    third.last_out_of_rate = 300 * MS;
    return status_is(third) && link_is(1, 0, 0, 300 * MS);
}

/* An explicit rate of 0 stops the third before its first cell; a later one raises it by a sixteenth of its peak. */
static void without_a_minimum(void)
{
    abr_rm rm;
    CHECK(opened_in(abr_open(&table, THIRD, 121 * MS, abr_house(thousand, 0x01FF, thousand)), 0));
    CHECK(is(abr_offer(&table, THIRD, 10), ABR_OK, ROUNDS));
    CHECK(feedback_gives(THIRD, 0, 0, 0));
    CHECK(acr_is(THIRD, 0, -512000) && next_is(ABR_NEVER) && slot_is(121 * MS, NOBODY, ABR_SENT_IDLE, 0));
    out_of_rate_refused();
    CHECK(cell[0] == 0x0F && cell[1] == 0xF0 && cell[2] == 0x02 && cell[3] == 0x2D); /* payload type 6, CLP 1 */
    rm = rm_in_cell();
    CHECK(rm.vpi == 255 && rm.vci == 34 && rm.dir == 0 && rm.bn == 0 && rm.ci == 0 && rm.ni == 0 && rm.ra == 0);
    CHECK(rm.er == thousand && rm.ccr == 0 && rm.mcr == 0 && rm.ql == 0 && rm.sn == 0);
    CHECK(abr_slot(&table, 300 * MS - 1, cell, sizeof cell).refusal == ABR_REFUSED_TIME_BACKWARD);
    CHECK(slot_is(300 * MS, NOBODY, ABR_SENT_IDLE, 0) && third_is_read());
    CHECK(feedback_gives(THIRD, 0, ABR_CODE_MAX, 32000));
    CHECK(acr_is(THIRD, 32000, 32000) && next_is(121 * MS)); /* its opening */
    CHECK(passed_is(310 * MS, 190 * MS, 300 * MS) && passed_is(310 * MS, 9 * MS, 301 * MS)); /* since the last slot */
    CHECK(passed_is(300 * MS - 1, 190 * MS, 300 * MS - 1));
    CHECK(slot_is(300 * MS, THIRD, ABR_SENT_FORWARD, 32000) && next_is(316 * MS));
    rm = rm_in_cell();
    CHECK(rm.er == thousand && rm.ccr == 0x4BE8 && rm.mcr == 0 && cell[3] == 0x2C);
    CHECK(slot_is(316 * MS - 1, NOBODY, ABR_SENT_IDLE, 0)); /* the gap is 16 ms */
    CHECK(slot_is(316 * MS, THIRD, ABR_SENT_DATA, 32000));
    CHECK(closed_is(abr_close(&table, THIRD), ABR_OK, ROUNDS, 9));
}

/* The refusals of adding, in their order, with the path open and UPPER its member; then those of its plain calls. */
static void members_refused(abr_params params)
{
    CHECK(is(abr_add_member(&table, 256, 31), ABR_REFUSED_LOW_VCI, 0));
    CHECK(is(abr_add_member(&table, PATH), ABR_REFUSED_LOW_VCI, 0));
    CHECK(is(abr_add_member(&table, 7 + 256, 50), ABR_REFUSED_NOT_OPEN, 0));
    CHECK(is(abr_add_member(&table, 7, 65536 + 50), ABR_REFUSED_NOT_OPEN, 0));
    CHECK(opened_in(abr_open(&table, LOWER, 400 * MS, params), 1)); /* beside the path */
    CHECK(is(abr_add_member(&table, LOWER), ABR_REFUSED_ALREADY_OPEN, 0));
    CHECK(closed_is(abr_close(&table, LOWER), ABR_OK, 1, 0));
    CHECK(is(abr_add_member(&table, UPPER), ABR_REFUSED_ALREADY_MEMBER, 0));
    CHECK(open_refused(abr_open(&table, UPPER, 400 * MS, params), ABR_REFUSED_ALREADY_MEMBER));
    CHECK(is(abr_offer(&table, UPPER, 1), ABR_REFUSED_NOT_OPEN, 0));
    CHECK(is(abr_offer(&table, PATH, 1), ABR_REFUSED_NOT_A_MEMBER, 0));
    CHECK(is(abr_offer_member(&table, LOWER, 1), ABR_REFUSED_NOT_A_MEMBER, 0));
    CHECK(is(abr_offer_member(&table, 8, 50, 1), ABR_REFUSED_NOT_OPEN, 0));
    CHECK(is(abr_offer_member(&table, 7 + 256, 50, 1), ABR_REFUSED_NOT_OPEN, 0));
    CHECK(is(abr_offer_member(&table, 7, 65536 + 50, 1), ABR_REFUSED_NOT_A_MEMBER, 0)); /* and the path is open */
    CHECK(is(abr_offer_member(&table, 6, 65536 + 50, 1), ABR_REFUSED_NOT_OPEN, 0)); /* which VPI 6 has not */
    CHECK(is(abr_offer_member(&table, UPPER, ABR_WAITING_MAX + 1), ABR_REFUSED_TOO_MUCH_DATA, 0));
    CHECK(closed_is(abr_remove_member(&table, LOWER), ABR_REFUSED_NOT_A_MEMBER, 0, 0));
    CHECK(closed_is(abr_remove_member(&table, 8, 50), ABR_REFUSED_NOT_OPEN, 0, 0));
    CHECK(closed_is(abr_remove_member(&table, 7 + 256, 50), ABR_REFUSED_NOT_OPEN, 0, 0));
    CHECK(closed_is(abr_remove_member(&table, 7, 65536 + 50), ABR_REFUSED_NOT_A_MEMBER, 0, 0));
    CHECK(closed_is(abr_remove_member(&table, 6, 65536 + 50), ABR_REFUSED_NOT_OPEN, 0, 0));
    CHECK(closed_is(abr_close(&table, UPPER), ABR_REFUSED_NOT_OPEN, 0, 0));
    CHECK(receive_refused(feedback(UPPER, 1, 0), ABR_REFUSED_NOT_OPEN));
    CHECK(receive_refused(data_cell(LOWER, 1), ABR_REFUSED_NOT_OPEN));
    CHECK(receive_refused(data_cell(PATH, 1), ABR_REFUSED_NOT_OPEN));
    CHECK(unread(abr_status(&table, LOWER)) && unread(abr_at(&table, 1)));
    CHECK(unread(abr_status(&table, 7 + 256, 50)) && unread(abr_status(&table, 7 + 256, ABR_PATH_VCI)));
    CHECK(unread(abr_status(&table, 7, 65536 + 50)) && unread(abr_status(&table, 6, 65536 + 50)));
    CHECK(unread(abr_status(&table, 6, 65536 + ABR_PATH_VCI)));
}

/* What must be read of the path, brought up to date by hand. */
static abr_connection path;

/* The path and its members, with the data that waits on each. */
static int path_is_read(uint32_t lower, uint32_t upper)
{
    path.waiting = lower + upper;
    return status_is(path) && member_status_is(path, 40, lower) && member_status_is(path, 50, upper) &&
           member_is(&table, 0, LOWER, lower) && member_is(&table, 1, UPPER, upper) && members_end(&table, 2);
}

/* Nothing else is open: it takes leaf 0. Adding a member leaves it as it is. */
static void a_path_is_opened(void)
{
    abr_params params = abr_house(thousand, slowest, thousand);
    CHECK(is(abr_add_member(&table, UPPER), ABR_REFUSED_NOT_OPEN, 0));
    CHECK(open_refused(abr_open_path(&table, 256, 400 * MS, params), ABR_REFUSED_RANGE));
    CHECK(opened_in(abr_open_path(&table, 7, 400 * MS, params), 0));
    CHECK(open_refused(abr_open_path(&table, 7, 0, params), ABR_REFUSED_ALREADY_OPEN));
    path = opened_channel(PATH, 400 * MS);
    path.kind = ABR_PATH;
    CHECK(status_is(path) && link_is(1, 0, 0, 400 * MS));
    CHECK(is(abr_add_member(&table, UPPER), ABR_OK, 0));
    CHECK(member_is(&table, 0, UPPER, 0) && members_end(&table, 1) && member_status_is(path, 50, 0));
    members_refused(params);
    CHECK(is(abr_add_member(&table, LOWER), ABR_OK, 0));
    CHECK(next_is(ABR_NEVER) && path_is_read(0, 0) && link_is(1, 2, 0, 400 * MS));
}

/* One rate for a whole path, whose members take turns (document 02, L13). */
static void members_take_turns(void)
{
    abr_rm rm;
    CHECK(is(abr_offer_member(&table, UPPER, 3), ABR_OK, ROUNDS));
    CHECK(is(abr_offer_member(&table, LOWER, 2), ABR_OK, ROUNDS));
    path.ready = 400 * MS;
    CHECK(next_is(400 * MS) && path_is_read(2, 3));
    CHECK(slot_is(400 * MS, PATH, ABR_SENT_FORWARD, 512000));
    rm = rm_in_cell();
    CHECK(rm.vpi == 7 && rm.vci == 6 && cell[0] == 0 && cell[1] == 0x70 && cell[2] == 0 && cell[3] == 0x6C);
    CHECK(slot_is(401 * MS, LOWER, ABR_SENT_DATA, 512000) && slot_is(402 * MS, UPPER, ABR_SENT_DATA, 512000));
    CHECK(slot_is(403 * MS, LOWER, ABR_SENT_DATA, 512000));
    path.last_forward = 400 * MS;
    path.last_sent = 403 * MS;
    path.ready = 404 * MS;
    path.k = 3;
    path.unanswered = 1;
    path.served = 40;
    CHECK(path_is_read(0, 2));
    CHECK(slot_is(404 * MS, UPPER, ABR_SENT_DATA, 512000));
    CHECK(closed_is(abr_remove_member(&table, LOWER), ABR_OK, ROUNDS, 0));
    CHECK(slot_is(405 * MS, UPPER, ABR_SENT_DATA, 512000));
    path.last_sent = 405 * MS;
    path.ready = 500 * MS; /* nothing waits: Trm after the forward cell */
    path.k = 5;
    path.served = 50;
    path.waiting = 0;
    CHECK(status_is(path) && member_status_is(path, 50, 0) && unread(abr_status(&table, LOWER)));
    CHECK(member_is(&table, 0, UPPER, 0) && members_end(&table, 1));
}

/* A member's data cell is answered with the member's name, and the leaf and the rate of its path. */
static void a_path_receives(void)
{
    CHECK(feedback_gives(PATH, 1, ABR_CODE_MAX, 480000) && acr_is(PATH, 480000, -32000));
    CHECK(received_is(data_cell(UPPER, 1), ROUNDS, ABR_RECEIVED_DATA, UPPER, 480000));
    exports(PATH, ABR_OK);
    exports(UPPER, ABR_REFUSED_NOT_OPEN);
    CHECK(is(abr_add_member(&table, LOWER), ABR_OK, 0));
    CHECK(is(abr_offer_member(&table, LOWER, 4), ABR_OK, ROUNDS));
    CHECK(is(abr_offer_member(&table, UPPER, 5), ABR_OK, ROUNDS));
    path.acr = 480000;
    path.change = -32000;
    path.unanswered = 0;
    path.efci = 1;
    path.ready = 406 * MS + 66667;
    CHECK(path_is_read(4, 5));
    CHECK(closed_is(abr_close(&table, PATH), ABR_OK, ROUNDS, 9));
    CHECK(closed_is(abr_remove_member(&table, UPPER), ABR_REFUSED_NOT_OPEN, 0, 0));
    CHECK(unread(abr_status(&table, PATH)) && unread(abr_status(&table, UPPER)) && unread(abr_at(&table, 0)));
    CHECK(members_end(&table, 0) && link_is(0, 0, 0, 405 * MS));
}

/* An open takes the lowest free leaf, also one that a close left, and the others keep theirs; on a table of its own. */
static void leaves_are_taken_again(void)
{
    static abr_table own;
    abr_params params = abr_house(thousand, slowest, thousand);
    for (uint32_t leaf = 0; leaf < 5; leaf++) {
        CHECK(opened_in(abr_open(&own, 9, 50 - leaf, 0, params), leaf));
    }
    CHECK(closed_is(abr_close(&own, 9, 47), ABR_OK, 1, 0) && closed_is(abr_close(&own, 9, 49), ABR_OK, 1, 0));
    CHECK(abr_at(&own, 1).refusal == ABR_REFUSED_NOT_OPEN && abr_at(&own, 3).refusal == ABR_REFUSED_NOT_OPEN);
    CHECK(opened_in(abr_open_path(&own, 200, 0, params), 1) && opened_in(abr_open(&own, 9, 47, 0, params), 3));
    CHECK(opened_in(abr_open_path(&own, 3, 0, params), 5) && abr_link(&own).connections == 6);
    CHECK(abr_at(&own, 1).kind == ABR_PATH && abr_at(&own, 1).vpi == 200 && abr_at(&own, 1).vci == ABR_PATH_VCI);
    CHECK(abr_at(&own, 0).vci == 50 && abr_at(&own, 2).vci == 48 && abr_at(&own, 3).vci == 47);
    CHECK(abr_status(&own, 9, 46).leaf == 4 && abr_status(&own, 3, ABR_PATH_VCI).leaf == 5);
    CHECK(is(abr_add_member(&own, 200, 300), ABR_OK, 0) && is(abr_add_member(&own, 3, 65535), ABR_OK, 0));
    CHECK(is(abr_add_member(&own, 200, 32), ABR_OK, 0) && is(abr_add_member(&own, 3, 32), ABR_OK, 0));
    CHECK(abr_offer_member(&own, 200, 300, ABR_WAITING_MAX).refusal == ABR_OK);
    CHECK(abr_offer_member(&own, 3, 65535, 2).refusal == ABR_OK);
    CHECK(member_is(&own, 0, 3, 32, 0) && member_is(&own, 1, 3, 65535, 2)); /* VPI first, then VCI */
    CHECK(member_is(&own, 2, 200, 32, 0) && member_is(&own, 3, 200, 300, ABR_WAITING_MAX) && members_end(&own, 4));
    CHECK(abr_status(&own, 200, 300).leaf == 1 && abr_status(&own, 200, 300).waiting == ABR_WAITING_MAX);
    CHECK(abr_close(&own, 3, ABR_PATH_VCI).cells == 2 && members_end(&own, 2) && member_is(&own, 0, 200, 32, 0));
}

/*
 * TBE 64 and a round trip of 128 ms allow 500 cells per second to begin with, half of the given initial rate (document
 * 02, L14). CRM is 2, so that the third unanswered forward cell cuts the rate by a sixteenth.
 */
static void tbe_and_round_trip(void)
{
    abr_params params = abr_house(thousand, slowest, thousand);
    params.tbe = 0;
    params.frtt = ABR_FRTT_MAX + 1;
    CHECK(open_refused(abr_open(&table, 256, 33, ABR_TIME_MAX + 1, params), ABR_REFUSED_RANGE));
    CHECK(open_refused(abr_open(&table, FIRST, ABR_TIME_MAX + 1, params), ABR_REFUSED_TBE));
    CHECK(open_refused(abr_open_path(&table, 7, ABR_TIME_MAX + 1, params), ABR_REFUSED_TBE));
    params.tbe = 64;
    CHECK(open_refused(abr_open(&table, FIRST, ABR_TIME_MAX + 1, params), ABR_REFUSED_FRTT));
    params.frtt = 128000;
    CHECK(open_refused(abr_open(&table, FIRST, ABR_TIME_MAX + 1, params), ABR_REFUSED_TIME));
    CHECK(opened_in(abr_open(&table, FIRST, 500 * MS, params), 0) && acr_is(FIRST, 256000, 0));
    exports(FIRST, ABR_OK); /* the initial rate as given */
    first = opened_channel(FIRST, 500 * MS);
    first.params = params;
    first.crm = 2;
    first.icr_used = first.acr = 256000;
    CHECK(status_is(first));
    CHECK(is(abr_offer(&table, FIRST, 9), ABR_OK, ROUNDS) && feedback_gives(FIRST, 0, ABR_CODE_MAX, 288000));
    CHECK(acr_is(FIRST, 288000, 32000) && slot_moves(500 * MS, FIRST, ABR_SENT_FORWARD, 288000, 256000));
    CHECK(slot_is(502 * MS, FIRST, ABR_SENT_DATA, 256000) && slot_is(504 * MS, FIRST, ABR_SENT_DATA, 256000));
    CHECK(slot_is(600 * MS, FIRST, ABR_SENT_FORWARD, 256000) && slot_is(602 * MS, FIRST, ABR_SENT_DATA, 256000));
    CHECK(slot_is(604 * MS, FIRST, ABR_SENT_DATA, 256000));
    CHECK(slot_moves(700 * MS, FIRST, ABR_SENT_FORWARD, 256000, 240000));
    first.waiting = 5;
    first.acr = 240000;
    first.change = 32000;
    first.last_sent = first.last_forward = 700 * MS;
    first.ready = 702 * MS + 133334;
    first.unanswered = 3;
    CHECK(status_is(first));
    CHECK(closed_is(abr_close(&table, FIRST), ABR_OK, ROUNDS, 5));
}

/* A cell at the latest time: the next ready instant is after it, where no slot is accepted. */
static void at_the_latest_time(void)
{
    CHECK(opened_in(abr_open(&table, FIRST, ABR_TIME_MAX, abr_house(thousand, slowest, thousand)), 0));
    CHECK(is(abr_offer(&table, FIRST, 2), ABR_OK, ROUNDS) && next_is(ABR_TIME_MAX));
    CHECK(slot_is(ABR_TIME_MAX, FIRST, ABR_SENT_FORWARD, 512000) && next_is(ABR_TIME_MAX + 1 * MS));
    CHECK(slot_is(ABR_TIME_MAX, NOBODY, ABR_SENT_IDLE, 0));
    first = opened_channel(FIRST, ABR_TIME_MAX);
    first.waiting = 2;
    first.last_sent = first.last_forward = ABR_TIME_MAX;
    first.ready = ABR_TIME_MAX + 1 * MS;
    first.unanswered = 1;
    CHECK(status_is(first) && link_is(1, 0, 0, ABR_TIME_MAX));
    CHECK(passed_is(ABR_TIME_MAX, 5, ABR_TIME_MAX) && passed_is(ABR_TIME_MAX + 2 * MS, 3 * MS, ABR_TIME_MAX + 1 * MS));
    CHECK(closed_is(abr_close(&table, FIRST), ABR_OK, ROUNDS, 2));
}

static void nothing_is_left(void)
{
    CHECK(next_is(ABR_NEVER) && slot_is(ABR_TIME_MAX, NOBODY, ABR_SENT_IDLE, 0) && link_is(0, 0, 0, ABR_TIME_MAX));
    CHECK(strcmp(abr_refusal_text(ABR_OK), "accepted") == 0);
    CHECK(strcmp(abr_refusal_text(30), abr_refusal_text(31)) != 0);
    CHECK(strcmp(abr_refusal_text(3), abr_refusal_text(31)) == 0); /* withdrawn (document 02, L6) */
}

/* The verdict on some octets. */
static int verdict_is(const uint8_t *trace, size_t len, uint32_t refusal, uint32_t rule, uint64_t cell_number)
{
    abr_verdict verdict = abr_judge(trace, len);
    return verdict.refusal == refusal && verdict.rule == rule && verdict.cell == cell_number;
}

/*
 * A trace with Nrm 4 and Trm 100 ms: forward, data, backward, data and forward, a millisecond apart, which is the gap
 * of 512,000. Then one octet is another.
 */
static void judges_a_trace(void)
{
    uint8_t trace[] = {2, 7, 0, 1, 0, 0xC0, 0x84, 0x3D, 3, 0x80, 0xA0, 0x1F, 0xC0, 0x84, 0x3D, 2, 0x80, 0xA0, 0x1F,
                       0xC0, 0x84, 0x3D, 3, 0x80, 0xA0, 0x1F, 0xC0, 0x84, 0x3D, 1, 0x80, 0xA0, 0x1F};
    const size_t len = sizeof trace;
    CHECK(verdict_is(trace, len, ABR_OK, ABR_RULE_NONE, 0));
    CHECK(verdict_is(trace, 2, ABR_OK, ABR_RULE_NONE, 0)); /* no cell */
    CHECK(verdict_is(trace, 0, ABR_REFUSED_TRACE_END, 0, 0));
    CHECK(verdict_is(trace, 1, ABR_REFUSED_TRACE_END, 0, 0));
    CHECK(verdict_is(trace, len - 1, ABR_REFUSED_TRACE_END, 0, 0));
    trace[29] = 3; /* Nrm - 1 cells have gone, and no forward cell comes */
    CHECK(verdict_is(trace, len, ABR_OK, ABR_RULE_FORWARD, 5));
    trace[19] = 0xBF; /* a nanosecond early */
    CHECK(verdict_is(trace, len, ABR_OK, ABR_RULE_GAP, 4));
    trace[15] = 1; /* a forward cell too early */
    CHECK(verdict_is(trace, len, ABR_OK, ABR_RULE_FORWARD, 3));
    trace[5] = 0xBF; /* two rules are broken */
    trace[8] = 1;
    CHECK(verdict_is(trace, len, ABR_OK, ABR_RULE_GAP, 2));
    trace[3] = 2;
    CHECK(verdict_is(trace, len, ABR_OK, ABR_RULE_FIRST, 1));
    trace[len - 1] = 0x80; /* the last number does not end, or has a last group of 0 */
    CHECK(verdict_is(trace, len, ABR_REFUSED_TRACE_END, 0, 0));
    trace[len - 1] = 0;
    CHECK(verdict_is(trace, len, ABR_REFUSED_TRACE_NUMBER, 0, 0));
    trace[22] = 4; /* a kind that there is not, before that */
    CHECK(verdict_is(trace, len, ABR_REFUSED_TRACE_RANGE, 0, 0));
}

static int scenario(const char *name)
{
    CHECK(abr_matches());
    opens();
    free_leaves();
    out_of_range(256, 33);
    out_of_range(0, 65536 + 33);
    out_of_range(0, 65536 + 32);
    both_send();
    feedback_moves_the_rates();
    a_cell_is_turned();
    cells_are_made();
    data_is_received();
    codes();
    doubles();
    exports(FIRST, ABR_OK);
    exports(SECOND, ABR_OK);
    exports(NOT_OPEN, ABR_REFUSED_NOT_OPEN);
    passes_a_port();
    judges_a_trace();
    reserved_bit_in_a_cell(FIRST);
    reserved_bit_in_a_cell(NOT_OPEN);
    reserved_bit_in_an_open();
    closes();
    without_a_minimum();
    a_path_is_opened();
    members_take_turns();
    a_path_receives();
    leaves_are_taken_again();
    tbe_and_round_trip();
    at_the_latest_time();
    nothing_is_left();
    printf("%s: %s\n", name, checks_failed ? "FAILED" : "ok");
    return checks_failed != 0;
}

#endif
