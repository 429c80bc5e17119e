/*
 * The switch of page/switch.js through the C library, written anew from the description there.
 *   switch SLOTS            prints for each run what the page counts: sent, lost, data and marks
 *   switch SLOTS observe    prints what the switches send and lose, and where one of the three observations of the
 *                           paper's section 3.3 does not hold as it is stated below; status 1 if there is such a place
 * Lower threshold 1, upper threshold 2 below the capacity.
 */
#include <inttypes.h>
#include <stdio.h>
#include <stdlib.h>
#include <string.h>

#include "abr.h"

#define SLOT UINT64_C(1000000)
#define WARM 2000u
#define VCI 32u
#define PORTS 2
#define LOWER 1u
#define BELOW 2u
#define MOST 8u
#define CAPACITIES 4
#define TRAFFICS 6

enum { WITHOUT, BOTH, ALONE, SWITCHES };

typedef struct {
    uint32_t input;
    int data;
    uint8_t octets[ABR_CELL_OCTETS];
} cell;

typedef struct {
    uint64_t sent, lost, data, marks;
} counts;

static abr_table sources[PORTS], destinations[PORTS];
static cell buffer[PORTS][MOST + 1];
static uint32_t held[PORTS], capacity, upper, traffic, generator;
static uint64_t slot, waiting[PORTS];
static int together, has_abr[PORTS];
static counts total;

static void accepted(uint32_t refusal)
{
    if (refusal != ABR_OK) {
        fprintf(stderr, "refused: %s\n", abr_refusal_text(refusal));
        exit(1);
    }
}

static uint32_t code(uint64_t cells)
{
    abr_coded coded = abr_code(cells * ABR_RATE_ONE);
    accepted(coded.refusal);
    return coded.code;
}

static uint32_t output_of(uint32_t input) { return together ? 0 : input; }
static uint64_t counted(void) { return slot >= WARM; }

static void begin(void)
{
    memset(sources, 0, sizeof sources);
    memset(destinations, 0, sizeof destinations);
    memset(held, 0, sizeof held);
    memset(waiting, 0, sizeof waiting);
    memset(&total, 0, sizeof total);
    generator = 12345;
    for (uint32_t input = 0; input < PORTS; input++) {
        if (has_abr[input]) {
            abr_params params = abr_house(code(1000), code(334), code(1000));
            accepted(abr_open(&sources[input], 0, VCI + input, 0, params).refusal);
            params.mcr = 0;
            accepted(abr_open(&destinations[output_of(input)], 0, VCI + input, 0, params).refusal);
        }
    }
}

static uint32_t slot_of(abr_table *table, uint8_t *octets, uint32_t *vci)
{
    abr_sent sent = abr_slot(table, abr_slot_time(table, slot * SLOT, SLOT), octets, ABR_CELL_OCTETS);
    accepted(sent.refusal);
    *vci = sent.vci;
    return sent.kind;
}

/* Whether an input has a cell for the switch in this slot. */
static int input_cell(uint32_t input, cell *it)
{
    generator ^= generator << 13;
    generator ^= generator >> 17;
    generator ^= generator << 5;
    int has = generator % 100 < traffic;
    it->input = input;
    it->data = 1;
    if (!has_abr[input]) {
        return has;
    }
    if (has && waiting[input] < ABR_WAITING_MAX) {
        accepted(abr_offer(&sources[input], 0, VCI + input, 1).refusal);
        waiting[input]++;
    }
    uint32_t vci, kind = slot_of(&sources[input], it->octets, &vci);
    it->data = kind == ABR_SENT_DATA;
    waiting[input] -= (uint64_t)it->data;
    return kind != ABR_SENT_IDLE;
}

static void send(uint32_t output)
{
    cell first = buffer[output][0];
    held[output]--;
    memmove(buffer[output], buffer[output] + 1, held[output] * sizeof first);
    total.sent += counted();
    total.data += counted() && first.data;
    if (!first.data) {
        accepted(abr_receive(&destinations[output], first.octets, ABR_CELL_OCTETS).refusal);
    }
}

static void reduce(uint32_t input)
{
    uint8_t octets[ABR_CELL_OCTETS];
    abr_rm rm = {.vci = VCI + input, .dir = 1, .bn = 1, .ci = 1, .er = code(1000)};
    accepted(abr_write_rm(rm, octets, sizeof octets));
    accepted(abr_receive(&sources[input], octets, sizeof octets).refusal);
    total.marks += counted();
}

/* A cell joins an output; the first of a slot makes it send. */
static void joins(uint32_t output, const cell *it, int first)
{
    int reached = held[output] >= upper;
    if (first || held[output] < capacity) {
        buffer[output][held[output]++] = *it;
    } else {
        total.lost += counted();
    }
    if (first) {
        send(output);
    }
    if (reached && has_abr[it->input]) {
        reduce(it->input);
    }
}

static void way_back(uint32_t output)
{
    uint8_t octets[ABR_CELL_OCTETS];
    uint32_t vci;
    if (slot_of(&destinations[output], octets, &vci) == ABR_SENT_IDLE) {
        return;
    }
    abr_cell read = abr_read(octets, sizeof octets);
    accepted(read.refusal);
    if (read.rm.dir == 1) {
        read.rm.ci |= held[output] >= upper;
        read.rm.ni |= held[output] >= LOWER && held[output] < upper;
        accepted(abr_write_rm(read.rm, octets, sizeof octets));
    }
    accepted(abr_receive(&sources[vci - VCI], octets, sizeof octets).refusal);
}

static void one_slot(void)
{
    cell cells[PORTS];
    int there[PORTS];
    for (uint32_t input = 0; input < PORTS; input++) {
        there[input] = input_cell(input, &cells[input]);
    }
    for (uint32_t output = 0; output < PORTS; output++) {
        int first = 1;
        for (uint32_t turn = 0; turn < PORTS; turn++) {
            uint32_t input = (turn + (uint32_t)slot) % PORTS;
            if (there[input] && output_of(input) == output) {
                joins(output, &cells[input], first);
                first = 0;
            }
        }
        if (first && held[output] > 0) {
            send(output);
        }
        way_back(output);
    }
}

static counts run(uint64_t slots, int abr, uint32_t cells, int one_output)
{
    has_abr[0] = abr > 0;
    has_abr[1] = abr > 1;
    together = one_output;
    capacity = one_output ? cells : 0;
    upper = one_output ? cells - BELOW : MOST;
    begin();
    for (slot = 0; slot < slots; slot++) {
        one_slot();
    }
    return total;
}

/* ---- The paper's observations ------------------------------------------- */

/* One switch at one point, in cells a slot; data are those of the sent ones that are no RM cells. */
typedef struct {
    double sent, lost, data;
} point;

static point points[SWITCHES][CAPACITIES][TRAFFICS];
static int failed;

static void measure(uint64_t slots)
{
    static const unsigned weights[SWITCHES][3] = {{4, 0, 0}, {1, 2, 1}, {0, 0, 4}};
    double all = 8.0 * (double)(slots - WARM);
    for (int abr = 0; abr <= 2; abr++) {
        for (int p = 0; p < TRAFFICS; p++) {
            traffic = 50 + 10 * (uint32_t)p;
            counts apart = run(slots, abr, 0, 0);
            for (int c = 0; c < CAPACITIES; c++) {
                counts at_one = run(slots, abr, 5 + (uint32_t)c, 1);
                for (int which = 0; which < SWITCHES; which++) {
                    point *it = &points[which][c][p];
                    it->sent += weights[which][abr] * (double)(apart.sent + at_one.sent) / all;
                    it->lost += weights[which][abr] * (double)(apart.lost + at_one.lost) / all;
                    it->data += weights[which][abr] * (double)(apart.data + at_one.data) / all;
                }
            }
        }
    }
}

static void must(int holds, const char *what, int which, int c, int p)
{
    if (!holds) {
        printf("NOT SO: %s: switch %d, capacity %d, traffic %d\n", what, which, 5 + c, 50 + 10 * p);
        failed = 1;
    }
}

/* The paper's measures: of the events of the output ports (sent, lost, waited) the part that sends or loses, times the
 * traffic. A port sends or waits in each slot. */
static double index_of(double events, const point *it, int p)
{
    return 2.0 * (50 + 10 * p) / 100 * events / (2 + it->lost);
}

/* The part of the cells that reach the switch which is lost. */
static double part_lost(const point *it) { return it->lost / (it->sent + it->lost); }

/* 1. More is sent, and less lost, with more capacity. Where a switch is saturated neither changes. */
static void more_capacity_helps(void)
{
    for (int which = 0; which < SWITCHES; which++) {
        for (int p = 0; p < TRAFFICS; p++) {
            for (int c = 1; c < CAPACITIES; c++) {
                const point *less = &points[which][c - 1][p], *more = &points[which][c][p];
                must(more->sent >= less->sent, "more capacity sends more", which, c, p);
                must(more->lost <= less->lost, "more capacity loses less", which, c, p);
            }
            int strictly = points[which][3][p].lost < points[which][0][p].lost;
            must(strictly || which != WITHOUT || p > 1, "and strictly up to 60 per cent", which, 3, p);
        }
    }
}

/* 2. With ABR the switch is the better one: by both of the paper's measures, and in cells lost per slot. RM cells count
 * among those sent: data alone is fewer, by less than 5 per cent. */
static void abr_is_better(void)
{
    for (int which = BOTH; which <= ALONE; which++) {
        for (int c = 0; c < CAPACITIES; c++) {
            for (int p = 0; p < TRAFFICS; p++) {
                const point *it = &points[which][c][p], *without = &points[WITHOUT][c][p];
                must(index_of(it->sent, it, p) > index_of(without->sent, without, p), "ABR sends more", which, c, p);
                must(index_of(it->lost, it, p) < index_of(without->lost, without, p), "ABR loses less", which, c, p);
                must(it->lost < without->lost, "fewer cells a slot are lost", which, c, p);
                must(it->data < without->data, "data alone is fewer", which, c, p);
                must(it->data > 0.95 * without->data, "by less than 5 per cent", which, c, p);
            }
        }
    }
}

/* How far a switch is before the one without ABR, by the paper's measure of what is sent. */
static double lead(int which, int c, int p)
{
    const point *it = &points[which][c][p], *without = &points[WITHOUT][c][p];
    return index_of(it->sent, it, p) / index_of(without->sent, without, p);
}

/* 3. With more traffic the switch without ABR loses a greater part of its cells. Those with ABR send more, and their
 * lead grows; where every source has ABR, nothing is lost. Where half of the connections have none, these lose on. */
static void more_traffic(void)
{
    for (int c = 0; c < CAPACITIES; c++) {
        for (int p = 0; p < TRAFFICS; p++) {
            must(points[ALONE][c][p].lost == 0, "no source with ABR loses a cell", ALONE, c, p);
            if (p == 0) {
                continue;
            }
            double part = part_lost(&points[WITHOUT][c][p]);
            must(part > part_lost(&points[WITHOUT][c][p - 1]), "a greater part is lost", WITHOUT, c, p);
            must(part_lost(&points[BOTH][c][p]) < part / 2, "less than half of it", BOTH, c, p);
            for (int which = BOTH; which <= ALONE; which++) {
                must(points[which][c][p].sent > points[which][c][p - 1].sent, "more traffic, more sent", which, c, p);
                must(lead(which, c, p) > lead(which, c, p - 1), "the lead grows with the traffic", which, c, p);
            }
        }
    }
}

/* Rows of a table in the manual: cells sent and lost a slot, by traffic. */
static void print_points(void)
{
    static const char *const names[SWITCHES] = {"without ABR", "both services", "ABR alone"};
    for (int which = 0; which < SWITCHES; which++) {
        for (int c = 0; c < CAPACITIES; c++) {
            printf("| %s | %d |", names[which], 5 + c);
            for (int p = 0; p < TRAFFICS; p++) {
                printf(" %.4f, %.4f |", points[which][c][p].sent, points[which][c][p].lost);
            }
            printf("\n");
        }
    }
}

int main(int argc, char **argv)
{
    uint64_t slots = argc > 1 ? strtoull(argv[1], NULL, 10) : 0;
    if (slots <= WARM || !abr_matches()) {
        fprintf(stderr, "switch SLOTS [observe], more than %u, and the archive that belongs to abr.h\n", WARM);
        return 2;
    }
    if (argc > 2) {
        measure(slots);
        print_points();
        more_capacity_helps();
        abr_is_better();
        more_traffic();
        return failed;
    }
    for (int abr = 0; abr <= 2; abr++) {
        for (traffic = 50; traffic <= 100; traffic += 10) {
            for (uint32_t cells = 4; cells <= 8; cells++) {
                counts it = run(slots, abr, cells == 4 ? 0 : cells, cells != 4);
                printf("%" PRIu64 " %" PRIu64 " %" PRIu64 " %" PRIu64 "\n", it.sent, it.lost, it.data, it.marks);
            }
        }
    }
    return 0;
}
