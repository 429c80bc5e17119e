/*
 * The numbers for contracts in docs/MANUAL.md (section 26), what goes on the wire when a clock is replaced, a
 * connection opened anew or a standby takes over (sections 15 and 18), and what a receiver's cells do (section 7), made
 * by the library: every block that this prints stands in the manual line by line (tests/manual compares them), and
 * sentences with numbers are a CHECK here. The functions of the manual are in manual_functions.h, which tests/manual
 * takes out of it.
 */
#include <inttypes.h>
#include <string.h>

#include "abr.h"
#include "blocks.h"
#include "manual_functions.h"

#define MS UINT64_C(1000000)
#define SECOND UINT64_C(1000000000)
#define CELLS(number) ((uint64_t)(number) * ABR_RATE_ONE)
#define PAIR 0u, 32u /* VPI and VCI of most examples, as two arguments */
#define CELL_BITS 424u
#define PAYLOAD_BITS 384u

static abr_table table;
static uint8_t cell[ABR_CELL_OCTETS];

/* ---- Short forms of the calls, each of which must be accepted ------------ */

static uint32_t code_down(uint64_t rate)
{
    abr_coded coded = abr_code(rate);
    CHECK(coded.refusal == ABR_OK);
    return coded.code;
}

static uint64_t rate_of(uint32_t code)
{
    abr_rated rated = abr_rate(code);
    CHECK(rated.refusal == ABR_OK);
    return rated.rate;
}

static double cells_of(uint64_t rate) { return (double)rate / ABR_RATE_ONE; }

static uint64_t gap_of(uint64_t rate) { return (UINT64_C(512000000000) + rate - 1) / rate; }

/* The house set with one rate as peak, minimum and initial rate. */
static abr_params leased(uint32_t code) { return abr_house(code, code, code); }

static void open_at(uint32_t vci, uint64_t time, abr_params params)
{
    CHECK(abr_open(&table, 0, vci, time, params).refusal == ABR_OK);
}

static void offer(uint32_t vci, uint64_t cells)
{
    CHECK(abr_offer(&table, 0, vci, cells).refusal == ABR_OK);
}

/* An empty table with one connection, opened at 0, on which data waits. */
static void begin(abr_params params)
{
    memset(&table, 0, sizeof table);
    open_at(32, 0, params);
    offer(32, 60000);
}

static abr_sent slot(uint64_t time)
{
    abr_sent sent = abr_slot(&table, time, cell, sizeof cell);
    CHECK(sent.refusal == ABR_OK);
    return sent;
}

static void receive(uint32_t vci, uint32_t dir, uint32_t er)
{
    abr_rm rm = {0, 0, 0, 0, 0, 0, 0, 0, 0, 0, 0, 0};
    uint8_t octets[ABR_CELL_OCTETS];
    rm.vci = vci;
    rm.dir = dir;
    rm.er = er;
    CHECK(abr_write_rm(rm, octets, sizeof octets) == ABR_OK);
    CHECK(abr_receive(&table, octets, sizeof octets).refusal == ABR_OK);
}

/* ---- Data by allowed rate ------------------------------------------------- */

typedef struct {
    uint64_t cells, data, time; /* from a forward cell on, up to another */
} carried;

/* Four rounds from forward cell to forward cell at a fixed rate, data always waiting; both ways: a forward cell of the
 * far source always waits too. Each cell goes at its ready instant. */
static carried carry(uint32_t code, int both)
{
    carried sum = {0, 0, 0};
    int forward = 0;
    begin(leased(code));
    while (forward < 5) {
        uint64_t time = abr_next_ready(&table);
        if (both) {
            receive(32, 0, ABR_CODE_MAX);
        }
        abr_sent sent = slot(time);
        CHECK(sent.kind != ABR_SENT_IDLE && sent.acr == rate_of(code));
        forward += sent.kind == ABR_SENT_FORWARD;
        sum.cells += forward < 5;
        sum.data += sent.kind == ABR_SENT_DATA;
        sum.time = time;
    }
    return sum;
}

/* Cells from one forward cell to the next, by the formula of section 26. */
static uint64_t round_of(uint64_t gap)
{
    uint64_t trm = (100 * MS + gap - 1) / gap, least = trm > 3 ? trm : 3;
    return least < 32 ? least : 32;
}

static void print_carried(uint64_t cells)
{
    uint32_t code = code_up(CELLS(cells));
    carried one = carry(code, 0), both = carry(code, 1);
    uint64_t round = round_of(gap_of(rate_of(code)));
    CHECK(one.cells == 4 * round && one.data == 4 * (round - 1) && both.data == 4 * (round - 2));
    CHECK(one.time == both.time && one.time == 4 * round * gap_of(rate_of(code)));
    printf("%9.1f  %8u  %18.1f %5.1f %%  %18.1f %5.1f %%\n", cells_of(rate_of(code)), (unsigned)round,
           1e9 * (double)one.data / (double)one.time, 100.0 * (double)one.data / (double)one.cells,
           1e9 * (double)both.data / (double)both.time, 100.0 * (double)both.data / (double)both.cells);
}

static void data_by_rate(void)
{
    static const uint64_t rates[] = {1, 10, 30, 50, 100, 200, 300, 600, 1000, 10000, 100000};
    printf("  allowed     cells a        data cells/s               data cells/s\n");
    printf("  cells/s       round             one way                  both ways\n");
    for (size_t each = 0; each < sizeof rates / sizeof rates[0]; each++) {
        print_carried(rates[each]);
    }
}

/* Whether a rate carries so many data cells per second. */
static int carries(uint32_t code, int both, uint64_t cells)
{
    carried sum = carry(code, both);
    return sum.data * SECOND >= cells * sum.time;
}

/* The least code with which that is so, found from the rate itself upwards. */
static uint32_t to_sell(uint64_t cells, int both)
{
    uint32_t code = code_up(CELLS(cells));
    while (!carries(code, both, cells)) {
        code++;
    }
    return code;
}

static void what_to_open(void)
{
    static const uint64_t sold[] = {1, 10, 20, 30, 50, 100, 200, 300, 600, 1000, 3000, 10000, 100000, 330000};
    printf("       to sell                 open with, cells/s and code\n");
    printf("  data cells/s    kbit/s             one way           both ways\n");
    for (size_t each = 0; each < sizeof sold / sizeof sold[0]; each++) {
        uint32_t one = to_sell(sold[each], 0), both = to_sell(sold[each], 1);
        printf("%14" PRIu64 " %9.1f %12.3f 0x%04X %12.3f 0x%04X\n", sold[each],
               (double)sold[each] * PAYLOAD_BITS / 1000, cells_of(rate_of(one)), (unsigned)one, cells_of(rate_of(both)),
               (unsigned)both);
    }
}

/* ---- What slots deliver, and what a policer sees --------------------------- */

enum { MOST = 16, SLOTS = 200000, STM1_SLOT = 2832 };

/* How a line is run: so many circuits, what part of the line they have together, the time of a slot, how much later a
 * slot may come than at its place, how long after the slot's own time its cell may leave, how many of ten slots are
 * given, and the lag. The gap of the last circuit is a third longer than that of the first. */
typedef struct {
    uint32_t circuits;
    double load;
    uint64_t slot, jitter, leaves;
    int given;
    uint64_t lag;
} way;

typedef struct {
    double least;     /* what the circuit with the least was delivered of its rate, in percent */
    uint64_t needed;  /* the least tolerance at which a policer of the peaks drops none of these cells */
    uint64_t longest; /* from one slot to the next */
} seen_on_line;

static uint64_t drawn; /* a row of numbers that look random, the same in each run */

static uint64_t draw(uint64_t most)
{
    drawn = drawn * UINT64_C(6364136223846793005) + UINT64_C(1442695040888963407);
    return most == 0 ? 0 : (drawn >> 33) % (most + 1);
}

static double weight(way of, uint32_t which)
{
    return of.circuits == 1 ? 1 : 1 / (1 + which / 3.0 / (of.circuits - 1));
}

static uint32_t code_of_circuit(way of, uint32_t which)
{
    double all = 0;
    for (uint32_t each = 0; each < of.circuits; each++) {
        all += weight(of, each);
    }
    return code_down((uint64_t)(1e9 * of.load * weight(of, which) / all / (double)of.slot * ABR_RATE_ONE));
}

static void open_circuits(way of)
{
    memset(&table, 0, sizeof table);
    for (uint32_t each = 0; each < of.circuits; each++) {
        open_at(32 + each, 0, leased(code_of_circuit(of, each)));
        offer(32 + each, 60000);
    }
}

/* What a policer of the peak keeps of a connection: virtual scheduling of I.371. */
typedef struct {
    uint64_t expected, cells;
} policed;

static void police(policed *it, uint64_t at, uint64_t gap, uint64_t *needed)
{
    if (it->cells++ > 0 && it->expected > at && it->expected - at > *needed) {
        *needed = it->expected - at;
    }
    it->expected = (it->expected > at ? it->expected : at) + gap;
}

static seen_on_line run_line(way of)
{
    policed each[MOST];
    uint64_t gaps[MOST], last = 0;
    seen_on_line seen = {1000.0, 0, 0};
    memset(each, 0, sizeof each);
    drawn = 1;
    open_circuits(of);
    for (uint32_t which = 0; which < of.circuits; which++) {
        gaps[which] = gap_of(rate_of(code_of_circuit(of, which)));
    }
    for (uint64_t number = 0; number < SLOTS; number++) {
        uint64_t now = number * of.slot + draw(of.jitter), leaves = now + draw(of.leaves);
        if ((int)(number % 10) >= of.given) {
            continue;
        }
        uint64_t time = abr_slot_time(&table, now, of.lag);
        abr_sent sent = slot(time);
        seen.longest = number > 0 && now - last > seen.longest ? now - last : seen.longest;
        last = now;
        CHECK(now - time <= of.lag);
        if (sent.kind != ABR_SENT_IDLE) {
            police(&each[sent.vci - 32], leaves, gaps[sent.vci - 32], &seen.needed);
            if (abr_at(&table, sent.leaf).waiting < 10000) {
                offer(sent.vci, 50000);
            }
        }
    }
    for (uint32_t which = 0; which < of.circuits; which++) {
        double part = 100.0 * (double)each[which].cells * (double)gaps[which] / (double)last;
        seen.least = part < seen.least ? part : seen.least;
    }
    CHECK(seen.needed <= of.lag + of.leaves);
    return seen;
}

/* A line that circuits fill to nine tenths, by the lag in slots: what the one with the least has of its rate. */
static void by_lag(void)
{
    static const uint32_t circuits[] = {1, 2, 4, 8, 16}, lags[] = {0, 1, 2, 4, 8, 16};
    printf("lag in slots        0        1        2        4        8       16\n");
    for (size_t each = 0; each < 5; each++) {
        printf("%2u circuit%s  ", (unsigned)circuits[each], circuits[each] == 1 ? " " : "s");
        for (size_t lag = 0; lag < 6; lag++) {
            way of = {circuits[each], 0.9, STM1_SLOT, 0, 0, 10, (uint64_t)lags[lag] * STM1_SLOT};
            double least = run_line(of).least;
            CHECK(lags[lag] < circuits[each] || least > 99.9);
            printf("  %5.1f %%", least > 100 ? 100.0 : least);
        }
        printf("\n");
    }
}

static void print_way(const char *what, way of)
{
    seen_on_line seen = run_line(of);
    printf("%-62s %6.2f us %10.2f us %10.2f us %9.1f %%\n", what, (double)seen.longest / 1e3,
           (double)(of.lag + of.leaves) / 1e3, (double)seen.needed / 1e3, seen.least > 100 ? 100.0 : seen.least);
}

/* Sixteen circuits on an STM-1 line: the tolerance to ask for, and the one that the cells of the run needed. */
static void tolerances(void)
{
    const uint64_t tenth = STM1_SLOT / 10, uneven = STM1_SLOT + tenth;
    const way own = {16, 0.88, STM1_SLOT, 0, 0, 10, 0}, own_uneven = {16, 0.88, STM1_SLOT, tenth, 0, 10, 0};
    const way own_later = {16, 0.88, STM1_SLOT, tenth, STM1_SLOT - tenth, 10, 0};
    const way lag = {16, 0.88, STM1_SLOT, 0, 0, 10, 16 * STM1_SLOT};
    const way lag_uneven = {16, 0.88, STM1_SLOT, tenth, 0, 10, 16 * uneven};
    const way lag_later = {16, 0.88, STM1_SLOT, tenth, STM1_SLOT - tenth, 10, 16 * uneven};
    const way grid = {16, 0.88, STM1_SLOT, 0, tenth, 10, 16 * STM1_SLOT};
    const way taken = {16, 0.45, STM1_SLOT, 0, 0, 9, 16 * 2 * STM1_SLOT};
    printf("%-62s %9s %13s %13s %11s\n", "what a slot is passed", "longest", "to ask for", "needed", "delivered");
    print_way("its own time", own);
    print_way("its own time, slots up to a tenth late", own_uneven);
    print_way("the same, cells leave up to nine tenths of a slot later", own_later);
    print_way("abr_slot_time, 16 slots of lag", lag);
    print_way("abr_slot_time, slots up to a tenth late, 16 of the longest", lag_uneven);
    print_way("the same, cells leave up to nine tenths of a slot later", lag_later);
    print_way("abr_slot_time of the grid, slots up to a tenth late", grid);
    print_way("abr_slot_time, every tenth slot left out, 16 of the longest", taken);
}

/* ---- ADTF and TBE ----------------------------------------------------------- */

/* The rate that a source reaches from its initial one to twice that, each forward cell answered at once. */
static uint64_t reached(uint64_t cells, uint32_t adtf)
{
    abr_params params = abr_house(code_down(CELLS(2 * cells)), 0, code_down(CELLS(cells)));
    int answered = 0;
    params.adtf = adtf;
    begin(params);
    while (answered < 100) {
        if (slot(abr_next_ready(&table)).kind == ABR_SENT_FORWARD) {
            receive(32, 1, ABR_CODE_MAX);
            answered++;
        }
    }
    return abr_acr(&table, PAIR).acr;
}

/* The least rate of a source in its first three round trips, its forward cells answered a round trip later. */
static uint64_t least_rate(uint64_t cells, uint32_t tbe, uint64_t trip, uint32_t frtt)
{
    static uint64_t due[4096];
    abr_params params = abr_house(code_down(CELLS(cells)), 0, code_down(CELLS(cells)));
    uint64_t least = ABR_RATE_MAX;
    size_t first = 0, count = 0;
    params.tbe = tbe;
    params.frtt = frtt;
    begin(params);
    for (uint64_t time = 0; time < 3 * trip; time = abr_next_ready(&table)) {
        for (; first < count && due[first] <= time; first++) {
            receive(32, 1, ABR_CODE_MAX);
        }
        abr_sent sent = slot(time);
        if (sent.kind == ABR_SENT_FORWARD && count < sizeof due / sizeof due[0]) {
            due[count++] = time + trip;
        }
        if (abr_at(&table, 0).waiting < 10000) {
            offer(32, 50000);
        }
        least = sent.acr < least ? sent.acr : least;
    }
    return least;
}

/* TBE for a round trip in milliseconds, by the formula of section 4 with the house set: Nrm / Trm is 320. */
static uint32_t tbe_for(uint64_t cells, uint64_t trip) { return (uint32_t)((trip * (cells + 320) + 999) / 1000); }

/* The longest time between two forward cells at a rate or above it, by the formula of section 4 with the house set. */
static uint64_t longest_round(uint64_t gap)
{
    uint64_t by_trm = 100 * MS + gap > 3 * gap ? 100 * MS + gap : 3 * gap;
    return 32 * gap < by_trm ? 32 * gap : by_trm;
}

/* The longest time between two turned cells at a rate, with data and forward cells of the far source always waiting. */
static uint64_t answers_apart(uint32_t code)
{
    uint64_t last = 0, longest = 0;
    begin(leased(code));
    for (int sent = 0; sent < 500; sent++) {
        uint64_t time = abr_next_ready(&table);
        receive(32, 0, ABR_CODE_MAX);
        if (slot(time).kind == ABR_SENT_TURNED) {
            longest = time - last > longest ? time - last : longest;
            last = time;
        }
    }
    return longest;
}

static void print_setup_row(uint64_t cells)
{
    static const uint64_t trips[] = {10, 100, 600};
    uint32_t code = code_down(CELLS(cells));
    uint64_t gap = gap_of(rate_of(code)), apart = round_of(gap) * gap, longest = longest_round(gap);
    uint32_t adtf = (uint32_t)((longest + 10 * MS + 10 * MS - 1) / (10 * MS));
    CHECK(carry(code, 0).time == 4 * apart && answers_apart(code) == apart && apart <= longest);
    CHECK(reached(cells, adtf) == rate_of(code_down(CELLS(2 * cells))));
    printf("%8" PRIu64 " %14.3f ms %14.3f ms %6u: %5.2f s", cells, (double)apart / 1e6, (double)longest / 1e6,
           (unsigned)adtf, adtf / 100.0);
    for (size_t each = 0; each < 3; each++) {
        uint32_t tbe = tbe_for(cells, trips[each]);
        CHECK(least_rate(cells, tbe, trips[each] * MS, 0) == rate_of(code));
        CHECK(least_rate(cells, tbe, trips[each] * MS, (uint32_t)trips[each] * 1000) == rate_of(code));
        printf(" %10u", (unsigned)tbe);
    }
    printf("\n");
}

static void adtf_and_tbe(void)
{
    static const uint64_t rates[] = {1, 2, 5, 10, 20, 30, 50, 100, 300, 1000, 10000, 100000};
    printf("    rate    forward cells        longest, at    least ADTF           TBE for a round trip of\n");
    printf(" cells/s            apart     it or above it                       10 ms     100 ms     600 ms\n");
    for (size_t each = 0; each < sizeof rates / sizeof rates[0]; each++) {
        print_setup_row(rates[each]);
    }
    for (uint32_t code = code_down(CELLS(1)); code < code_down(CELLS(2000)); code++) {
        uint64_t gap = gap_of(rate_of(code)), above = gap_of(rate_of(code + 1));
        CHECK(round_of(gap) * gap <= longest_round(gap) && longest_round(above) <= longest_round(gap));
    }
    CHECK(longest_round(gap_of(CELLS(7))) + 10 * MS <= 500 * MS); /* from there on the house set's ADTF is enough */
    CHECK(longest_round(gap_of(CELLS(6))) + 10 * MS > 500 * MS);
    CHECK(least_rate(10000, tbe_for(10000, 100) / 2, 100 * MS, 0) < CELLS(10000));
}

/* ---- Lines beside each other ------------------------------------------------- */

static const struct {
    const char *name;
    uint64_t bits; /* of cells, per second */
} lines[] = {{"ADSL, up", 640000}, {"ADSL, down", 8000000}, {"SHDSL", 2304000}, {"STM-1", 149760000}};

enum { LINES = sizeof lines / sizeof lines[0] };

static double line_cells(size_t which) { return (double)lines[which].bits / CELL_BITS; }

static uint64_t line_slot_time(size_t which)
{
    return (CELL_BITS * SECOND + lines[which].bits - 1) / lines[which].bits;
}

/* The rate of the line itself, coded up. */
static uint32_t line_code(size_t which)
{
    return code_up((lines[which].bits * ABR_RATE_ONE + CELL_BITS - 1) / CELL_BITS);
}

/* Data cells and turned cells per second of one connection that has the whole line, with a lag of a slot. */
typedef struct {
    double data, turned;
} whole_line;

static whole_line fill_line(size_t which, int both)
{
    uint64_t slots = (uint64_t)(10 * line_cells(which)), data = 0, turned = 0;
    slots = slots < 320000 ? slots / 32 * 32 : 320000;
    begin(leased(line_code(which)));
    for (uint64_t number = 0; number < slots; number++) {
        uint64_t now = number * CELL_BITS * SECOND / lines[which].bits;
        if (both) {
            receive(32, 0, ABR_CODE_MAX);
        }
        abr_sent sent = slot(abr_slot_time(&table, now, line_slot_time(which)));
        CHECK(sent.kind != ABR_SENT_IDLE);
        data += sent.kind == ABR_SENT_DATA;
        turned += sent.kind == ABR_SENT_TURNED;
        if (abr_at(&table, 0).waiting < 10000) {
            offer(32, 50000);
        }
    }
    double each = line_cells(which) / (double)slots;
    whole_line of = {(double)data * each, (double)turned * each};
    return of;
}

static double line_value(int row, size_t which)
{
    switch (row) {
    case 0: return (double)lines[which].bits / 1000;
    case 1: return line_cells(which);
    case 2: return (double)line_slot_time(which) / 1e3;
    case 3: return 4.0 * (double)line_slot_time(which) / 1e3;
    case 4: return 16.0 * (double)line_slot_time(which) / 1e3;
    case 5: return cells_of(rate_of(line_code(which)));
    case 6: return fill_line(which, 0).data;
    case 7: return fill_line(which, 1).data;
    case 8: return fill_line(which, 1).data * PAYLOAD_BITS / 1000;
    case 9: return fill_line(which, 1).turned;
    default: return tbe_for((uint64_t)cells_of(rate_of(line_code(which))), 20);
    }
}

static void beside_each_other(void)
{
    static const char *const rows[] = {
        "kbit/s of cells", "cells/s", "a slot, us", "lag and tolerance for 4 connections, us",
        "lag and tolerance for 16 connections, us", "one connection at the line's rate, code up, cells/s",
        "its data cells/s one way", "its data cells/s both ways", "the same in kbit/s of payload",
        "its turned cells/s both ways", "TBE for a round trip of 20 ms",
    };
    printf("%-52s", "");
    for (size_t which = 0; which < LINES; which++) {
        printf(" %12s", lines[which].name);
    }
    printf("\n");
    for (int row = 0; row < (int)(sizeof rows / sizeof rows[0]); row++) {
        printf("%-52s", rows[row]);
        for (size_t which = 0; which < LINES; which++) {
            printf(" %12.*f", row == 10 ? 0 : row >= 2 && row <= 4 ? 3 : 1, line_value(row, which));
        }
        printf("\n");
    }
}

/* ---- On the wire, when something is replaced ---------------------------------- */

enum { WIRE = 16, EVENT = 33 }; /* the event comes behind the slot at 33 ms */

typedef struct {
    uint64_t at[WIRE]; /* milliseconds of the wire */
    int cells;
} wire_row;

static void put_on_wire(wire_row *row, uint64_t at, abr_sent sent)
{
    CHECK(sent.refusal == ABR_OK);
    if (sent.kind != ABR_SENT_IDLE && row->cells < WIRE) {
        row->at[row->cells++] = at;
    }
}

static void print_wire(const char *what, const wire_row *row)
{
    printf("%-66s", what);
    for (int each = 1; each < 8; each++) {
        printf(" %2" PRIu64, row->at[each] - row->at[each - 1]);
    }
    printf("\n");
}

/* 100 cells per second, a slot every millisecond of the wire; the first cells go at 0, 10, 20 and 30 ms. */
static wire_row first_cells(void)
{
    wire_row row;
    memset(&row, 0, sizeof row);
    begin(leased(code_down(CELLS(100))));
    for (uint64_t at = 0; at <= EVENT; at++) {
        put_on_wire(&row, at, slot(at * MS));
    }
    CHECK(row.cells == 4);
    return row;
}

/* The rest of the wire, with times that are so far ahead of it, from a slot on. */
static void go_on(wire_row *row, uint64_t from, uint64_t ahead)
{
    for (uint64_t at = from; at < 110; at++) {
        put_on_wire(row, at, slot(at * MS + ahead));
    }
}

static const uint64_t hour = 3600 * SECOND;

static void clock_replaced(void)
{
    wire_row row = first_cells();
    go_on(&row, EVENT + 1, hour);
    print_wire("a clock an hour ahead, its readings passed", &row);
    const uint64_t difference = hour; /* of the two clocks, read at one moment */
    row = first_cells();
    go_on(&row, EVENT + 1, hour - difference);
    print_wire("the same less the difference of the two clocks", &row);
    const uint64_t first = (EVENT + 1) * MS + hour, last = EVENT * MS;
    row = first_cells();
    CHECK(abr_link(&table).last == last);
    for (uint64_t at = EVENT + 1; at < 110; at++) {
        put_on_wire(&row, at, slot(at * MS + hour - first + last));
    }
    print_wire("the same, its first reading taken for the last time passed", &row);
}

/* steady from the first slot on; then a clock an hour ahead, with and without its reading set. */
static void steady_replaced(int set)
{
    wire_row row;
    steady_clock clock = {0, 0, MS};
    memset(&row, 0, sizeof row);
    begin(leased(code_down(CELLS(100))));
    for (uint64_t at = 0; at < 110; at++) {
        uint64_t raw = at * MS + (at > EVENT ? hour : 0);
        if (set && at == EVENT + 1) {
            clock.raw = EVENT * MS + hour; /* what the new clock read when the old one was read last */
        }
        put_on_wire(&row, at, slot(steady(&clock, raw)));
    }
    print_wire(set ? "steady, its raw reading set to the new clock's" : "steady over a clock an hour ahead", &row);
}

static void reopened(uint64_t at, const char *what)
{
    wire_row row = first_cells();
    CHECK(abr_close(&table, PAIR).refusal == ABR_OK);
    for (uint64_t idle = EVENT + 1; idle < at; idle++) {
        put_on_wire(&row, idle, slot(idle * MS));
    }
    open_at(32, at > EVENT + 1 ? at * MS : EVENT * MS, leased(code_down(CELLS(100))));
    offer(32, 1000);
    go_on(&row, at, 0);
    print_wire(what, &row);
}

/* A copy of the table as it stood behind the slot at 25 ms takes over at 34 ms or later. */
static void taken_over(uint64_t at, const char *what)
{
    static abr_table copy;
    wire_row row;
    memset(&row, 0, sizeof row);
    begin(leased(code_down(CELLS(100))));
    for (uint64_t each = 0; each <= EVENT; each++) {
        put_on_wire(&row, each, slot(each * MS));
        if (each == 25) {
            copy = table;
        }
    }
    table = copy;
    go_on(&row, at, 0);
    print_wire(what, &row);
}

/* A second table that was given the same calls is the same, octet by octet, and goes on as the first would. */
static void same_calls(void)
{
    static abr_table other;
    wire_row row = first_cells();
    other = table;
    row = first_cells();
    CHECK(memcmp(&other, &table, sizeof table) == 0);
    go_on(&row, EVENT + 1, 0);
    print_wire("a standby that was given the same calls", &row);
}

static void on_the_wire(void)
{
    clock_replaced();
    steady_replaced(0);
    steady_replaced(1);
    reopened(EVENT + 1, "closed and opened again at once");
    reopened(40, "opened again a gap of the peak after its last cell");
    taken_over(EVENT + 1, "a standby with a copy of 25 ms");
    taken_over(EVENT + 10, "the same, its first slot a gap of the peak after the switch-over");
    same_calls();
}

/* ---- A clock that jumps, with a lag ------------------------------------------- */

enum { NO_JUMP, READINGS, OWN_TIME, TWO_SLOTS, STEADY, WAITS };

/* The slot's own time by a clock that is an hour ahead from a slot on, in these ways. */
static uint64_t time_over_jump(int how, steady_clock *clock, uint64_t wire, int jumped)
{
    uint64_t raw = wire + (jumped ? hour : 0);
    switch (how) {
    case NO_JUMP: return wire;
    case TWO_SLOTS: return wire + (jumped ? STM1_SLOT : 0);
    case STEADY: return steady(clock, raw);
    default: return raw;
    }
}

/* The tolerance that the wire needs: five circuits, a lag of five slots. */
static uint64_t needed_after_jump(int how, uint64_t jump)
{
    const way of = {5, 0.9, STM1_SLOT, 0, 0, 10, 5 * STM1_SLOT};
    uint64_t pause = gap_of(rate_of(code_of_circuit(of, 4))) + of.lag, needed = 0;
    steady_clock clock = {0, 0, STM1_SLOT};
    policed each[MOST];
    memset(each, 0, sizeof each);
    open_circuits(of);
    for (uint64_t number = 0; number < jump + 200; number++) {
        uint64_t wire = number * STM1_SLOT, now = time_over_jump(how, &clock, wire, number >= jump);
        if (how == WAITS && number >= jump && wire < (jump - 1) * STM1_SLOT + pause) {
            continue;
        }
        abr_sent sent = slot(abr_slot_time(&table, now, how == OWN_TIME && number == jump ? 0 : of.lag));
        if (sent.kind != ABR_SENT_IDLE) {
            police(&each[sent.vci - 32], wire, gap_of(rate_of(code_of_circuit(of, sent.vci - 32))), &needed);
        }
    }
    return needed;
}

static void jumps_with_lag(void)
{
    static const char *const names[] = {
        "no jump", "the readings passed", "the same, the first slot after the jump with a lag of 0",
        "a jump counts as two slots", "steady: a jump counts as one slot",
        "the readings passed, the next slot a gap of the slowest peak and a lag later",
    };
    uint64_t most[] = {0, 0, 0, 0, 0, 0};
    for (int how = NO_JUMP; how <= WAITS; how++) {
        for (uint64_t jump = 1000; jump < 1200; jump++) {
            uint64_t needed = needed_after_jump(how, jump);
            most[how] = needed > most[how] ? needed : most[how];
        }
        printf("%-76s %5.2f slots\n", names[how], (double)most[how] / STM1_SLOT);
    }
    CHECK(most[READINGS] > 5 * STM1_SLOT && most[OWN_TIME] > 5 * STM1_SLOT && most[WAITS] <= 5 * STM1_SLOT);
    CHECK(most[STEADY] == most[NO_JUMP] && most[TWO_SLOTS] > most[NO_JUMP] && most[TWO_SLOTS] <= 6 * STM1_SLOT);
}

/* ---- Which trace to judge after a switch-over --------------------------------- */

typedef struct {
    uint8_t octets[2 + 16 * 64];
    size_t length;
    uint64_t last;
    int cells;
} recorded;

static void record(recorded *it, uint64_t time, abr_sent sent)
{
    if (it->length == 0) {
        it->length = put_number(it->octets, ABR_HOUSE_N);
        it->length += put_number(it->octets + it->length, ABR_HOUSE_TRM);
    }
    it->length += put_cell(it->octets + it->length, it->cells++ == 0 ? 0 : time - it->last, sent);
    it->last = time;
}

static void print_verdict(const char *what, const recorded *it)
{
    abr_verdict verdict = abr_judge(it->octets, it->length);
    CHECK(verdict.refusal == ABR_OK);
    if (verdict.rule == ABR_RULE_NONE) {
        printf("%-46s passes\n", what);
    } else {
        printf("%-46s cell %u breaks rule %u\n", what, (unsigned)verdict.cell, (unsigned)verdict.rule);
    }
}

/* The standby has a copy of 25 ms and goes on at 34 ms, as above. */
static void which_trace(void)
{
    static recorded wire, alone, history;
    static abr_table copy;
    begin(leased(code_down(CELLS(100))));
    for (uint64_t at = 0; at < 110; at++) {
        if (at == EVENT + 1) {
            table = copy;
        }
        abr_sent sent = slot(at * MS);
        if (at == 25) {
            copy = table;
        }
        if (sent.kind == ABR_SENT_IDLE) {
            continue;
        }
        record(&wire, at * MS, sent);
        if (at > EVENT) {
            record(&alone, at * MS, sent);
        }
        if (at <= 25 || at > EVENT) {
            record(&history, at * MS, sent);
        }
    }
    print_verdict("all cells of the wire", &wire);
    print_verdict("the standby's cells alone", &alone);
    print_verdict("those up to the copy, then the standby's", &history);
}

/* ---- A receiver's cells ------------------------------------------------------- */

/* What a far source at 1,000 of at most 2,000 cells per second makes of a backward cell. */
static void far_source(abr_rm rm)
{
    uint8_t octets[ABR_CELL_OCTETS];
    memset(&table, 0, sizeof table);
    open_at(32, 0, abr_house(code_down(CELLS(2000)), code_down(CELLS(100)), code_down(CELLS(1000))));
    rm.vci = 32;
    rm.dir = 1;
    CHECK(abr_write_rm(rm, octets, sizeof octets) == ABR_OK);
    CHECK(abr_receive(&table, octets, sizeof octets).refusal == ABR_OK);
}

/* The made cell of an end with a peak of 500, with ER as it is or raised; the far source's rate after it. */
static void print_made(const char *what, uint32_t level, uint32_t er)
{
    begin(leased(code_down(CELLS(500))));
    CHECK(abr_set_level(&table, level) == ABR_OK && abr_make(&table, PAIR, 0).refusal == ABR_OK);
    CHECK(slot(0).kind == ABR_SENT_FORWARD && slot(2 * MS).made == 1);
    abr_rm rm = abr_read(cell, sizeof cell).rm;
    CHECK(rm.er == code_down(CELLS(500)));
    rm.er = er == 0 ? rm.er : er;
    far_source(rm);
    printf("level %u, ER %-52s %7.1f cells/s\n", (unsigned)level, what, cells_of(abr_acr(&table, PAIR).acr));
}

static void made_er(void)
{
    print_made("as made, our peak, 500", 1, 0);
    print_made("the far source's peak, 2,000", 1, code_down(CELLS(2000)));
    print_made("the largest, ABR_CODE_MAX", 1, ABR_CODE_MAX);
    print_made("the largest, ABR_CODE_MAX", 2, ABR_CODE_MAX);
}

/* A far source comes down from 8,000 to 800 cells per second by the turned cells of an end with a quarter of the
 * slowest line, which has data of its own; forward cells of the source always wait there. */
static void come_down(const char *what, int by_er)
{
    static abr_table far;
    uint32_t turned = 0;
    uint64_t time = 0;
    abr_params fast = abr_house(code_down(CELLS(8000)), code_down(CELLS(10)), code_down(CELLS(8000)));
    memset(&far, 0, sizeof far);
    begin(leased(code_down((uint64_t)(line_cells(0) / 4 * ABR_RATE_ONE))));
    CHECK(abr_open(&far, PAIR, 0, fast).refusal == ABR_OK && abr_set_level(&table, by_er ? 0 : 2) == ABR_OK);
    while (abr_acr(&far, PAIR).acr > CELLS(800)) {
        receive(32, 0, code_down(CELLS(8000)));
        time = abr_next_ready(&table);
        if (slot(time).kind == ABR_SENT_TURNED) {
            CHECK(!by_er || abr_limit(CELLS(800), cell, sizeof cell) == ABR_OK);
            CHECK(abr_receive(&far, cell, sizeof cell).refusal == ABR_OK);
            turned++;
        }
    }
    CHECK(!by_er || abr_acr(&far, PAIR).acr == CELLS(800));
    printf("%-36s %2u turned cell%s %6.3f s\n", what, (unsigned)turned, turned == 1 ? ", " : "s,", (double)time / 1e9);
}

static void level_or_rate(void)
{
    come_down("level 2, CI in turned cells", 0);
    come_down("abr_limit with 800 on turned cells", 1);
}

/* ---- Sentences with numbers ---------------------------------------------------- */

/* MCR coded up and PCR down: what counts is MCR <= ICR <= PCR. */
static void contract_codes(void)
{
    uint64_t minimum = CELLS(10001), peak = CELLS(353207);
    memset(&table, 0, sizeof table);
    CHECK(rate_of(code_up(minimum)) > minimum && rate_of(code_down(peak)) < peak);
    open_at(32, 0, abr_house(code_down(peak), code_up(minimum), code_up(minimum)));
    open_at(33, 0, abr_house(code_down(peak), code_up(minimum), code_down(peak)));
    abr_params same = abr_house(code_down(minimum), code_up(minimum), code_up(minimum));
    CHECK(abr_open(&table, 0, 34, 0, same).refusal == ABR_REFUSED_RANGE);
    open_at(34, 0, leased(code_down(minimum)));
}

/* The tolerance that the wire needs where a standby with a copy takes over, its first slot so long after the last one
 * of the original: five circuits, a lag of five slots. */
static uint64_t needed_after(uint64_t copied, uint64_t until, uint64_t pause)
{
    static abr_table copy;
    policed each[MOST];
    uint64_t needed = 0, now = 0;
    const way of = {5, 0.9, STM1_SLOT, 0, 0, 10, 5 * STM1_SLOT};
    memset(each, 0, sizeof each);
    open_circuits(of);
    for (uint64_t number = 0; number < 3000; number++, now += STM1_SLOT) {
        if (number == until) {
            table = copy;
            now += pause - STM1_SLOT;
        }
        abr_sent sent = slot(abr_slot_time(&table, now, of.lag));
        if (sent.kind != ABR_SENT_IDLE) {
            police(&each[sent.vci - 32], now, gap_of(rate_of(code_of_circuit(of, sent.vci - 32))), &needed);
        }
        if (number == copied) {
            copy = table;
        }
    }
    return needed;
}

/* With a gap of the slowest peak and a lag the tolerance stays the lag; with the next slot it does not. */
static void standby_waits(void)
{
    const way of = {5, 0.9, STM1_SLOT, 0, 0, 10, 5 * STM1_SLOT};
    uint64_t pause = gap_of(rate_of(code_of_circuit(of, 4))) + of.lag, most = 0;
    for (uint64_t copied = 1000; copied < 1040; copied++) {
        for (uint64_t until = copied + 1; until < copied + 40; until += 3) {
            uint64_t at_once = needed_after(copied, until, STM1_SLOT);
            CHECK(needed_after(copied, until, pause) <= of.lag);
            most = at_once > most ? at_once : most;
        }
    }
    CHECK(most > of.lag);
}

/* The tolerance that the wire needs where the times passed jump ahead once, by so much. */
static uint64_t needed_over(uint64_t jump)
{
    policed each[MOST];
    uint64_t needed = 0;
    const way of = {5, 0.9, STM1_SLOT, 0, 0, 10, 5 * STM1_SLOT};
    memset(each, 0, sizeof each);
    open_circuits(of);
    for (uint64_t number = 0; number < 3000; number++) {
        uint64_t wire = number * STM1_SLOT, now = wire + (number < 1000 ? 0 : jump);
        abr_sent sent = slot(abr_slot_time(&table, now, of.lag));
        if (sent.kind != ABR_SENT_IDLE) {
            police(&each[sent.vci - 32], wire, gap_of(rate_of(code_of_circuit(of, sent.vci - 32))), &needed);
        }
    }
    return needed;
}

/* The cells of one circuit in a row, one in each slot, after a jump: I.371's burst. The gaps here are whole slots. */
static void row_after_jump(void)
{
    static const uint64_t gaps[] = {2, 4, 5, 8};
    for (size_t each = 0; each < sizeof gaps / sizeof gaps[0]; each++) {
        for (uint64_t lag = 4; lag <= 32; lag += 4) {
            uint64_t row = 0, most = 0;
            begin(leased(code_down(CELLS(1000) / gaps[each])));
            for (uint64_t number = 0; number < 200; number++) {
                uint64_t now = number * MS + (number < 50 ? 0 : hour);
                row = slot(abr_slot_time(&table, now, lag * MS)).kind == ABR_SENT_IDLE ? 0 : row + 1;
                most = row > most ? row : most;
            }
            CHECK(most == lag / (gaps[each] - 1) + 1);
        }
    }
}

/* It is the lag and the jump, and less does not always do. */
static void jump_and_lag(void)
{
    uint64_t lag = 5 * STM1_SLOT, over = 0;
    for (uint64_t jump = 0; jump < 8 * STM1_SLOT; jump += 300) {
        uint64_t needed = needed_over(jump);
        CHECK(needed <= lag + jump);
        over += needed > lag;
    }
    CHECK(over > 0);
}

/* A slot is idle exactly if the next ready instant is after its own time, whatever the lag. */
static void idle_beforehand(void)
{
    way of = {5, 0.7, STM1_SLOT, 0, 0, 10, 0};
    open_circuits(of);
    for (uint64_t now = 0; now < 1000 * STM1_SLOT; now += STM1_SLOT) {
        int idle = abr_next_ready(&table) > now;
        CHECK(idle == (slot(abr_slot_time(&table, now, now / 7 % (9 * STM1_SLOT))).kind == ABR_SENT_IDLE));
    }
}

/* A connection that is opened again and has no offers yet is ready at once if a forward cell is received. */
static void held_offers(void)
{
    begin(leased(code_down(CELLS(100))));
    CHECK(slot(0).kind == ABR_SENT_FORWARD && abr_close(&table, PAIR).refusal == ABR_OK);
    open_at(32, 0, leased(code_down(CELLS(100))));
    CHECK(slot(MS).kind == ABR_SENT_IDLE);
    receive(32, 0, ABR_CODE_MAX);
    CHECK(slot(2 * MS).kind == ABR_SENT_FORWARD);
}

/* A contract from bits per second to the parameters of an open: 2,000 kbit/s of cells at most, policed, and 256 kbit/s
 * of payload at least, the far end having the same. */
static void worked_contract(void)
{
    static const uint64_t trips[] = {5, 250}; /* milliseconds */
    uint64_t sold = (256000 + PAYLOAD_BITS - 1) / PAYLOAD_BITS;
    uint32_t peak = code_down(CELLS(2000000) / CELL_BITS), minimum = to_sell(sold, 1);
    uint64_t wait = longest_round(gap_of(rate_of(minimum)));
    abr_params params = abr_house(peak, minimum, minimum);
    params.adtf = (uint32_t)((wait + 10 * MS + 10 * MS - 1) / (10 * MS));
    printf("PCR    2000 kbit/s of cells     %9.3f cells/s       code down  %8.3f  0x%04X\n", 2e6 / CELL_BITS,
           cells_of(rate_of(peak)), (unsigned)peak);
    printf("MCR     256 kbit/s of payload   %9u data cells/s  to open    %8.3f  0x%04X\n", (unsigned)sold,
           cells_of(rate_of(minimum)), (unsigned)minimum);
    printf("W of the minimum %.3f ms: ADTF %u\n", (double)wait / MS, (unsigned)params.adtf);
    for (size_t each = 0; each < sizeof trips / sizeof trips[0]; each++) {
        uint64_t trip = trips[each] * MS + wait, cells = rate_of(peak) / ABR_RATE_ONE;
        params.tbe = (uint32_t)((trip * (cells + 320) + SECOND - 1) / SECOND);
        params.frtt = (uint32_t)(trips[each] * 1000);
        CHECK(least_rate(cells, params.tbe, trip, params.frtt) == rate_of(peak));
        begin(params);
        abr_connection it = abr_status(&table, PAIR);
        printf("round trip %3u ms, %7.3f with W: TBE %4u, FRTT %6u us   CRM %2u, starts at %.3f cells/s\n",
               (unsigned)trips[each], (double)trip / MS, (unsigned)params.tbe, (unsigned)params.frtt, (unsigned)it.crm,
               cells_of(it.icr_used));
    }
}

/* A far end without data of its own sends forward cells too, so that a rate for one way does not carry what is sold. */
static void far_end_without_data(void)
{
    static abr_table far;
    unsigned data = 0, forward = 0;
    memset(&far, 0, sizeof far);
    begin(leased(0x47C1)); /* of "what to open": 10 data cells per second one way */
    CHECK(abr_open(&far, PAIR, 0, leased(code_down(CELLS(1000)))).refusal == ABR_OK);
    for (uint64_t now = 0; now < UINT64_C(100000000000); now += MS) {
        uint32_t kind = slot(abr_slot_time(&table, now, MS)).kind;
        data += kind == ABR_SENT_DATA;
        if (kind == ABR_SENT_FORWARD || kind == ABR_SENT_TURNED) {
            CHECK(abr_receive(&far, cell, sizeof cell).refusal == ABR_OK);
        }
        abr_sent sent = abr_slot(&far, abr_slot_time(&far, now, MS), cell, sizeof cell);
        forward += sent.kind == ABR_SENT_FORWARD;
        if (sent.kind != ABR_SENT_IDLE) {
            CHECK(sent.refusal == ABR_OK && abr_receive(&table, cell, sizeof cell).refusal == ABR_OK);
        }
    }
    CHECK(forward > 100 && data > 500 && data < 900);
}

/* The leaf of an open is the first of which abr_at answers 11. */
static void leaf_beforehand(void)
{
    begin(leased(code_down(CELLS(100))));
    for (uint32_t vci = 33; vci < 40; vci++) {
        open_at(vci, 0, leased(code_down(CELLS(100))));
    }
    CHECK(abr_close(&table, 0, 35).refusal == ABR_OK && abr_close(&table, 0, 37).refusal == ABR_OK);
    for (uint32_t vci = 50; vci < 60; vci++) {
        uint32_t leaf = 0;
        while (abr_at(&table, leaf).refusal == ABR_OK) {
            leaf++;
        }
        CHECK(abr_at(&table, leaf).refusal == ABR_REFUSED_NOT_OPEN);
        CHECK(abr_open(&table, 0, vci, 0, leased(code_down(CELLS(100)))).leaf == leaf);
    }
}

int main(void)
{
    static const block blocks[] = {
        {"data by rate", data_by_rate}, {"what to open", what_to_open},
        {"by lag", by_lag},             {"tolerances", tolerances},
        {"ADTF and TBE", adtf_and_tbe}, {"lines", beside_each_other},
        {"on the wire", on_the_wire},   {"jumps", jumps_with_lag},
        {"which trace", which_trace},   {"made ER", made_er},
        {"level or rate", level_or_rate}, {"worked contract", worked_contract},
    };
    static const check checks[] = {
        contract_codes, idle_beforehand, standby_waits, held_offers, row_after_jump, jump_and_lag,
        far_end_without_data, leaf_beforehand,
    };
    return PRINT_AND_CHECK(blocks, checks);
}
