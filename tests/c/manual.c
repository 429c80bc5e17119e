/*
 * The worked examples of docs/MANUAL.md, made by the library: every block that this prints stands in the manual line by
 * line, and every block of plain text in the manual is printed here, by contracts.c, by a program of the manual itself
 * or by an example (tests/manual compares them). What the manual says in sentences with numbers is a CHECK
 * here. The functions of the manual are in manual_functions.h, which tests/manual takes out of it.
 */
#include <inttypes.h>
#include <string.h>

#include "abr.h"
#include "blocks.h"
#include "manual_functions.h"

#define MS UINT64_C(1000000)
#define CELLS(number) ((uint64_t)(number) * ABR_RATE_ONE)
#define PAIR 0u, 32u /* VPI and VCI of most examples, as two arguments */

static abr_table table;
static uint8_t cell[ABR_CELL_OCTETS];

/* ---- Short forms of the calls, each of which must be accepted ------------ */

static uint32_t code(uint64_t cells)
{
    abr_coded coded = abr_code(CELLS(cells));
    CHECK(coded.refusal == ABR_OK);
    return coded.code;
}

static abr_params house(uint64_t peak, uint64_t minimum, uint64_t initial)
{
    return abr_house(code(peak), code(minimum), code(initial));
}

/* An empty table with one connection, opened at 0. */
static void begin(abr_params params)
{
    memset(&table, 0, sizeof table);
    CHECK(abr_open(&table, PAIR, 0, params).refusal == ABR_OK);
}

static void offer(uint64_t cells)
{
    CHECK(abr_offer(&table, PAIR, cells).refusal == ABR_OK);
}

/* Every slot is idle exactly before the earliest ready instant. */
static abr_sent slot(uint64_t time)
{
    int early = time < abr_next_ready(&table);
    abr_sent sent = abr_slot(&table, time, cell, sizeof cell);
    CHECK(sent.refusal == ABR_OK && early == (sent.kind == ABR_SENT_IDLE));
    return sent;
}

static uint64_t acr(void)
{
    abr_allowed allowed = abr_acr(&table, PAIR);
    CHECK(allowed.refusal == ABR_OK);
    return allowed.acr;
}

/* What a received cell of the example's pair answers. */
static void received_as(uint32_t kind, abr_received received)
{
    CHECK(received.refusal == ABR_OK && received.kind == kind && received.comparisons >= 1);
    CHECK(received.vpi == 0 && received.vci == 32 && received.leaf == 0 && received.acr == acr());
}

/* A cell of the example's pair is received, with these fields. */
static void receive(uint32_t dir, uint32_t bn, uint32_t ci, uint32_t ni, uint32_t er)
{
    abr_rm rm = {PAIR, 0, 0, 0, 0, 0, 0, 0, 0, 0, 0};
    uint8_t octets[ABR_CELL_OCTETS];
    rm.dir = dir;
    rm.bn = bn;
    rm.ci = ci;
    rm.ni = ni;
    rm.er = er;
    CHECK(abr_write_rm(rm, octets, sizeof octets) == ABR_OK);
    received_as(dir ? ABR_RECEIVED_BACKWARD : ABR_RECEIVED_FORWARD, abr_receive(&table, octets, sizeof octets));
}

static void forward_arrives(void) { receive(0, 0, 0, 0, ABR_CODE_MAX); }

static void backward_arrives(void) { receive(1, 0, 0, 0, ABR_CODE_MAX); }

static void data_arrives(int efci)
{
    uint8_t octets[ABR_CELL_OCTETS] = {0};
    write_header(octets, PAIR, efci ? 2 : 0);
    received_as(ABR_RECEIVED_DATA, abr_receive(&table, octets, sizeof octets));
}

/* The connection that goes next, of all that are open: the earliest ready instant, then the lowest name. */
static abr_connection earliest(void)
{
    abr_connection first = abr_at(&table, 0);
    for (uint32_t leaf = 1; leaf < ABR_CONNECTIONS_MAX; leaf++) {
        abr_connection it = abr_at(&table, leaf);
        int lower = (it.vpi << 16 | it.vci) < (first.vpi << 16 | first.vci);
        int sooner = it.ready < first.ready || (it.ready == first.ready && lower);
        if (it.refusal == ABR_OK && (first.refusal != ABR_OK || sooner)) {
            first = it;
        }
    }
    return first;
}

/* A slot that does what the readings before it say. */
static abr_sent foreseen_slot(uint64_t time)
{
    static const abr_sent nothing;
    abr_connection next = earliest();
    CHECK(next.refusal == ABR_OK && next.ready == abr_next_ready(&table));
    abr_sent sent = slot(time);
    if (next.ready > time) {
        CHECK(memcmp(&sent, &nothing, sizeof sent) == 0);
        return sent;
    }
    CHECK(sent.leaf == next.leaf && sent.vpi == next.vpi && sent.kind == next_kind(next, time));
    CHECK(sent.acr_before == next.acr && sent.acr == abr_at(&table, sent.leaf).acr && sent.reserved == 0);
    CHECK(sent.made == (sent.kind == ABR_SENT_TURNED && !next.turned));
    CHECK(sent.kind == ABR_SENT_FORWARD || sent.acr == sent.acr_before);
    return sent;
}

/* Slots from a time to another, a step apart; how many sent, all of them of one kind. */
static int run(uint64_t from, uint64_t to, uint64_t step, uint32_t kind)
{
    int count = 0;
    for (uint64_t time = from; time <= to; time += step) {
        abr_sent sent = slot(time);
        CHECK(sent.kind == kind || sent.kind == ABR_SENT_IDLE);
        count += sent.kind == kind;
    }
    return count;
}

/* Octets in hexadecimal, in a row. */
static void print_octets(const uint8_t *octets, size_t count)
{
    for (size_t place = 0; place < count; place++) {
        printf("%s%02x", place == 0 ? "" : " ", octets[place]);
    }
    printf("\n");
}

/* ---- The line of slots --------------------------------------------------- */

enum { SLOTS = 32, WIDTH = 3 };

/* A row of the drawing: a letter for each slot, or a blank; no blanks at its end. */
static void print_row(const char *name, const char *letters)
{
    char row[SLOTS * WIDTH + 1];
    size_t length = 0;
    for (int at = 0; at < SLOTS; at++) {
        length += (size_t)sprintf(row + length, "%c  ", letters[at]);
    }
    while (length > 0 && row[length - 1] == ' ') {
        length--;
    }
    row[length] = 0;
    printf("%-15s%s\n", name, row);
}

static void print_milliseconds(void)
{
    printf("%-15s", "ms");
    for (int at = 0; at < SLOTS - 2; at += 2) {
        printf("%-6d", at / 2);
    }
    printf("%d\n", SLOTS / 2 - 1);
}

/* What is done before a slot of the drawing. */
static void line_events(int at, char *arrives)
{
    if (at == 3 || at == 4 || at == 12) {
        forward_arrives();
        arrives[at] = 'f';
    }
    if (at == 6) {
        CHECK(abr_offer(&table, 0, 33, 3).refusal == ABR_OK);
    }
}

/* Two connections of 1,000 cells per second and a slot every 0.5 ms: 0/32 with Nrm 8, 0/33 with Nrm 4, Trm 6.25 ms. */
static void line_of_slots(void)
{
    static const char letters[] = ".FTD";
    char arrives[SLOTS], lower[SLOTS], upper[SLOTS], since[SLOTS];
    abr_params params = house(1000, 1, 1000);
    int k = 0;
    memset(arrives, ' ', sizeof arrives);
    memset(since, ' ', sizeof since);
    params.trm = 3;
    params.n = 3;
    begin(params);
    params.n = 2;
    CHECK(abr_open(&table, 0, 33, 0, params).refusal == ABR_OK);
    offer(7);
    for (int at = 0; at < SLOTS; at++) {
        line_events(at, arrives);
        abr_sent sent = foreseen_slot((uint64_t)at * MS / 2);
        lower[at] = sent.vci == 33 ? '.' : letters[sent.kind];
        upper[at] = sent.vci == 33 ? letters[sent.kind] : '.';
        if (sent.vci == 32) {
            k = sent.kind == ABR_SENT_FORWARD ? 0 : k + 1;
            since[at] = (char)('0' + k);
            CHECK(abr_at(&table, sent.leaf).k == (uint32_t)k);
        }
    }
    print_milliseconds();
    print_row("0/32 receives", arrives);
    print_row("0/32 sends", lower);
    print_row("k of 0/32", since);
    print_row("0/33 sends", upper);
}

/* ---- Rates and codes ------------------------------------------------------ */

static void print_code(const char *name, uint64_t rate, uint32_t found)
{
    abr_rated rated = abr_rate(found);
    CHECK(rated.refusal == ABR_OK);
    printf("%-22s rate %13" PRIu64 "   code 0x%04X   its rate %13" PRIu64 "\n", name, rate, (unsigned)found, rated.rate);
}

static void codes(void)
{
    print_code("1 cell/s", CELLS(1), code(1));
    print_code("1,000 cells/s", CELLS(1000), code(1000));
    print_code("10,001 cells/s", CELLS(10001), code(10001));
    print_code("10,001 cells/s, up", CELLS(10001), code_up(CELLS(10001)));
    print_code("353,207 cells/s", CELLS(353207), code(353207));
    print_code("353,207 cells/s, up", CELLS(353207), code_up(CELLS(353207)));
    print_code("less than 1 cell/s", 511, abr_code(511).code);
    print_code("less than 1, up", 511, code_up(511));
    print_code("the largest", ABR_RATE_MAX, ABR_CODE_MAX);
    CHECK(code_up(0) == 0 && code_up(1) == 0x4000 && code_up(ABR_RATE_MAX) == ABR_CODE_MAX);
    for (uint32_t each = 0x4000; each < ABR_CODE_MAX; each++) {
        uint64_t below = abr_rate(each).rate, above = abr_rate(each + 1).rate;
        CHECK(below < above && (above - below) * 512 <= below);
        CHECK(code_up(below) == each && code_up(below + 1) == each + 1 && code_up(above) == each + 1);
    }
    CHECK(abr_code(ABR_RATE_MAX + 1).refusal == ABR_REFUSED_TOO_LARGE);
    CHECK(abr_rate(0x8000).refusal == ABR_REFUSED_RESERVED_BIT && abr_rate(0x10000).refusal == ABR_REFUSED_RANGE);
    CHECK(abr_rate(0x3FFF).refusal == ABR_OK && abr_rate(0x3FFF).rate == 0);
}

/* The gap by its formula, which leaves the table. */
static uint64_t gap_of(uint64_t rate)
{
    return (UINT64_C(512000000000) + rate - 1) / rate;
}

/* How long after a cell at this rate the next may go, tried nanosecond by nanosecond around the formula. */
static uint64_t gap(uint64_t rate)
{
    uint64_t nanoseconds = gap_of(rate);
    abr_params params = abr_house(ABR_CODE_MAX, 0, abr_code(rate).code);
    begin(params);
    offer(9);
    CHECK(slot(0).kind == ABR_SENT_FORWARD && acr() == rate);
    CHECK(slot(nanoseconds - 1).kind == ABR_SENT_IDLE);
    CHECK(slot(nanoseconds).kind == ABR_SENT_DATA);
    return nanoseconds;
}

static void gaps(void)
{
    CHECK(gap(CELLS(1)) == 1000 * MS && gap(CELLS(3)) == 333333334);
    CHECK(gap(CELLS(1000)) == MS && gap(CELLS(10000)) == 100000);
    CHECK(gap(ABR_RATE_MAX) == 1);
}

/* One second of an STM-1 link that is busy with some connections of one rate: how many cells go, if a slot is passed
 * its own time or that of abr_slot_time, at most a slot for each connection before it. */
enum { STM1 = 353207, SLOT = 2831 };

/* Keeps data waiting on what a slot sent. */
static void keep_waiting(abr_sent sent, int *waiting)
{
    if (sent.kind == ABR_SENT_DATA && --*waiting < 10000) {
        CHECK(abr_offer(&table, 0, sent.vci, 50000).refusal == ABR_OK);
        *waiting += 50000;
    }
}

/* An empty table with busy connections 0/32, 0/33, .. of these rates. */
static void busy(const uint32_t *codes, uint32_t connections, int *waiting)
{
    memset(&table, 0, sizeof table);
    for (uint32_t which = 0; which < connections; which++) {
        abr_params params = abr_house(codes[which], codes[which], codes[which]);
        CHECK(abr_open(&table, 0, 32 + which, 0, params).refusal == ABR_OK);
        CHECK(abr_offer(&table, 0, 32 + which, 60000).refusal == ABR_OK);
        waiting[which] = 60000;
    }
}

static int cells_on_a_link(uint32_t rate_code, uint32_t connections, uint64_t lag)
{
    int sent = 0, waiting[2];
    uint32_t codes[2] = {rate_code, rate_code};
    busy(codes, connections, waiting);
    for (uint64_t number = 0; number < STM1; number++) {
        uint64_t now = number * 1000 * MS / STM1;
        abr_sent cell_sent = slot(abr_slot_time(&table, now, lag));
        sent += cell_sent.kind != ABR_SENT_IDLE;
        if (cell_sent.kind != ABR_SENT_IDLE) {
            keep_waiting(cell_sent, &waiting[cell_sent.vci - 32]);
        }
    }
    return sent;
}

static void print_link(const char *what, uint32_t rate_code, uint32_t connections)
{
    uint64_t rate = abr_rate(rate_code).rate;
    printf("%-29s %6.0f cells/s  gap %7" PRIu64 " ns   %6d cells   with a lag %6d\n", what, (double)rate / ABR_RATE_ONE,
           gap_of(rate), cells_on_a_link(rate_code, connections, 0),
           cells_on_a_link(rate_code, connections, connections * (SLOT + 1)));
}

static void slotted_link(void)
{
    print_link("1, the link's rate, code down", code(STM1), 1);
    print_link("1, the link's rate, code up", code_up(CELLS(STM1)), 1);
    print_link("1, 299,520", code(299520), 1);
    print_link("1, 20,000", code(20000), 1);
    print_link("2, half the link, code down", abr_code(CELLS(STM1) / 2).code, 2);
    print_link("2, half the link, code up", code_up(CELLS(STM1) / 2), 2);
    CHECK(1000 * MS / STM1 == SLOT);
}

/* ---- What a line delivers -------------------------------------------------- */

enum { MANY = 16, MANY_SLOTS = 100000 };

/* What busy connections with these gaps, in slots, are delivered of their rates in percent, if times are passed up to
 * so many slots before a slot's own: the least and the greatest share. With a lag for all of them the bounds must
 * hold. */
static void shares(const double *gaps, uint32_t connections, uint32_t lag_slots, int *least, int *most)
{
    int waiting[MANY], cells[MANY] = {0};
    uint32_t codes[MANY];
    uint64_t lag = (uint64_t)lag_slots * SLOT, last[MANY];
    for (uint32_t which = 0; which < connections; which++) {
        codes[which] = abr_code((uint64_t)(1e9 / (gaps[which] * SLOT) * ABR_RATE_ONE)).code;
    }
    busy(codes, connections, waiting);
    for (uint64_t number = 0; number < MANY_SLOTS; number++) {
        uint64_t now = number * SLOT, time = abr_slot_time(&table, now, lag);
        abr_sent sent = slot(time);
        uint32_t which = sent.vci - 32;
        CHECK(now - time <= lag);
        if (sent.kind == ABR_SENT_IDLE) {
            CHECK(time == now);
            continue;
        }
        if (lag_slots == connections && cells[which] > 0) {
            CHECK(time == last[which] + gap_of(abr_rate(codes[which]).rate));
        }
        last[which] = time;
        cells[which]++;
        keep_waiting(sent, &waiting[which]);
    }
    *least = 1000, *most = 0;
    for (uint32_t which = 0; which < connections; which++) {
        double whole = (double)MANY_SLOTS * SLOT / (double)gap_of(abr_rate(codes[which]).rate);
        int share = (int)(100.0 * cells[which] / whole + 0.5);
        *least = share < *least ? share : *least;
        *most = share > *most ? share : *most;
    }
}

static void print_shares(const char *what, const double *gaps, uint32_t connections)
{
    uint32_t lags[3] = {0, 1, connections};
    double load = 0;
    for (uint32_t which = 0; which < connections; which++) {
        load += 1 / gaps[which];
    }
    printf("%-30s load %.2f  ", what, load);
    for (int way = 0; way < 3; way++) {
        int least, most;
        shares(gaps, connections, lags[way], &least, &most);
        printf("   lag %2u: %3d to %3d %%", (unsigned)lags[way], least, most);
    }
    printf("\n");
}

static void delivered_shares(void)
{
    static const double two[] = {2, 3}, four[] = {4, 4, 4, 7}, odd[] = {2.5, 3.3, 7.1, 9};
    double sixteen[MANY];
    for (int which = 0; which < MANY; which++) {
        sixteen[which] = 16.5 + 5.5 * which / 15;
    }
    print_shares("2 and 3 slots", two, 2);
    print_shares("4, 4, 4 and 7 slots", four, 4);
    print_shares("2.5, 3.3, 7.1 and 9 slots", odd, 4);
    print_shares("sixteen from 16.5 to 22 slots", sixteen, MANY);
}

/* A leased circuit beside three others whose peak is the line's rate: what it has in a second, if the line is its own
 * port or not. Every forward cell is answered after 200 slots, without a mark and with the highest explicit rate. */
enum { PARTIES = 4, LEASED_CELLS = 100000, ROUND_TRIP = 200, RING = 256 };

typedef struct {
    uint64_t due[RING];
    uint32_t which[RING];
    unsigned first, count;
} answers_due;

static uint64_t acr_of(uint32_t which) { return abr_acr(&table, 0, 32 + which).acr; }

static void answer_one(uint32_t which, int port, own_line *line)
{
    uint64_t demands[PARTIES], minimums = 0;
    for (int each = 0; each < PARTIES; each++) {
        demands[each] = line->peak[each];
        minimums += line->least[each];
    }
    abr_rm fields = {0, 32 + which, 1, 0, 0, 0, 0, ABR_CODE_MAX, 0, 0, 0, 0};
    CHECK(abr_write_rm(fields, cell, sizeof cell) == ABR_OK);
    if (port) {
        uint64_t share = line->least[which] + abr_fair_share(line->capacity - minimums, demands, PARTIES).rate;
        CHECK(line_receive(line, &table, which, share, cell) == ABR_OK);
        CHECK(line->total <= line->capacity && line->filled <= line->depth && acr_of(which) <= line->cap[which]);
    } else {
        CHECK(abr_receive(&table, cell, sizeof cell).refusal == ABR_OK);
    }
}

/* A line of 99 in 100 parts of an STM-1 link with a bucket of four slots, the first connection leased. */
static uint64_t open_parties(own_line *line, int *waiting)
{
    uint64_t minimums[PARTIES] = {CELLS(LEASED_CELLS), CELLS(100), CELLS(100), CELLS(100)};
    memset(&table, 0, sizeof table);
    memset(line, 0, sizeof *line);
    line->s = SLOT + 1, line->g = (SLOT + 1) * 100 / 99;
    line->capacity = UINT64_C(512000000000) / line->g;
    line->depth = PARTIES * line->g;
    for (uint32_t which = 0; which < PARTIES; which++) {
        uint32_t minimum = code_up(minimums[which]);
        line->least[which] = abr_rate(minimum).rate, line->peak[which] = abr_rate(code(STM1)).rate;
        CHECK(line_open(line, which, line->least[which]));
        CHECK(abr_open(&table, 0, 32 + which, 0, abr_house(code(STM1), minimum, minimum)).refusal == ABR_OK);
        CHECK(abr_offer(&table, 0, 32 + which, 60000).refusal == ABR_OK);
        waiting[which] = 60000;
    }
    return PARTIES * line->g + line->depth;
}

static int leased_cells(int port)
{
    int waiting[PARTIES], leased = 0;
    static answers_due ring;
    own_line line;
    uint64_t lag = open_parties(&line, waiting), each_gap = gap_of(line.least[0]);
    memset(&ring, 0, sizeof ring);
    for (uint64_t number = 0; number < STM1; number++) {
        uint64_t now = number * 1000 * MS / STM1;
        while (ring.count > 0 && ring.due[ring.first] <= number) {
            answer_one(ring.which[ring.first], port, &line);
            ring.first = (ring.first + 1) % RING;
            ring.count--;
        }
        line_slot(&line);
        abr_sent sent = slot(abr_slot_time(&table, now, lag));
        if (sent.kind != ABR_SENT_IDLE) {
            leased += sent.vci == 32;
            keep_waiting(sent, &waiting[sent.vci - 32]);
        }
        if (sent.kind == ABR_SENT_FORWARD) {
            unsigned place = (ring.first + ring.count++) % RING;
            CHECK(ring.count <= RING);
            ring.due[place] = number + ROUND_TRIP;
            ring.which[place] = sent.vci - 32;
        }
        CHECK(!port || now <= (uint64_t)(leased + 1) * each_gap + lag);
    }
    return leased;
}

static void leased_beside_greedy(void)
{
    printf("in one second, of a minimum of 100,000:   cells as they come %6d   by line_receive %6d\n", leased_cells(0),
           leased_cells(1));
}

/* A made cell takes the time that the last slot was passed; with a later one a connection loses what it lagged. */
static void last_of_any_call(void)
{
    begin(house(20000, 1, 20000));
    offer(9);
    CHECK(slot(0).kind == ABR_SENT_FORWARD && abr_next_ready(&table) == 50000);
    CHECK(abr_slot_time(&table, 51000, SLOT) == 50000 && abr_slot_time(&table, 51000, 0) == 51000);
    CHECK(abr_set_level(&table, 1) == ABR_OK && abr_make(&table, PAIR, 51000).refusal == ABR_OK);
    CHECK(abr_slot(&table, 50000, cell, sizeof cell).refusal == ABR_REFUSED_TIME_BACKWARD);
    CHECK(abr_slot_time(&table, 51000, SLOT) == 51000 && abr_slot_time(&table, 50999, SLOT) == 50999);
    CHECK(slot(abr_slot_time(&table, 51000, SLOT)).kind == ABR_SENT_TURNED);
}

/* ---- The four moves ------------------------------------------------------- */

static void print_rate(const char *what, uint64_t rate)
{
    printf("%-58s %7" PRIu64 " = %7.1f cells/s\n", what, rate, (double)rate / ABR_RATE_ONE);
}

static void first_cell(void)
{
    begin(house(2000, 100, 1000));
    offer(9);
    print_rate("opened with PCR 2,000 and ICR 1,000", acr());
    backward_arrives();
    print_rate("a backward cell without marks, ER at its largest", acr());
    CHECK(slot(0).kind == ABR_SENT_FORWARD);
    print_rate("the first cell, a forward one", acr());
}

/* Two data cells after a forward one at 0, then a forward cell at a time; the rate after it. */
static uint64_t forward_at(uint64_t time)
{
    begin(house(2000, 100, 1000));
    offer(9);
    CHECK(slot(0).kind == ABR_SENT_FORWARD);
    for (int cells = 0; cells < 4; cells++) {
        backward_arrives();
    }
    CHECK(acr() == CELLS(1500));
    CHECK(slot(1 * MS).kind == ABR_SENT_DATA && slot(2 * MS).kind == ABR_SENT_DATA);
    CHECK(slot(time).kind == ABR_SENT_FORWARD);
    return acr();
}

static void idle(void)
{
    print_rate("forward cell 500,000,000 ns after the last, ADTF 50", forward_at(500 * MS));
    print_rate("forward cell 500,000,001 ns after the last, ADTF 50", forward_at(500 * MS + 1));
}

/* CRM is 2: TBE 64 and Nrm 32. A forward cell whenever 31 others went. */
static void unanswered(void)
{
    abr_params params = house(1000, 100, 1000);
    uint64_t time = 0;
    params.tbe = 64;
    begin(params);
    offer(1000);
    for (int number = 1; number <= 5; number++) {
        char what[80];
        CHECK(slot(time).kind == ABR_SENT_FORWARD);
        CHECK(abr_status(&table, PAIR).unanswered == (uint32_t)number && abr_status(&table, PAIR).crm == 2);
        sprintf(what, "forward cell %d, of which %d had no answer before", number, number - 1);
        print_rate(what, acr());
        CHECK(run(time + 2 * MS, time + 62 * MS, 2 * MS, ABR_SENT_DATA) == 31);
        time += 64 * MS;
    }
    receive(1, 1, 0, 1, ABR_CODE_MAX);
    CHECK(slot(time).kind == ABR_SENT_FORWARD);
    print_rate("a backward cell with BN 1 and NI 1, then forward cell 6", acr());
    CHECK(abr_status(&table, PAIR).unanswered == 6);
    receive(1, 0, 0, 1, ABR_CODE_MAX);
    CHECK(abr_status(&table, PAIR).unanswered == 0);
    CHECK(run(time + 2 * MS, time + 62 * MS, 2 * MS, ABR_SENT_DATA) == 31);
    CHECK(slot(time + 64 * MS).kind == ABR_SENT_FORWARD);
    print_rate("a backward cell with BN 0 and NI 1, then forward cell 7", acr());
}

/* The rate after one backward cell at 1,000 cells per second, with PCR 2,000, MCR 100, RIF and RDF 1/16. */
static void print_feedback(const char *what, uint32_t ci, uint32_t ni, uint32_t er)
{
    begin(house(2000, 100, 1000));
    receive(1, 0, ci, ni, er);
    print_rate(what, acr());
}

static void feedback(void)
{
    print_feedback("CI 0, NI 0, ER largest:  1,000 + 2,000 / 16", 0, 0, ABR_CODE_MAX);
    print_feedback("CI 0, NI 0, ER 1,050:    no more than ER", 0, 0, code(1050));
    print_feedback("CI 0, NI 1, ER largest:  as it was", 0, 1, ABR_CODE_MAX);
    print_feedback("CI 0, NI 1, ER 600:      ER holds with NI too", 0, 1, code(600));
    print_feedback("CI 1, NI 0, ER largest:  1,000 x 15 / 16", 1, 0, ABR_CODE_MAX);
    print_feedback("CI 1, NI 1, ER largest:  the same, CI decides", 1, 1, ABR_CODE_MAX);
    print_feedback("CI 1, NI 0, ER 500:      ER holds with CI too", 1, 0, code(500));
    print_feedback("CI 0, NI 0, ER 10:       never below MCR", 0, 0, code(10));
    begin(house(2000, 1, 1000));
    receive(1, 0, 0, 0, abr_code(1000).code);
    CHECK(acr() == 1000);
    receive(1, 0, 1, 0, ABR_CODE_MAX);
    CHECK(acr() == 937);
}

/* ---- Setup ---------------------------------------------------------------- */

static void print_setup(uint32_t tbe, uint32_t frtt)
{
    abr_params params = house(2000, 100, 1000);
    uint32_t refusal;
    params.tbe = tbe;
    params.frtt = frtt;
    begin(params);
    CHECK(abr_export(&table, PAIR, &refusal).icr == 1000.0 && refusal == ABR_OK);
    abr_connection status = abr_status(&table, PAIR);
    CHECK(status.icr_used == acr() && memcmp(&status.params, &params, sizeof params) == 0);
    printf("TBE %8u  FRTT %8u us   CRM %7u   starts at %7.1f cells/s\n", (unsigned)tbe, (unsigned)frtt,
           (unsigned)status.crm, (double)acr() / ABR_RATE_ONE);
}

static void setup(void)
{
    print_setup(16777215, 0);
    print_setup(64, 0);
    print_setup(64, 32000);
    print_setup(64, 128000);
    print_setup(64, 1280000);
    print_setup(65, 128000);
}

/* An initial rate that is no code's: 30 units, and 17 seconds to the second cell. */
static void slow_start(void)
{
    abr_params params = house(2000, 0, 1000);
    params.tbe = 1;
    params.frtt = ABR_FRTT_MAX;
    begin(params);
    offer(1);
    CHECK(acr() == 30 && acr() < ABR_RATE_ONE / 10);
    CHECK(slot(0).kind == ABR_SENT_FORWARD && abr_read(cell, sizeof cell).rm.ccr == 0x0000);
    CHECK(abr_next_ready(&table) == UINT64_C(17066666667));
    CHECK(abr_code(ABR_RATE_ONE - 1).code == 0x0000);
}

/* ---- Marks ---------------------------------------------------------------- */

/* What happens to a destination, a letter each: d and e are data cells without and with EFCI, f a forward cell, c one
 * with CI 1, n one with NI 1, 0 to 2 the level, m a made cell. */
static void happens(char letter, uint64_t time)
{
    switch (letter) {
    case 'd': data_arrives(0); break;
    case 'e': data_arrives(1); break;
    case 'f': forward_arrives(); break;
    case 'c': receive(0, 0, 1, 0, ABR_CODE_MAX); break;
    case 'n': receive(0, 0, 0, 1, ABR_CODE_MAX); break;
    case 'm': CHECK(abr_make(&table, PAIR, time).refusal == ABR_OK); break;
    default: CHECK(abr_set_level(&table, (uint32_t)(letter - '0')) == ABR_OK);
    }
}

/* The backward cells that a connection sends after some events, by their BN, CI and NI. */
static void print_marks(const char *events, const char *words)
{
    uint64_t time = 0;
    begin(house(1000, 1, 1000));
    offer(1);
    CHECK(slot(time).kind == ABR_SENT_FORWARD);
    for (; *events != 0; events++) {
        happens(*events, time);
    }
    printf("%-52s", words);
    for (time = MS; time < 5 * MS; time += MS) {
        abr_sent sent = foreseen_slot(time);
        if (sent.kind == ABR_SENT_TURNED) {
            abr_rm rm = abr_read(cell, sizeof cell).rm;
            CHECK(rm.dir == 1 && rm.er == (rm.bn ? code(1000) : ABR_CODE_MAX) && rm.bn == sent.made);
            printf("  BN %u CI %u NI %u", (unsigned)rm.bn, (unsigned)rm.ci, (unsigned)rm.ni);
        }
    }
    printf("\n");
}

static void marks(void)
{
    print_marks("ef", "data with EFCI, forward");
    print_marks("edf", "data with EFCI, data without, forward");
    print_marks("fe", "forward, data with EFCI");
    print_marks("eff", "data with EFCI, forward, forward");
    print_marks("c", "forward with CI");
    print_marks("n", "forward with NI");
    print_marks("cf", "forward with CI, forward");
    print_marks("nf", "forward with NI, forward");
    print_marks("1f", "level 1, forward");
    print_marks("2f", "level 2, forward");
    print_marks("2n", "level 2, forward with NI");
    print_marks("f2", "forward, level 2");
    print_marks("2f0", "level 2, forward, level 0");
    print_marks("2f0f", "level 2, forward, level 0, forward");
    print_marks("2m0f", "level 2, made, level 0, forward");
    print_marks("e1m", "data with EFCI, level 1, made");
}

/* The mark of a turned cell that was sent is used up. */
static void mark_used_up(void)
{
    begin(house(1000, 1, 1000));
    offer(1);
    CHECK(slot(0).kind == ABR_SENT_FORWARD && slot(MS).kind == ABR_SENT_DATA);
    data_arrives(1);
    for (uint64_t time = 2 * MS; time <= 3 * MS; time += MS) {
        forward_arrives();
        CHECK(slot(time).kind == ABR_SENT_TURNED);
        CHECK(abr_read(cell, sizeof cell).rm.ci == (time == 2 * MS));
    }
}

/* ---- Octets --------------------------------------------------------------- */

static void print_header(const char *what, uint32_t vpi, uint32_t vci, uint32_t type)
{
    uint8_t octets[ABR_CELL_OCTETS] = {0};
    write_header(octets, vpi, vci, type);
    abr_cell read = abr_read(octets, sizeof octets);
    CHECK(read.refusal == ABR_OK && read.kind == ABR_CELL_DATA && read.efci == type >> 1);
    CHECK(read.rm.vpi == vpi && read.rm.vci == vci);
    printf("%-22s ", what);
    print_octets(octets, 5);
}

static void headers(void)
{
    print_header("1/100, data", 1, 100, 0);
    print_header("1/100, data with EFCI", 1, 100, 2);
    print_header("255/65535, data", 255, 65535, 0);
    print_header("0/0, unassigned", 0, 0, 0);
}

/* GFC, CLP and the low bit of the payload type do not matter to a reader. */
static void ignored_bits(void)
{
    uint8_t octets[ABR_CELL_OCTETS] = {0}, idle_cell[ABR_CELL_OCTETS] = {0, 0, 0, 1, 0x52};
    write_header(octets, 1, 100, 3);
    octets[0] |= 0xA0;
    octets[3] |= 0x01;
    octets[4] = header_check(octets);
    abr_cell read = abr_read(octets, sizeof octets);
    CHECK(read.refusal == ABR_OK && read.efci == 1 && read.rm.vpi == 1 && read.rm.vci == 100);
    CHECK((octets[3] >> 1 & 1) == 1 && header_check(idle_cell) == 0x52);
    memset(&table, 0, sizeof table);
    CHECK(abr_receive(&table, idle_cell, sizeof idle_cell).refusal == ABR_REFUSED_NOT_OPEN);
    write_header(octets, 0, 0, 0);
    CHECK(octets[4] == 0x55 && abr_receive(&table, octets, sizeof octets).refusal == ABR_REFUSED_NOT_OPEN);
    for (uint32_t vci = 0; vci < ABR_VCI_MIN; vci++) {
        write_header(octets, 1, vci, 0);
        CHECK(abr_receive(&table, octets, sizeof octets).refusal == ABR_REFUSED_NOT_OPEN);
    }
    for (uint32_t type = 4; type < 8; type++) {
        write_header(octets, 1, 100, type);
        CHECK(abr_read(octets, sizeof octets).refusal == (type == 6 ? ABR_REFUSED_PROTOCOL : ABR_REFUSED_PAYLOAD_TYPE));
    }
}

/* A forward cell from a slot, whole. */
static void rm_octets(void)
{
    begin(house(2000, 100, 1000));
    offer(1);
    CHECK(slot(0).kind == ABR_SENT_FORWARD);
    for (size_t at = 0; at < sizeof cell; at += 16) {
        printf("octets %2zu to %2zu   ", at + 1, at + 16 < sizeof cell ? at + 16 : sizeof cell);
        print_octets(cell + at, at + 16 < sizeof cell ? 16 : sizeof cell - at);
    }
    abr_rm rm = abr_read(cell, sizeof cell).rm;
    CHECK(rm.er == code(2000) && rm.ccr == code(1000) && rm.mcr == code(100) && rm.vci == 32);
    CHECK(!rm.dir && !rm.bn && !rm.ci && !rm.ni && !rm.ra && !rm.ql && !rm.sn);
}

/* What is turned keeps all but DIR, BN, the marks, the header and the CRC-10: reserved octets too. */
static void turned_keeps(void)
{
    abr_rm rm = {PAIR, 0, 1, 0, 0, 1, 0x5000, 0x4C00, 0x4200, 7, 9}, back;
    uint8_t octets[ABR_CELL_OCTETS];
    CHECK(abr_write_rm(rm, octets, sizeof octets) == ABR_OK);
    octets[0] |= 0xA0; /* GFC */
    octets[3] |= 0x01; /* CLP */
    octets[4] = header_check(octets);
    begin(house(1000, 1, 1000));
    CHECK(abr_receive(&table, octets, sizeof octets).refusal == ABR_OK);
    CHECK(slot(0).kind == ABR_SENT_FORWARD && slot(MS).kind == ABR_SENT_TURNED);
    CHECK(cell[0] == 0 && cell[1] == 0 && cell[2] == 2 && cell[3] == 0x0C && cell[4] == header_check(cell));
    back = abr_read(cell, sizeof cell).rm;
    CHECK(back.dir == 1 && back.bn == 0 && back.ra == 1 && back.ql == 7 && back.sn == 9);
    CHECK(back.er == rm.er && back.ccr == rm.ccr && back.mcr == rm.mcr && !back.ci && !back.ni);
    CHECK(memcmp(cell + 7, octets + 7, 44) == 0);
}

/* ---- When a connection is ready ------------------------------------------- */

/* A late slot is not made up for: the gap counts from the actual last cell, at the rate that holds when it is asked. */
static void gap_after_the_last(void)
{
    begin(house(1000, 1, 1000));
    CHECK(slot(3 * MS).kind == ABR_SENT_IDLE);
    offer(9);
    CHECK(slot(4 * MS + 300000).kind == ABR_SENT_FORWARD && slot(5 * MS).kind == ABR_SENT_IDLE);
    CHECK(slot(5 * MS + 300000).kind == ABR_SENT_DATA && slot(9 * MS).kind == ABR_SENT_DATA);
    CHECK(slot(9 * MS).kind == ABR_SENT_IDLE && slot(10 * MS - 1).kind == ABR_SENT_IDLE);
    receive(1, 0, 0, 0, code(500));
    CHECK(slot(11 * MS - 1).kind == ABR_SENT_IDLE);
    receive(1, 0, 0, 0, code(1000));
    CHECK(acr() == CELLS(500) + CELLS(1000) / 16);
    CHECK(slot(11 * MS - 1).kind == ABR_SENT_DATA); /* 1.78 ms after the last cell */
}

/* With nothing waiting: no cell before two went, one at Trm, none after it; and one cell only with Nrm 2. */
static void nothing_waits(void)
{
    abr_params params = house(1000, 1, 1000);
    begin(params);
    CHECK(slot(200 * MS).kind == ABR_SENT_IDLE);
    offer(1);
    CHECK(slot(200 * MS).kind == ABR_SENT_FORWARD && slot(201 * MS).kind == ABR_SENT_DATA);
    CHECK(run(202 * MS, 400 * MS, MS, ABR_SENT_FORWARD) == 0);
    offer(1);
    CHECK(slot(401 * MS).kind == ABR_SENT_DATA && slot(402 * MS - 1).kind == ABR_SENT_IDLE);
    CHECK(slot(402 * MS).kind == ABR_SENT_FORWARD); /* Trm has passed long ago, so at the gap */
    CHECK(run(403 * MS, 900 * MS, MS, ABR_SENT_FORWARD) == 0);
    params.n = 1;
    begin(params);
    offer(1);
    CHECK(slot(0).kind == ABR_SENT_FORWARD && slot(MS).kind == ABR_SENT_DATA);
    CHECK(slot(2 * MS).kind == ABR_SENT_FORWARD && slot(3 * MS).kind == ABR_SENT_IDLE);
}

/* After a long silence the first cells are data at the old rate, until two have gone. */
static void data_before_the_idle_move(void)
{
    begin(house(2000, 100, 1000));
    offer(1);
    CHECK(slot(0).kind == ABR_SENT_FORWARD && slot(1 * MS).kind == ABR_SENT_DATA);
    for (int cells = 0; cells < 9; cells++) {
        backward_arrives();
    }
    CHECK(acr() == CELLS(2000));
    offer(9);
    CHECK(slot(1000 * MS).kind == ABR_SENT_DATA && acr() == CELLS(2000));
    CHECK(slot(1000 * MS + 500000).kind == ABR_SENT_FORWARD && acr() == CELLS(1000));
}

/* A made cell before the first cell makes the connection ready; the first cell is a forward one all the same. */
static void made_first(void)
{
    uint8_t before[ABR_CELL_OCTETS];
    begin(house(1000, 1, 1000));
    CHECK(abr_set_level(&table, 2) == ABR_OK);
    CHECK(abr_make(&table, PAIR, 0).refusal == ABR_OK);
    CHECK(slot(0).kind == ABR_SENT_FORWARD && slot(MS).kind == ABR_SENT_TURNED);
    CHECK(abr_make(&table, PAIR, 100 * MS - 1).refusal == ABR_REFUSED_MADE_TOO_SOON);
    CHECK(abr_make(&table, PAIR, 100 * MS).refusal == ABR_OK);
    CHECK(abr_set_level(&table, 1) == ABR_OK);
    CHECK(abr_make(&table, PAIR, 200 * MS).refusal == ABR_OK); /* instead of the one before, with its own mark */
    CHECK(slot(200 * MS).kind == ABR_SENT_TURNED);
    CHECK(abr_read(cell, sizeof cell).rm.ci == 0 && abr_read(cell, sizeof cell).rm.ni == 1);
    CHECK(abr_read(cell, sizeof cell).rm.er == code(1000)); /* the peak of this end */
    memcpy(before, cell, sizeof cell);
    CHECK(abr_write_rm(abr_read(cell, sizeof cell).rm, cell, sizeof cell) == ABR_OK);
    CHECK(memcmp(before, cell, sizeof cell) == 0); /* so that another ER can be written into it */
}

/* When the next cell goes, after each sort of call. */
static void sleeping(void)
{
    begin(house(1000, 1, 1000));
    CHECK(abr_next_ready(&table) == ABR_NEVER);
    offer(2);
    CHECK(abr_next_ready(&table) == 0);
    CHECK(slot(3 * MS).kind == ABR_SENT_FORWARD && abr_next_ready(&table) == 4 * MS);
    CHECK(slot(4 * MS).kind == ABR_SENT_DATA && slot(5 * MS).kind == ABR_SENT_DATA);
    CHECK(abr_next_ready(&table) == 103 * MS); /* Trm after the forward cell */
    forward_arrives();
    CHECK(abr_next_ready(&table) == 6 * MS);
    receive(1, 0, 0, 0, code(500));
    CHECK(abr_next_ready(&table) == 7 * MS && slot(8 * MS).kind == ABR_SENT_TURNED);
    CHECK(abr_close(&table, PAIR).refusal == ABR_OK && abr_next_ready(&table) == ABR_NEVER);
}

/* With Nrm 2 and cells of the far source that always wait, no data goes. */
static void nrm_of_two(void)
{
    abr_params params = house(1000, 1, 1000);
    params.n = 1;
    begin(params);
    offer(9);
    for (uint64_t time = 0; time < 100 * MS; time += MS) {
        forward_arrives();
        CHECK(slot(time).kind == (time / MS % 2 == 0 ? ABR_SENT_FORWARD : ABR_SENT_TURNED));
    }
}

/* ADTF 110 ms is longer than Trm, but at 33 cells per second forward cells are 121 ms apart. */
static void adtf_too_short(void)
{
    abr_params params = house(2000, 1, 20);
    uint64_t last;
    params.adtf = 11;
    begin(params);
    offer(99);
    CHECK(slot(0).kind == ABR_SENT_FORWARD);
    receive(1, 0, 0, 0, code(33));
    CHECK(acr() == CELLS(33));
    for (last = abr_next_ready(&table); slot(last).kind == ABR_SENT_DATA; last = abr_next_ready(&table)) {
        CHECK(acr() == CELLS(33));
    }
    CHECK(last > 110 * MS && last < 122 * MS && acr() == CELLS(20));
}

/* An initial rate of 5 and a peak of 10 cells per second, slots of an STM-1 link, every forward cell answered: the rate
 * after a hundred of them. */
static uint64_t rate_reached(uint32_t adtf)
{
    abr_params params = house(10, 1, 5);
    int answered = 0;
    params.adtf = adtf;
    begin(params);
    offer(999);
    while (answered < 100) {
        if (slot((abr_next_ready(&table) + SLOT - 1) / SLOT * SLOT).kind == ABR_SENT_FORWARD) {
            backward_arrives();
            answered++;
        }
    }
    return acr();
}

/* Three gaps are 300 ms at the peak, 600 ms at the initial rate and 533 ms an increase above it, where an ADTF of less
 * brings the rate back each time. */
static void adtf_and_initial_rate(void)
{
    CHECK(rate_reached(31) == CELLS(5) + CELLS(10) / 16 && rate_reached(53) == CELLS(5) + CELLS(10) / 16);
    CHECK(rate_reached(61) == CELLS(10));
}

/* The longest time between two turned cells at this rate, with data and cells of the far source always waiting. */
static uint64_t answers_apart(uint64_t cells)
{
    uint64_t last = 0, longest = 0;
    begin(house(cells, 1, cells));
    offer(999);
    for (int sent = 0; sent < 500; sent++) {
        uint64_t time = abr_next_ready(&table);
        forward_arrives();
        if (slot(time).kind == ABR_SENT_TURNED) {
            longest = time - last > longest ? time - last : longest;
            last = time;
        }
    }
    return longest;
}

/* Nrm gaps, or Trm and the rest of a gap, or three gaps. */
static void answers(void)
{
    CHECK(answers_apart(1000) == 32 * MS && answers_apart(5) == 600 * MS);
    CHECK(answers_apart(33) > 120 * MS && answers_apart(33) < 131 * MS);
}

/* What begins anew with an open: the change, and the 100 ms of made and out-of-rate cells. */
static void opened_anew(void)
{
    begin(house(1000, 1, 500));
    backward_arrives();
    CHECK(abr_acr(&table, PAIR).change > 0 && abr_set_level(&table, 1) == ABR_OK);
    CHECK(abr_make(&table, PAIR, 0).refusal == ABR_OK);
    CHECK(abr_make(&table, PAIR, 1).refusal == ABR_REFUSED_MADE_TOO_SOON);
    CHECK(abr_out_of_rate(&table, PAIR, 1, cell, sizeof cell) == ABR_OK);
    CHECK(abr_out_of_rate(&table, PAIR, 1, cell, sizeof cell) == ABR_REFUSED_OUT_OF_RATE_TOO_SOON);
    CHECK(abr_close(&table, PAIR).refusal == ABR_OK);
    CHECK(abr_open(&table, PAIR, 1, house(1000, 1, 500)).refusal == ABR_OK);
    CHECK(abr_acr(&table, PAIR).change == 0 && abr_make(&table, PAIR, 1).refusal == ABR_OK);
    CHECK(abr_out_of_rate(&table, PAIR, 1, cell, sizeof cell) == ABR_OK);
}

/* ---- Paths ---------------------------------------------------------------- */

static void members(void)
{
    abr_params params = house(1000, 1, 1000);
    memset(&table, 0, sizeof table);
    CHECK(abr_open_path(&table, 7, 0, params).refusal == ABR_OK);
    for (uint32_t vci = 40; vci <= 60; vci += 10) {
        CHECK(abr_add_member(&table, 7, vci).refusal == ABR_OK);
        CHECK(abr_offer_member(&table, 7, vci, vci == 50 ? 2 : 4).refusal == ABR_OK);
    }
    for (uint64_t time = 0; time <= 10 * MS; time += MS) {
        abr_sent sent = foreseen_slot(time);
        CHECK((sent.kind == ABR_SENT_FORWARD) == (sent.vci == ABR_PATH_VCI));
        CHECK(abr_at(&table, 0).served == (sent.vci == ABR_PATH_VCI ? 0 : sent.vci));
        printf("%s7/%u", time == 0 ? "" : "  ", (unsigned)sent.vci);
    }
    printf("\n");
    CHECK(abr_offer(&table, 7, ABR_PATH_VCI, 1).refusal == ABR_REFUSED_NOT_A_MEMBER);
    CHECK(abr_offer(&table, 7, 40, 1).refusal == ABR_REFUSED_NOT_OPEN);
    CHECK(abr_open(&table, 7, 40, 10 * MS, params).refusal == ABR_REFUSED_ALREADY_MEMBER);
    CHECK(abr_open(&table, 7, 41, 10 * MS, params).refusal == ABR_OK);
    CHECK(abr_remove_member(&table, 7, 60).cells == 0); /* it was served last, and the turn stays behind it */
    CHECK(abr_offer_member(&table, 7, 40, 1).refusal == ABR_OK && abr_offer_member(&table, 7, 50, 1).refusal == ABR_OK);
    CHECK(abr_add_member(&table, 7, 70).refusal == ABR_OK && abr_offer_member(&table, 7, 70, 1).refusal == ABR_OK);
    CHECK(slot(11 * MS).vci == 70 && slot(12 * MS).vci == 40 && slot(13 * MS).vci == 50);
    CHECK(abr_offer_member(&table, 7, 40, 3).refusal == ABR_OK && abr_offer_member(&table, 7, 50, 4).refusal == ABR_OK);
    CHECK(abr_close(&table, 7, ABR_PATH_VCI).cells == 7);
    CHECK(abr_open(&table, 7, 40, 13 * MS, params).refusal == ABR_OK);
}

/* ---- A port --------------------------------------------------------------- */

/* Two sources with minimums: both taken off the capacity and off the demands, and each limited to its own more. */
static void minimums(void)
{
    static const uint64_t minimum[2] = {100, 300}, demand[2] = {800, 900};
    const uint64_t rest[2] = {demand[0] - minimum[0], demand[1] - minimum[1]};
    abr_share share = abr_fair_share(1000 - minimum[0] - minimum[1], rest, 2);
    CHECK(share.refusal == ABR_OK && share.limited == 1 && share.rate == 300);
    CHECK(minimum[0] + share.rate + minimum[1] + share.rate == 1000);
    share = abr_fair_share(0, rest, 2); /* minimums of the whole capacity or more */
    CHECK(share.refusal == ABR_OK && share.limited == 1 && share.rate == 0);
    share = abr_fair_share(1300, rest, 2); /* all have what they demand */
    CHECK(share.refusal == ABR_OK && share.limited == 0 && share.rate == ABR_RATE_MAX);
    share = abr_fair_share(1300, rest, ABR_DEMANDS_MAX + 1);
    CHECK(share.refusal == ABR_REFUSED_TOO_MANY_DEMANDS && share.limited == 0 && share.rate == 0);
}

/* ER of a backward cell that has passed a limit. */
static uint32_t limited_er(uint32_t er, uint64_t rate)
{
    abr_rm rm = {PAIR, 1, 0, 0, 0, 0, 0, 0, 0, 0, 0};
    rm.er = er;
    CHECK(abr_write_rm(rm, cell, sizeof cell) == ABR_OK && abr_limit(rate, cell, sizeof cell) == ABR_OK);
    return abr_read(cell, sizeof cell).rm.er;
}

/* A limit and an import at their edges, and fields that are not written. */
static void passing_cells(void)
{
    abr_rm rm = {PAIR, 1, 0, 0, 0, 0, 0x8000, 0, 0, 0, 0};
    CHECK(limited_er(0x5000, 511) == 0 && limited_er(0x5000, CELLS(10000)) == 0x5000);
    CHECK(limited_er(0x3FFF, CELLS(10000)) == 0 && limited_er(0x5000, UINT64_MAX) == 0x5000);
    CHECK(limited_er(ABR_CODE_MAX, ABR_RATE_MAX) == ABR_CODE_MAX);
    CHECK(abr_write_rm(rm, cell, sizeof cell) == ABR_REFUSED_RANGE);
    CHECK(1.0 / abr_import(-0.0).remainder > 0 && abr_import(-0.0).code == 0);
    CHECK(abr_open(&table, 9, 32, ABR_TIME_MAX, abr_house(0x5000, 0x3FFF, 0x0123)).refusal == ABR_OK);
}

/* ---- A rate of 0 ---------------------------------------------------------- */

static void rate_of_zero(void)
{
    begin(house(1000, 0, 1000));
    offer(9);
    CHECK(slot(0).kind == ABR_SENT_FORWARD);
    receive(1, 0, 0, 0, 0);
    CHECK(acr() == 0 && slot(1000 * MS).kind == ABR_SENT_IDLE);
    CHECK(abr_status(&table, PAIR).ready == ABR_NEVER && abr_status(&table, PAIR).last_out_of_rate == ABR_NEVER);
    CHECK(strstr(why_silent(abr_status(&table, PAIR), 1000 * MS), "section 9") != NULL);
    CHECK(abr_out_of_rate(&table, PAIR, 1000 * MS, cell, sizeof cell) == ABR_OK);
    CHECK(abr_status(&table, PAIR).last_out_of_rate == 1000 * MS && abr_status(&table, PAIR).last_sent == 0);
    CHECK((cell[3] & 1) == 1 && abr_read(cell, sizeof cell).rm.ccr == 0);
    CHECK(abr_out_of_rate(&table, PAIR, 1100 * MS - 1, cell, sizeof cell) == ABR_REFUSED_OUT_OF_RATE_TOO_SOON);
    CHECK(acr() == 0 && slot(1100 * MS - 1).kind == ABR_SENT_IDLE);
    backward_arrives();
    CHECK(acr() == CELLS(1000) / 16 && slot(1100 * MS - 1).kind == ABR_SENT_DATA);
    CHECK(slot(1100 * MS - 2 + 16 * MS).kind == ABR_SENT_IDLE && slot(1100 * MS - 1 + 16 * MS).kind == ABR_SENT_DATA);
}

/* With an initial rate of 0 the first cell takes a rise back. */
static void initial_rate_of_zero(void)
{
    begin(house(1000, 0, 0));
    offer(9);
    backward_arrives();
    CHECK(acr() == CELLS(1000) / 16 && slot(0).kind == ABR_SENT_FORWARD && acr() == 0);
}

/* Two ends send each other what their slots give, and in idle ones out-of-rate cells at a rate of 0. */
static void exchange(abr_table *ends, uint64_t from, uint64_t to)
{
    for (uint64_t time = from; time < to; time += MS) {
        for (int end = 0; end < 2; end++) {
            abr_sent sent = abr_slot(&ends[end], time, cell, sizeof cell);
            CHECK(sent.refusal == ABR_OK);
            if (sent.kind == ABR_SENT_DATA) {
                write_header(cell, PAIR, 0);
            } else if (sent.kind == ABR_SENT_IDLE && (abr_acr(&ends[end], PAIR).acr > 0 ||
                       abr_out_of_rate(&ends[end], PAIR, time, cell, sizeof cell) != ABR_OK)) {
                continue;
            }
            CHECK(abr_receive(&ends[1 - end], cell, sizeof cell).refusal == ABR_OK);
        }
    }
}

/* Both ends have received an ER of 0. They stay at 0 unless one has a minimum, or is closed and opened. */
static void both_ends_at_zero(void)
{
    static abr_table ends[2];
    for (uint64_t minimum = 0; minimum < 2; minimum++) {
        abr_rm rm = {PAIR, 1, 0, 0, 0, 0, 0, 0, 0, 0, 0};
        memset(ends, 0, sizeof ends);
        for (int end = 0; end < 2; end++) {
            CHECK(abr_open(&ends[end], PAIR, 0, house(1000, end == 0 ? minimum : 0, 500)).refusal == ABR_OK);
            CHECK(abr_offer(&ends[end], PAIR, 9).refusal == ABR_OK && abr_write_rm(rm, cell, sizeof cell) == ABR_OK);
            CHECK(abr_receive(&ends[end], cell, sizeof cell).refusal == ABR_OK);
        }
        exchange(ends, 0, 9000 * MS);
        for (int end = 0; end < 2; end++) {
            uint64_t rate = abr_acr(&ends[end], PAIR).acr;
            CHECK(minimum == 0 ? rate == 0 : rate > CELLS(1));
        }
        CHECK(abr_close(&ends[0], PAIR).refusal == ABR_OK);
        CHECK(abr_open(&ends[0], PAIR, 9000 * MS, house(1000, 0, 500)).refusal == ABR_OK);
        exchange(ends, 9000 * MS, 9500 * MS);
        CHECK(abr_acr(&ends[0], PAIR).acr > 0 && abr_acr(&ends[1], PAIR).acr > 0);
    }
}

/* ---- When things go wrong ------------------------------------------------- */

/* A time far ahead is accepted and then stands in the way of every earlier one, but of no call without a time. */
static void time_far_ahead(void)
{
    abr_params params = house(1000, 100, 1000);
    begin(params);
    offer(9);
    CHECK(slot(MS).kind == ABR_SENT_FORWARD);
    CHECK(slot(ABR_TIME_MAX).kind == ABR_SENT_DATA);
    CHECK(abr_slot(&table, 3 * MS, cell, sizeof cell).refusal == ABR_REFUSED_TIME_BACKWARD);
    CHECK(abr_link(&table).last == ABR_TIME_MAX);
    CHECK(abr_open(&table, 0, 33, 3 * MS, params).refusal == ABR_REFUSED_TIME_BACKWARD);
    CHECK(abr_slot(&table, ABR_TIME_MAX + 1, cell, sizeof cell).refusal == ABR_REFUSED_TIME);
    backward_arrives();
    offer(1);
    CHECK(abr_close(&table, PAIR).cells == 9);
    CHECK(abr_open(&table, PAIR, 3 * MS, params).refusal == ABR_REFUSED_TIME_BACKWARD);
    begin(params);
    CHECK(abr_slot(&table, 3 * MS, cell, sizeof cell).refusal == ABR_OK);
}

/* After a jump each connection has one cell at once, and the next one a gap later. */
static void clock_jumps(void)
{
    begin(house(1500, 100, 1000));
    offer(9);
    CHECK(slot(0).kind == ABR_SENT_FORWARD && slot(MS).kind == ABR_SENT_DATA);
    for (int cells = 0; cells < 8; cells++) {
        backward_arrives();
    }
    CHECK(acr() == CELLS(1500) && slot(60000 * MS).kind == ABR_SENT_DATA);
    CHECK(slot(60000 * MS + 666666).kind == ABR_SENT_IDLE && slot(60000 * MS + 666667).kind == ABR_SENT_FORWARD);
    CHECK(acr() == CELLS(1000));
}

/* A copy goes on from where it was taken. */
static void copy_goes_on(void)
{
    static abr_table copy;
    begin(house(1000, 100, 1000));
    offer(9);
    CHECK(slot(0).kind == ABR_SENT_FORWARD && slot(MS).kind == ABR_SENT_DATA);
    memcpy(&copy, &table, sizeof copy);
    CHECK(slot(5 * MS).kind == ABR_SENT_DATA);
    CHECK(abr_link(&copy).last == MS && abr_link(&table).last == 5 * MS);
    CHECK(abr_slot(&copy, 2 * MS, cell, sizeof cell).kind == ABR_SENT_DATA);
    CHECK(abr_close(&table, PAIR).cells == 7 && abr_close(&copy, PAIR).cells == 7);
}

/* The cells of one second at 100 cells per second, a slot every millisecond of a clock that first shows this. */
static int a_second_from(steady_clock *clock, uint64_t raw)
{
    int sent = 0;
    for (int slots = 0; slots < 1000; slots++) {
        raw += MS;
        sent += slot(steady(clock, raw)).kind != ABR_SENT_IDLE;
    }
    return sent;
}

/* A clock that jumps back by 5 s and ahead by an hour changes no rate, though that has risen above ICR. */
static void steady_times(void)
{
    steady_clock clock = {10000 * MS, 10000 * MS, MS};
    begin(house(100, 10, 50));
    offer(1000);
    CHECK(slot(steady(&clock, 10000 * MS)).kind == ABR_SENT_FORWARD);
    for (int cells = 0; cells < 8; cells++) {
        backward_arrives();
    }
    CHECK(acr() == CELLS(100) && a_second_from(&clock, 10000 * MS) == 100);
    CHECK(a_second_from(&clock, 6000 * MS) == 99); /* the step back counts as nothing, so that 999 ms pass */
    CHECK(a_second_from(&clock, (7 + 3600) * 1000 * MS) == 100 && acr() == CELLS(100));
}

/* What slots sent, written down as a trace, passes, though the rate falls for want of answers; the last cell a
 * nanosecond too early breaks rule 2. */
static void judged(void)
{
    enum { CELLS_SENT = 99 };
    uint8_t trace[2 + 16 * CELLS_SENT];
    abr_params params = house(1000, 100, 1000);
    uint64_t last = 0;
    params.tbe = 32;
    begin(params);
    offer(CELLS_SENT);
    size_t length = put_number(trace, params.n), before = 0;
    length += put_number(trace + length, params.trm);
    CHECK(abr_judge(trace, length).refusal == ABR_OK);
    for (int cells = 0; cells < CELLS_SENT; cells++) {
        uint64_t time = abr_next_ready(&table), since = time - last;
        abr_sent sent = slot(time);
        before = length;
        length += put_cell(trace + length, since, sent);
        CHECK(length - before <= 16 && abr_judge(trace, length).refusal == ABR_OK);
        CHECK(abr_judge(trace, length).rule == ABR_RULE_NONE);
        if (cells == CELLS_SENT - 1) {
            length = before + put_cell(trace + before, since - 1, sent);
        }
        last = time;
    }
    abr_verdict verdict = abr_judge(trace, length);
    CHECK(acr() < CELLS(1000) && verdict.rule == ABR_RULE_GAP && verdict.cell == CELLS_SENT);
    CHECK(abr_judge(trace, length - 1).refusal == ABR_REFUSED_TRACE_END);
}

/* ---- Looking into the engine ------------------------------------------------ */

static void opens(uint32_t vpi, uint32_t vci, abr_params params, uint32_t leaf)
{
    int path = vci == ABR_PATH_VCI;
    abr_opened opened = path ? abr_open_path(&table, vpi, 0, params) : abr_open(&table, vpi, vci, 0, params);
    own_connection it = {vpi, vci, 0, 0, 0};
    CHECK(opened.refusal == ABR_OK && opened.comparisons == 1 && opened.leaf == leaf);
    own[opened.leaf] = it;
}

/* 0/32 and path 7 with two members in leaves 0 and 2; leaf 1 was in use. */
static void open_some(void)
{
    abr_params params = house(2000, 100, 1000);
    params.tbe = 64;
    memset(&table, 0, sizeof table);
    opens(PAIR, params, 0);
    opens(0, 33, params, 1);
    opens(7, ABR_PATH_VCI, house(1000, 1, 1000), 2);
    CHECK(abr_close(&table, 0, 33).refusal == ABR_OK);
    CHECK(abr_add_member(&table, 7, 50).refusal == ABR_OK && abr_add_member(&table, 7, 40).refusal == ABR_OK);
    CHECK(offer_own(0, 32, 5) == ABR_OK && offer_own(2, 40, 3) == ABR_OK && offer_own(2, 50, 2) == ABR_OK);
    CHECK(own[0].offered == 5 && own[2].offered == 5);
}

/* Three cells from each, cells received for both, and one made on the path. */
static void let_them_run(void)
{
    uint8_t octets[ABR_CELL_OCTETS] = {0};
    open_some();
    for (uint64_t time = 0; time <= 5 * MS / 2; time += MS / 2) {
        abr_sent sent = foreseen_slot(time);
        CHECK(sent.vpi == own[sent.leaf].vpi);
        own[sent.leaf].sent += sent.kind == ABR_SENT_DATA;
    }
    backward_arrives();
    forward_arrives();
    write_header(octets, 7, 40, 2);
    abr_received received = abr_receive(&table, octets, sizeof octets);
    CHECK(received.refusal == ABR_OK && received.kind == ABR_RECEIVED_DATA && received.vpi == 7 && received.vci == 40);
    CHECK(received.leaf == 2 && received.acr == CELLS(1000));
    CHECK(abr_set_level(&table, 2) == ABR_OK && abr_make(&table, 7, ABR_PATH_VCI, 5 * MS / 2).refusal == ABR_OK);
}

/* What was offered is sent, closed or waiting. */
static void sums_agree(void)
{
    for (uint32_t leaf = 0; leaf <= 2; leaf += 2) {
        CHECK(own[leaf].offered == own[leaf].sent + own[leaf].closed + abr_at(&table, leaf).waiting);
    }
}

static void looking(void)
{
    let_them_run();
    print_table(&table);
    sums_agree();
}

/* Sums by leaf: a refused offer counts nothing, a removal counts as a close, and the close answers the rest. */
static void sums_by_leaf(void)
{
    let_them_run();
    CHECK(members_of(&table, 7) == 2 && members_of(&table, 6) == 0 && members_of(&table, 8) == 0);
    CHECK(offer_own(0, 32, 65536) == ABR_REFUSED_TOO_MUCH_DATA && offer_own(2, 60, 1) == ABR_REFUSED_NOT_A_MEMBER);
    CHECK(remove_own(2, 60) == ABR_REFUSED_NOT_A_MEMBER && own[2].closed == 0);
    sums_agree();
    CHECK(abr_open_path(&table, 9, 5 * MS / 2, house(1000, 1, 1000)).leaf == 1);
    CHECK(abr_add_member(&table, 9, 32).refusal == ABR_OK);
    CHECK(remove_own(2, 40) == ABR_OK && own[2].closed == 2);
    CHECK(members_of(&table, 7) == 1 && members_of(&table, 9) == 1 && abr_link(&table).members == 2);
    sums_agree();
    CHECK(abr_status(&table, 7, 50).leaf == 2 && abr_status(&table, 7, 50).kind == ABR_MEMBER);
    CHECK(own[2].offered == own[2].sent + own[2].closed + abr_close(&table, 7, ABR_PATH_VCI).cells);
}

/* Field by field, where the block does not show it. */
static void fields(void)
{
    abr_connection path = abr_at(&table, 2), member = abr_status(&table, 7, 50), channel = abr_status(&table, PAIR);
    CHECK(channel.kind == ABR_CHANNEL && channel.leaf == 0 && channel.change == (int64_t)CELLS(125));
    CHECK(channel.opened == 0 && channel.last_sent == 2 * MS && channel.last_forward == 0 && channel.backward_sent == 0);
    CHECK(channel.last_made == ABR_NEVER && channel.last_out_of_rate == ABR_NEVER && channel.served == 0);
    CHECK(path.kind == ABR_PATH && path.served == 50 && path.last_made == 5 * MS / 2 && path.last_forward == MS / 2);
    CHECK(member.kind == ABR_MEMBER && member.vpi == 7 && member.vci == 50 && member.waiting == 1);
    member.kind = path.kind, member.vci = path.vci, member.waiting = path.waiting;
    CHECK(memcmp(&member, &path, sizeof path) == 0);
    path = abr_status(&table, 7, ABR_PATH_VCI);
    CHECK(memcmp(&member, &path, sizeof path) == 0);
}

/* A refused answer has 11 and else 0. */
static int nothing_there(abr_connection it)
{
    abr_connection nothing;
    memset(&nothing, 0, sizeof nothing);
    nothing.refusal = ABR_REFUSED_NOT_OPEN;
    return memcmp(&it, &nothing, sizeof it) == 0;
}

static void not_there(void)
{
    static const abr_member none = {ABR_REFUSED_NOT_OPEN, 0, 0, 0};
    abr_member member = abr_member_at(&table, 2);
    CHECK(nothing_there(abr_at(&table, 1)) && nothing_there(abr_at(&table, 3)));
    CHECK(nothing_there(abr_at(&table, ABR_CONNECTIONS_MAX)) && nothing_there(abr_at(&table, UINT32_MAX)));
    CHECK(nothing_there(abr_status(&table, 0, 33)) && nothing_there(abr_status(&table, 7, 60)));
    CHECK(nothing_there(abr_status(&table, 256, 32)) && nothing_there(abr_status(&table, 0, 65536 + 32)));
    CHECK(memcmp(&member, &none, sizeof none) == 0);
    CHECK(abr_member_at(&table, UINT32_MAX).refusal == ABR_REFUSED_NOT_OPEN);
}

/* Readings leave the table, and a copy answers as the original does. */
static void only_read(void)
{
    static abr_table copy;
    memcpy(&copy, &table, sizeof copy);
    for (uint32_t leaf = 0; leaf < ABR_CONNECTIONS_MAX; leaf++) {
        abr_connection it = abr_at(&table, leaf), other = abr_at(&copy, leaf);
        CHECK(memcmp(&it, &other, sizeof it) == 0 && (it.refusal != ABR_OK || it.leaf == leaf));
    }
    CHECK(abr_status(&table, 7, 40).refusal == ABR_OK && abr_member_at(&table, 0).refusal == ABR_OK);
    CHECK(abr_link(&table).connections == 2 && memcmp(&copy, &table, sizeof copy) == 0);
}

/* An open takes the lowest free leaf, members are numbered as they rise, and all go with their path. */
static void leaves_and_numbers(void)
{
    let_them_run();
    fields();
    not_there();
    only_read();
    CHECK(abr_close(&table, PAIR).refusal == ABR_OK && abr_link(&table).last == 5 * MS / 2);
    abr_opened opened = abr_open(&table, 9, 99, 5 * MS / 2, house(1000, 1, 1000));
    CHECK(opened.refusal == ABR_OK && opened.leaf == 0 && abr_status(&table, 9, 99).leaf == 0);
    opened = abr_open(&table, 9, 99, 5 * MS / 2, house(1000, 1, 1000));
    CHECK(opened.refusal == ABR_REFUSED_ALREADY_OPEN && opened.leaf == 0 && opened.comparisons == 0);
    CHECK(abr_open(&table, PAIR, 5 * MS / 2, house(1000, 1, 1000)).leaf == 1);
    CHECK(abr_add_member(&table, 7, 45).refusal == ABR_OK && abr_member_at(&table, 1).vci == 45);
    CHECK(abr_member_at(&table, 2).vci == 50 && abr_link(&table).members == 3 && abr_link(&table).connections == 3);
    CHECK(abr_close(&table, 7, ABR_PATH_VCI).cells == 3 && abr_link(&table).members == 0);
    CHECK(abr_status(&table, 7, 40).refusal == ABR_REFUSED_NOT_OPEN && abr_link(&table).connections == 2);
}

/* An idle slot shows in the last time alone. */
static void idle_slot_left_out(void)
{
    begin(house(1000, 1, 1000));
    abr_connection before = abr_status(&table, PAIR), after;
    CHECK(before.ready == ABR_NEVER && before.last_sent == ABR_NEVER && before.last_forward == ABR_NEVER);
    CHECK(strstr(why_silent(before, MS), "nothing waits") != NULL);
    CHECK(slot(MS).kind == ABR_SENT_IDLE && abr_link(&table).last == MS);
    after = abr_status(&table, PAIR);
    CHECK(memcmp(&before, &after, sizeof after) == 0);
    offer(2);
    CHECK(strstr(why_silent(abr_at(&table, 0), MS), "is ready") != NULL && slot(MS).kind == ABR_SENT_FORWARD);
    CHECK(strstr(why_silent(abr_at(&table, 0), MS), "gap") != NULL && abr_at(&table, 0).ready == 2 * MS);
}

int main(void)
{
    static const block blocks[] = {
        {"line of slots", line_of_slots}, {"slotted link", slotted_link}, {"codes", codes},
        {"first cell", first_cell},       {"idle", idle},                 {"unanswered", unanswered},
        {"feedback", feedback},           {"setup", setup},               {"marks", marks},
        {"headers", headers},             {"RM octets", rm_octets},       {"members", members},
        {"delivered", delivered_shares},  {"own line", leased_beside_greedy}, {"looking", looking},
    };
    static const check checks[] = {
        gaps,          mark_used_up, ignored_bits,    turned_keeps,   gap_after_the_last,
        nothing_waits, made_first,   rate_of_zero,    time_far_ahead, data_before_the_idle_move,
        clock_jumps,   copy_goes_on, steady_times,    judged,         initial_rate_of_zero,
        sleeping,      nrm_of_two,   adtf_too_short,  opened_anew,    minimums,
        passing_cells, answers,      last_of_any_call, both_ends_at_zero,
        adtf_and_initial_rate, slow_start, idle_slot_left_out, leaves_and_numbers, sums_by_leaf,
    };
    return PRINT_AND_CHECK(blocks, checks);
}
