/*
 * A received data cell, library and peer. The peer is what a C programmer writes for the same job, without a proof:
 * octet 5 by a table of 256 entries, the name by halvings of a sorted array, the mark stored, the matches of the leaf
 * counted as document 02, L4, asks, and the answer of abr_receive. Another peer does not count them and answers 1. RM
 * cells are not its job, and it opens nothing: names, leaves, rates and winners are those of the library's table. As
 * many connections as may be open are, all busy; cells come for them in random order, half of them with the mark. All
 * run in turn.
 *
 * peer: for each peer a row of the nanoseconds of library and peer and of their ratio, medians without the loop. peer
 * ns: a line for each side, for bench/compare. peer count SIDE CELLS: so many cells received by a side (library, peer,
 * uncounted or nobody, the loop alone) in received(), for callgrind.
 */
#include <stdio.h>
#include <stdlib.h>
#include <string.h>
#include <time.h>

#include "abr.h"

enum {
    MOST = 1024, /* connections of the largest edition */
    ORDER = 1 << 18,
    TURNS = 51,
    CELLS = 2 * MOST, /* without the mark and with it, of each connection */
    ROOM = 64,        /* octets for a cell */
    NOBODY = MOST
};
#define MS UINT64_C(1000000)

/* What the peer has of a connection; the rest of its state would follow. */
typedef struct {
    uint64_t acr;
    uint32_t efci;
    uint32_t others[45];
} entry;

/* The peer's table: names rise, each with its leaf; at place p the leaf that wins match p. */
typedef struct {
    uint32_t connections;
    uint32_t names[MOST];
    uint16_t leaves[MOST], winners[MOST];
    entry entries[MOST];
} peer;

static abr_table *table;
static peer other;
static uint8_t hec[256];
static uint8_t cells[CELLS][ROOM];
static uint16_t order[ORDER];
static uint64_t state = 1;

static uint32_t draw(uint32_t below)
{
    state = state * UINT64_C(6364136223846793005) + UINT64_C(1442695040888963407);
    return (uint32_t)((state >> 33) % below);
}

static void must(int so, const char *what)
{
    if (!so) {
        fprintf(stderr, "%s\n", what);
        exit(1);
    }
}

/* The remainders of the octets times x^8 by x^8 + x^2 + x + 1. */
static void make_hec(void)
{
    for (unsigned octet = 0; octet < 256; octet++) {
        unsigned rest = octet;
        for (int bit = 0; bit < 8; bit++) {
            rest = rest << 1 ^ (rest & 0x80 ? 0x107 : 0);
        }
        hec[octet] = (uint8_t)rest;
    }
}

static uint8_t check(const uint8_t *cell)
{
    return hec[hec[hec[hec[cell[0]] ^ cell[1]] ^ cell[2]] ^ cell[3]] ^ 0x55;
}

static abr_received refused(uint32_t refusal)
{
    abr_received answer = {0, 0, 0, 0, 0, 0, 0};
    answer.refusal = refusal;
    return answer;
}

/* The only place where a name can be among the sorted ones; each half is taken or passed over without a branch. */
static uint32_t place_of(const peer *at, uint32_t name)
{
    const uint32_t *first = at->names;
    for (uint32_t half = at->connections / 2; half > 0; half /= 2) {
        const uint32_t *middle = first + half;
        first = middle[-1] < name ? middle : first;
    }
    return (uint32_t)(first - at->names);
}

/* The matches of a leaf: those that it wins, and the first that it does not. */
static uint32_t matches(const peer *at, uint32_t leaf)
{
    uint32_t count = 1;
    for (uint32_t place = (at->connections + leaf) / 2; place > 1 && at->winners[place] == leaf; place /= 2) {
        count++;
    }
    return count;
}

static inline abr_received receive(peer *at, const uint8_t *cell, size_t len, int counts)
{
    abr_received answer;
    uint32_t header, type, name, place;
    if (len != ABR_CELL_OCTETS) {
        return refused(ABR_REFUSED_LENGTH);
    }
    if (check(cell) != cell[4]) {
        return refused(ABR_REFUSED_HEADER_CHECK);
    }
    header = (uint32_t)cell[0] << 24 | (uint32_t)cell[1] << 16 | (uint32_t)cell[2] << 8 | cell[3];
    type = header >> 1 & 7;
    if (type > 3) {
        return refused(ABR_REFUSED_PAYLOAD_TYPE);
    }
    name = header >> 4 & 0xFFFFFF;
    place = place_of(at, name);
    if (at->names[place] != name || (name & 0xFFFF) == ABR_PATH_VCI) {
        return refused(ABR_REFUSED_NOT_OPEN);
    }
    answer.refusal = ABR_OK;
    answer.kind = ABR_RECEIVED_DATA;
    answer.vpi = name >> 16;
    answer.vci = name & 0xFFFF;
    answer.leaf = at->leaves[place];
    at->entries[answer.leaf].efci = type >> 1;
    answer.acr = at->entries[answer.leaf].acr;
    answer.comparisons = counts ? matches(at, answer.leaf) : 1;
    return answer;
}

__attribute__((noinline)) static abr_received peer_receive(peer *at, const uint8_t *cell, size_t len)
{
    return receive(at, cell, len, 1);
}

__attribute__((noinline)) static abr_received uncounted_receive(peer *at, const uint8_t *cell, size_t len)
{
    return receive(at, cell, len, 0);
}

static uint32_t vpi_of(uint32_t i) { return i / 4; }
static uint32_t vci_of(uint32_t i) { return ABR_VCI_MIN + i % 4; }

/* A data cell of a connection. */
static void make_cell(uint8_t *cell, uint32_t vpi, uint32_t vci, uint32_t efci)
{
    cell[0] = (uint8_t)(vpi >> 4);
    cell[1] = (uint8_t)((vpi & 0xF) << 4 | vci >> 12);
    cell[2] = (uint8_t)(vci >> 4);
    cell[3] = (uint8_t)((vci & 0xF) << 4 | efci << 2);
    cell[4] = check(cell);
}

/* Opens all connections, in no order of their names; each has data and has sent, at a time of its own. */
static void open_all(uint32_t connections)
{
    uint32_t fast = abr_code(ABR_RATE_ONE * UINT64_C(100000)).code;
    uint8_t cell[ABR_CELL_OCTETS];
    for (uint32_t i = 0; i < connections; i++) {
        uint32_t k = i * 37 % connections;
        must(!abr_open(table, vpi_of(k), vci_of(k), 0, abr_house(fast, fast, fast)).refusal, "an open is refused");
        must(!abr_offer(table, vpi_of(k), vci_of(k), 100).refusal, "an offer is refused");
    }
    for (uint32_t i = 0; i < 10 * connections; i++) {
        abr_sent sent = abr_slot(table, MS + i, cell, sizeof cell);
        must(sent.refusal == ABR_OK, "a slot is refused");
    }
}

static uint32_t name_of(abr_connection read) { return read.vpi << 16 | read.vci; }

/* The earlier of two leaves, or of equal ones that with the lower name; either may be nobody. */
static uint16_t winner(uint16_t one, uint16_t two)
{
    abr_connection a, b;
    if (one == NOBODY || two == NOBODY) {
        return one == NOBODY ? two : one;
    }
    a = abr_at(table, one);
    b = abr_at(table, two);
    if (a.ready != b.ready) {
        return a.ready < b.ready ? one : two;
    }
    return name_of(a) < name_of(b) ? one : two;
}

/* The peer's table is what its own opens and slots would have left. */
static void copy_state(uint32_t connections)
{
    other.connections = connections;
    for (uint32_t i = 0; i < connections; i++) {
        abr_connection read = abr_status(table, vpi_of(i), vci_of(i));
        must(read.refusal == ABR_OK, "a connection is not open");
        other.names[i] = name_of(read);
        other.leaves[i] = (uint16_t)read.leaf;
        other.entries[read.leaf].acr = read.acr;
        other.entries[read.leaf].efci = read.efci;
    }
    for (uint32_t place = connections - 1; place > 0; place--) {
        uint16_t below[2];
        for (uint32_t i = 0; i < 2; i++) {
            uint32_t at = 2 * place + i, leaf = at - connections;
            below[i] = at < connections ? other.winners[at]
                       : abr_at(table, leaf).ready == ABR_NEVER ? NOBODY : (uint16_t)leaf;
        }
        other.winners[place] = winner(below[0], below[1]);
    }
}

/* Both give one answer, octet by octet. */
static void same(const uint8_t *cell, size_t len)
{
    abr_received ours = abr_receive(table, cell, len), theirs = peer_receive(&other, cell, len);
    must(memcmp(&ours, &theirs, sizeof ours) == 0, "library and peer differ");
}

/* Of every cell, of wrong ones and of unknown names; then every mark is the same. */
static void same_answers(uint32_t connections)
{
    uint8_t cell[ABR_CELL_OCTETS] = {0};
    for (uint32_t i = 0; i < 2 * connections; i++) {
        same(cells[i], ABR_CELL_OCTETS);
        same(cells[i], ABR_CELL_OCTETS - 1);
        memcpy(cell, cells[i], sizeof cell);
        cell[4] ^= (uint8_t)(1 + draw(255));
        same(cell, sizeof cell);
        cell[3] = (uint8_t)(cell[3] & 0xF0) | (i % 2 ? 0x8 : 0xE);
        cell[4] = check(cell);
        same(cell, sizeof cell);
        make_cell(cell, draw(256), draw(65536), 0);
        same(cell, sizeof cell);
    }
    for (uint32_t i = 0; i < connections; i++) {
        abr_connection read = abr_at(table, i);
        must(read.efci == other.entries[i].efci, "library and peer differ in a mark");
    }
}

static int library_side(const uint8_t *cell) { return abr_receive(table, cell, ABR_CELL_OCTETS).refusal != ABR_OK; }
static int peer_side(const uint8_t *cell) { return peer_receive(&other, cell, ABR_CELL_OCTETS).refusal != ABR_OK; }
static int uncounted(const uint8_t *cell) { return uncounted_receive(&other, cell, ABR_CELL_OCTETS).refusal != ABR_OK; }
static int nobody(const uint8_t *cell) { return *cell == 0xFF; }

enum { LIBRARY, PEER, UNCOUNTED, NO_SIDE, SIDES };
static const struct {
    const char *name, *text;
    int (*receive)(const uint8_t *);
} sides[SIDES] = {{"library", "library", library_side},
                  {"peer", "C peer", peer_side},
                  {"uncounted", "C peer, no matches counted", uncounted},
                  {"nobody", "", nobody}};

void received(int (*volatile side)(const uint8_t *), uint32_t count);

/* So many cells, in random order. */
__attribute__((noinline)) void received(int (*volatile side)(const uint8_t *), uint32_t count)
{
    int wrong = 0;
    for (uint32_t i = 0; i < count; i++) {
        wrong |= side(cells[order[i % ORDER]]);
    }
    must(!wrong, "a cell is refused");
}

static double timed(int (*side)(const uint8_t *))
{
    clock_t before = clock();
    received(side, ORDER);
    return (double)(clock() - before) * 1e9 / CLOCKS_PER_SEC / ORDER;
}

static int by_size(const void *a, const void *b)
{
    double x = *(const double *)a, y = *(const double *)b;
    return (x > y) - (x < y);
}

/* The median of each side, less that of the loop. */
static void measure(double medians[SIDES])
{
    static double taken[SIDES][TURNS];
    for (unsigned turn = 0; turn < TURNS; turn++) {
        for (unsigned i = 0; i < SIDES; i++) {
            taken[i][turn] = timed(sides[i].receive);
        }
    }
    for (unsigned i = SIDES; i-- > 0;) {
        qsort(taken[i], TURNS, sizeof(double), by_size);
        medians[i] = taken[i][TURNS / 2] - taken[NO_SIDE][TURNS / 2];
    }
}

static void prepare(void)
{
    uint32_t connections;
    table = calloc(abr_table_words(), sizeof(uint64_t));
    must(table != NULL, "there is no memory for the table");
    connections = abr_link(table).connections_max;
    must(connections <= MOST, "the edition is larger than the peer");
    make_hec();
    open_all(connections);
    copy_state(connections);
    for (uint32_t i = 0; i < 2 * connections; i++) {
        make_cell(cells[i], vpi_of(i / 2), vci_of(i / 2), i % 2);
    }
    same_answers(connections);
    for (uint32_t i = 0; i < ORDER; i++) {
        order[i] = (uint16_t)draw(2 * connections);
    }
}

/* For callgrind; 2 if there is no such side. */
static int count_cells(const char *name, uint32_t count)
{
    for (unsigned i = 0; i < SIDES; i++) {
        if (strcmp(name, sides[i].name) == 0) {
            received(sides[i].receive, count);
            return 0;
        }
    }
    return 2;
}

int main(int argc, char **argv)
{
    double medians[SIDES];
    prepare();
    if (argc == 4 && strcmp(argv[1], "count") == 0) {
        return count_cells(argv[2], (uint32_t)strtoul(argv[3], NULL, 10));
    }
    measure(medians);
    for (unsigned i = 0; i < NO_SIDE; i++) {
        if (argc == 2 && strcmp(argv[1], "ns") == 0) {
            printf("received data cell, %s\t%.2f\n", sides[i].text, medians[i]);
        } else if (i != LIBRARY) {
            printf("| %s | %.1f | %.1f | %.2f |\n", sides[i].text, medians[LIBRARY], medians[i],
                   medians[LIBRARY] / medians[i]);
        }
    }
    return 0;
}
