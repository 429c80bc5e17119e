/*
 * Many links on one processor: so many tables, on each as many connections as may be open, all greedy, and a slot of
 * each table in turn. Prints a line for each number of links: connections of a table, links, nanoseconds of a slot, the
 * median of several stretches. As in steady.c every connection sends a forward cell after 31 data cells, each at
 * another place between two, so that any stretch has its share of them. The library itself says how long a table is and
 * how many connections it takes: any layout and any edition may be linked.
 */
#include <stdio.h>
#include <stdlib.h>
#include <time.h>

#include "abr.h"

enum { NRM = 32, LINKS = 256, STRETCHES = 5, LINE = 64 };
#define SLOTS (UINT32_C(1) << 20) /* of a stretch, at most */
#define MS UINT64_C(1000000)

static const uint32_t numbers[] = {1, 4, 16, 64, LINKS};

/* A link: its table, its clock, and the slots since its connections were last offered data. */
typedef struct {
    abr_table *table;
    uint64_t now;
    uint32_t slots;
} line;

static line lines[LINKS];
static uint32_t connections;
static uint8_t cell[ABR_CELL_OCTETS];

static uint32_t vci_of(uint32_t i)
{
    return ABR_VCI_MIN + i;
}

static void must(int so, const char *what)
{
    if (!so) {
        fprintf(stderr, "%s\n", what);
        exit(1);
    }
}

static void slot(line *at)
{
    abr_sent sent = abr_slot(at->table, at->now, cell, sizeof cell);
    must(sent.refusal == ABR_OK && sent.kind != ABR_SENT_IDLE, "a slot sends nothing");
}

/* As many data cells as may wait, on every connection. */
static void refill(line *at)
{
    for (uint32_t i = 0; i < connections; i++) {
        uint32_t waiting = abr_status(at->table, 0, vci_of(i)).waiting;
        must(abr_offer(at->table, 0, vci_of(i), ABR_WAITING_MAX - waiting).refusal == ABR_OK, "an offer is refused");
    }
    at->slots = 0;
}

/*
 * Opens all connections, their names and leaves in different orders, since ties go by names: no prefetching finds the
 * next leaf. In each round one in 32 more begins to send, and all that have begun send a cell.
 */
static void begin(line *at)
{
    uint32_t fast = abr_code(ABR_RATE_ONE * UINT64_C(100000)).code, begun = 0;
    for (uint32_t i = 0; i < connections; i++) {
        uint32_t vci = vci_of(i * 37 % connections);
        must(abr_open(at->table, 0, vci, 0, abr_house(fast, fast, fast)).refusal == ABR_OK, "an open is refused");
    }
    for (uint32_t round = 0; round < NRM; round++) {
        for (uint32_t i = round; i < connections; i += NRM, begun++) {
            must(abr_offer(at->table, 0, vci_of(i), NRM).refusal == ABR_OK, "an offer is refused");
        }
        for (uint32_t i = 0; i < begun; i++) {
            slot(at);
        }
        at->now += MS; /* all are due again */
    }
    refill(at);
}

/* The tables, each from a cache line on, one behind the other. */
static void make_links(void)
{
    size_t octets = ((size_t)abr_table_words() * sizeof(uint64_t) + LINE - 1) / LINE * LINE;
    char *memory = calloc(LINKS * octets + LINE, 1);
    must(memory != NULL, "there is no memory for the tables");
    memory += LINE - (uintptr_t)memory % LINE;
    for (uint32_t i = 0; i < LINKS; i++) {
        lines[i].table = (abr_table *)(void *)(memory + i * octets);
    }
    connections = abr_link(lines[0].table).connections_max;
    for (uint32_t i = 0; i < LINKS; i++) {
        begin(&lines[i]);
    }
}

/* So many slots of each of the first links, in turn: nanoseconds of one. */
static double stretch(uint32_t links, uint32_t slots)
{
    clock_t before = clock();
    for (uint32_t i = 0; i < slots; i++) {
        for (uint32_t j = 0; j < links; j++) {
            lines[j].now += 1000;
            slot(&lines[j]);
        }
    }
    return (double)(clock() - before) * 1e9 / CLOCKS_PER_SEC / slots / links;
}

static int by_size(const void *a, const void *b)
{
    double x = *(const double *)a, y = *(const double *)b;
    return (x > y) - (x < y);
}

/* The median of several stretches, before each of which every connection has sent once. */
static double measure(uint32_t links)
{
    double taken[STRETCHES];
    uint32_t slots = SLOTS / links < connections * 4096 ? SLOTS / links : connections * 4096;
    for (unsigned i = 0; i < STRETCHES; i++) {
        for (uint32_t j = 0; j < links; j++) {
            if (lines[j].slots > connections * 50000) {
                refill(&lines[j]);
            }
            lines[j].slots += slots + connections;
        }
        stretch(links, connections);
        taken[i] = stretch(links, slots);
    }
    qsort(taken, STRETCHES, sizeof taken[0], by_size);
    return taken[STRETCHES / 2];
}

int main(void)
{
    make_links();
    for (size_t i = 0; i < sizeof numbers / sizeof numbers[0]; i++) {
        printf("%lu %lu %.1f\n", (unsigned long)connections, (unsigned long)numbers[i], measure(numbers[i]));
    }
    return 0;
}
