/*
 * A call made over and over, for counting its instructions on any processor: steady CALL COUNT [ns], with 64
 * connections open, or as many as there can be. CALL is slot (data, and a forward cell after every 31), backward,
 * forward or data (a received cell), offer, next, or nothing, the loop alone. bench/targets takes the difference
 * between two counts; with ns it prints the nanoseconds of one (bench/compare).
 */
#include <stdio.h>
#include <stdlib.h>
#include <string.h>
#include <time.h>

#include "abr.h"

enum { CONNECTIONS = ABR_CONNECTIONS_MAX < 64 ? ABR_CONNECTIONS_MAX : 64 };
static abr_table room[2], *const table = room; /* for one of another layout too, as bench/compare needs */
static uint8_t cell[ABR_CELL_OCTETS];
static uint64_t now;

static int slot(void)
{
    abr_sent sent = abr_slot(table, now, cell, sizeof cell);
    now += 1000;
    return sent.refusal != ABR_OK || sent.kind == ABR_SENT_IDLE;
}

static int receive(void) { return abr_receive(table, cell, sizeof cell).refusal != ABR_OK; }
static int offer(void) { return abr_offer(table, 0, 32 + CONNECTIONS - 1, 0).refusal != ABR_OK; }
static int next(void) { return abr_next_ready(table) == ABR_NEVER; }
static int nothing(void) { return 0; }

static const struct {
    const char *name;
    int (*call)(void);
} calls[] = {{"slot", slot}, {"backward", receive}, {"forward", receive}, {"data", receive}, {"offer", offer}, {"next", next}, {"nothing", nothing}};

/* the cell that is received, of the last connection */
static void prepare_cell(const char *name)
{
    abr_rm rm = {0, 32 + CONNECTIONS - 1, 0, 0, 0, 0, 0, 0x7FFF, 0x5000, 0x4000, 0, 0};
    rm.dir = strcmp(name, "backward") == 0;
    if (abr_write_rm(rm, cell, sizeof cell) != ABR_OK) {
        exit(2);
    }
    if (strcmp(name, "data") == 0) {
        cell[3] &= 0xF0;
        for (unsigned check = 0; check < 256; check++) {
            cell[4] = (uint8_t)check;
            if (abr_read(cell, sizeof cell).refusal == ABR_OK) {
                return;
            }
        }
        exit(2);
    }
}

/* So many calls; 1 if one is refused or does nothing. */
static int make(int (*volatile call)(void), long count)
{
    for (; count > 0; count--) {
        if (call()) {
            return 1;
        }
    }
    return 0;
}

/* The connections, all with data; 1 if a call is refused. */
static int open_all(void)
{
    uint32_t fast = abr_code(ABR_RATE_ONE * UINT64_C(100000)).code;
    for (uint32_t i = 0; i < CONNECTIONS; i++) {
        if (abr_open(table, 0, 32 + i, 0, abr_house(fast, fast, fast)).refusal ||
            abr_offer(table, 0, 32 + i, ABR_WAITING_MAX).refusal) {
            return 1;
        }
    }
    return 0;
}

int main(int argc, char **argv)
{
    int (*call)(void) = NULL, wrong;
    long count = argc > 2 ? strtol(argv[2], NULL, 10) : 0;
    clock_t before;
    for (size_t i = 0; argc > 2 && i < sizeof calls / sizeof *calls; i++) {
        if (strcmp(argv[1], calls[i].name) == 0) {
            call = calls[i].call;
        }
    }
    if (!call || abr_table_words() * sizeof(uint64_t) > sizeof room || open_all()) {
        return 2;
    }
    prepare_cell(argv[1]);
    before = clock();
    wrong = make(call, count);
    if (argc > 3 && !wrong) {
        printf("%s\t%.2f\n", argv[1], (double)(clock() - before) * 1e9 / CLOCKS_PER_SEC / (double)count);
    }
    return wrong;
}
