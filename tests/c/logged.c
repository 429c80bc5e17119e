/*
 * A transmitter that logs what it does in the lines that abr-trace reads (tests/tools), with lines for people between
 * them: two channels, one of them closed and opened again, and a path with two members; turned and made cells. With an
 * argument one cell of the first channel is logged a nanosecond too soon, which the judge must find.
 */
#include <inttypes.h>

#include "abr.h"
#include "check.h"

#define SLOT UINT64_C(100000)
#define SLOTS 4000
#define EARLY 20 /* the cell of the first channel, a gap after the one before, that is logged too soon */

static abr_table table;

/* Rates in cells per second. The gap of 1,000 is ten slots. */
static abr_params contract(uint64_t rate, uint32_t n, uint32_t trm)
{
    uint32_t code = abr_code(rate * ABR_RATE_ONE).code;
    abr_params params = abr_house(code, code, code);
    params.n = n;
    params.trm = trm;
    return params;
}

static void log_open(uint32_t vpi, uint32_t vci, abr_params params)
{
    printf("%u/%u is opened\n", (unsigned)vpi, (unsigned)vci);
    printf("abr-trace open %u/%u %u %u\n", (unsigned)vpi, (unsigned)vci, (unsigned)params.n, (unsigned)params.trm);
}

static void open_channel(uint32_t vpi, uint32_t vci, uint64_t now, abr_params params)
{
    CHECK(abr_open(&table, vpi, vci, now, params).refusal == ABR_OK);
    CHECK(abr_offer(&table, vpi, vci, SLOTS).refusal == ABR_OK);
    log_open(vpi, vci, params);
}

static void open_path(uint32_t vpi, uint64_t now, abr_params params)
{
    CHECK(abr_open_path(&table, vpi, now, params).refusal == ABR_OK);
    for (uint32_t vci = 33; vci <= 34; vci++) {
        CHECK(abr_add_member(&table, vpi, vci).refusal == ABR_OK);
        CHECK(abr_offer_member(&table, vpi, vci, SLOTS).refusal == ABR_OK);
    }
    log_open(vpi, ABR_PATH_VCI, params);
}

/* The channel goes and comes again with another contract. */
static void reopen(uint64_t now)
{
    CHECK(abr_close(&table, 1, 33).refusal == ABR_OK);
    printf("abr-trace close 1/33\n");
    open_channel(1, 33, now, contract(700, 3, 4));
}

/* A forward cell arrives, which is turned round, and a cell is made. */
static void answer(uint64_t now)
{
    uint8_t cell[ABR_CELL_OCTETS];
    abr_rm rm = {0};
    rm.vpi = 1;
    rm.vci = 32;
    CHECK(abr_write_rm(rm, cell, sizeof cell) == ABR_OK);
    CHECK(abr_receive(&table, cell, sizeof cell).refusal == ABR_OK);
    CHECK(abr_make(&table, 2, ABR_PATH_VCI, now).refusal == ABR_OK);
}

/* One slot. Every answer is logged, that of an idle slot too. */
static void transmit(uint64_t now, int early)
{
    static int cells;
    uint8_t cell[ABR_CELL_OCTETS];
    abr_sent sent = abr_slot(&table, now, cell, sizeof cell);
    CHECK(sent.refusal == ABR_OK);
    int first = sent.kind != ABR_SENT_IDLE && sent.vpi == 1 && sent.vci == 32;
    cells += first;
    uint64_t time = early && first && cells == EARLY ? now - 1 : now;
    printf("abr-trace cell %u/%u %" PRIu64 " %u %" PRIu64 "\n", (unsigned)sent.vpi, (unsigned)sent.vci, time,
           (unsigned)sent.kind, sent.acr_before);
}

int main(int argc, char **argv)
{
    (void)argv;
    CHECK(abr_matches());
    CHECK(abr_set_level(&table, 1) == ABR_OK); /* at level 0 no cell is made */
    open_channel(1, 32, 0, contract(1000, 5, 7));
    open_channel(1, 33, 0, contract(800, 2, 5));
    open_path(2, 0, contract(2000, 4, 3));
    for (uint64_t slot = 0; slot < SLOTS; slot++) {
        if (slot == SLOTS / 2) {
            reopen(slot * SLOT);
        }
        if (slot % 1000 == 500) {
            answer(slot * SLOT);
        }
        transmit(slot * SLOT, argc > 1);
    }
    printf("%d checks failed\n", checks_failed);
    return checks_failed != 0;
}
