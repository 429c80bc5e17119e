/*
 * Two connections on a link of 4,000 cells per second: VCI 32 on VPI 0, and VCI 32 on
 * VPI 1. Both have data, and both are allowed 2,000. At 3 ms a backward cell gives
 * the first an explicit rate of 500; from 8 ms on backward cells give it 2,000 again.
 */
#include <stdio.h>
#include <stdlib.h>

#include "abr.h"

#define MS UINT64_C(1000000)
#define VCI 32u

static abr_table table; /* all zero: an empty table */

/* Ends the program if a call was refused. */
static void accepted(uint32_t refusal)
{
    if (refusal != ABR_OK) {
        fprintf(stderr, "refused: %s\n", abr_refusal_text(refusal));
        exit(1);
    }
}

/* The code of a rate in cells per second. */
static uint32_t code(uint64_t cells)
{
    abr_coded coded = abr_code(cells * ABR_RATE_ONE);
    accepted(coded.refusal);
    return coded.code;
}

/* A backward cell with an explicit rate in cells per second is received. */
static void feedback(uint32_t vpi, uint64_t cells)
{
    uint8_t cell[ABR_CELL_OCTETS];
    abr_rm rm = {.vpi = vpi, .vci = VCI, .dir = 1, .er = code(cells)};
    accepted(abr_write_rm(rm, cell, sizeof cell));
    accepted(abr_receive(&table, cell, sizeof cell).refusal);
    printf("          %u/%u receives ER %u\n", (unsigned)vpi, VCI, (unsigned)cells);
}

int main(void)
{
    static const char *const kinds[] = {"idle", "forward", "turned", "data"};
    uint8_t cell[ABR_CELL_OCTETS];

    if (!abr_matches()) {
        fprintf(stderr, "abr.h and libabr.a do not belong together\n");
        return 1;
    }
    abr_params params = abr_house(code(2000), code(100), code(2000));
    for (uint32_t vpi = 0; vpi <= 1; vpi++) {
        accepted(abr_open(&table, vpi, VCI, 0, params).refusal);
        accepted(abr_offer(&table, vpi, VCI, 1000).refusal); /* data cells that wait */
    }
    printf("  time    VPI/VCI  kind     allowed\n");
    for (uint64_t now = 0; now <= 14 * MS; now += MS / 4) { /* a slot every 0.25 ms */
        if (now == 3 * MS) {
            feedback(0, 500);
        } else if (now >= 8 * MS && now % (2 * MS) == 0) {
            feedback(0, 2000);
        }
        uint64_t time = abr_slot_time(&table, now, 2 * MS / 4); /* at most two slots before now */
        abr_sent sent = abr_slot(&table, time, cell, sizeof cell);
        accepted(sent.refusal);
        printf("%5.2f ms  %3u/%-5u%-7s  %7u\n", (double)now / 1e6, (unsigned)sent.vpi,
               (unsigned)sent.vci, kinds[sent.kind], (unsigned)(sent.acr / ABR_RATE_ONE));
    }
    return 0;
}
