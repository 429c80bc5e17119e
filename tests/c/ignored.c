/* Every answer with a refusal, ignored: a compiler must warn of each of these lines. */
#include "abr.h"

void ignored(abr_table *table, uint8_t *cell, abr_params params, abr_rm rm, uint32_t *refusal, uint64_t *demands);

void ignored(abr_table *table, uint8_t *cell, abr_params params, abr_rm rm, uint32_t *refusal, uint64_t *demands)
{
    abr_open(table, 1, 32, 0, params);
    abr_close(table, 1, 32);
    abr_offer(table, 1, 32, 1);
    abr_open_path(table, 1, 0, params);
    abr_add_member(table, 1, 32);
    abr_offer_member(table, 1, 32, 1);
    abr_remove_member(table, 1, 32);
    abr_acr(table, 1, 32);
    abr_status(table, 1, 32);
    abr_at(table, 0);
    abr_member_at(table, 0);
    abr_export(table, 1, 32, refusal);
    abr_receive(table, cell, ABR_CELL_OCTETS);
    abr_set_level(table, 1);
    abr_make(table, 1, 32, 0);
    abr_slot(table, 0, cell, ABR_CELL_OCTETS);
    abr_out_of_rate(table, 1, 32, 0, cell, ABR_CELL_OCTETS);
    abr_write_rm(rm, cell, ABR_CELL_OCTETS);
    abr_read(cell, ABR_CELL_OCTETS);
    abr_code(512);
    abr_rate(0x4000);
    abr_import(1.0);
    abr_fair_share(1, demands, 1);
    abr_limit(1, cell, ABR_CELL_OCTETS);
    abr_port(1, demands, 1, cell, ABR_CELL_OCTETS);
    abr_judge(cell, 1);
}
