/*
 * The layouts of the header's structs: every field is where the ones before it end,
 * and the last one ends the struct, so that there is no padding. The library reads
 * and writes every field of every struct, and every octet of every answer.
 */
#include <string.h>

#include "abr.h"
#include "check.h"
#include "filled.h"

/* The limits are numbers for the preprocessor too. */
#if ABR_TIME_MAX >> 62 != 1 || ABR_NEVER >> 63 != 1 || ABR_RATE_MAX != 1023 * ABR_RATE_ONE * 4194304 || ABR_VERSION >> 24
#error "a limit is wrong in #if"
#endif

static size_t end; /* of the fields so far */

/* A field begins where the one before it ends. */
#define AT(type, field, offset, width)                                                               \
    do {                                                                                             \
        CHECK(offsetof(type, field) == (offset) && sizeof(((type *)0)->field) == (width));           \
        CHECK(end == (offset));                                                                      \
        end += (width);                                                                              \
    } while (0)

/* The last field of a struct ends it. */
#define ENDS(type)                                                                                   \
    do {                                                                                             \
        CHECK(end == sizeof(type));                                                                  \
        end = 0;                                                                                     \
    } while (0)

static void offsets_of_params(void)
{
    AT(abr_params, pcr, 0, 4);
    AT(abr_params, mcr, 4, 4);
    AT(abr_params, icr, 8, 4);
    AT(abr_params, n, 12, 4);
    AT(abr_params, r, 16, 4);
    AT(abr_params, d, 20, 4);
    AT(abr_params, c, 24, 4);
    AT(abr_params, tbe, 28, 4);
    AT(abr_params, frtt, 32, 4);
    AT(abr_params, adtf, 36, 4);
    AT(abr_params, trm, 40, 4);
    ENDS(abr_params);
}

static void offsets_of_rm(void)
{
    AT(abr_rm, vpi, 0, 4);
    AT(abr_rm, vci, 4, 4);
    AT(abr_rm, dir, 8, 4);
    AT(abr_rm, bn, 12, 4);
    AT(abr_rm, ci, 16, 4);
    AT(abr_rm, ni, 20, 4);
    AT(abr_rm, ra, 24, 4);
    AT(abr_rm, er, 28, 4);
    AT(abr_rm, ccr, 32, 4);
    AT(abr_rm, mcr, 36, 4);
    AT(abr_rm, ql, 40, 4);
    AT(abr_rm, sn, 44, 4);
    ENDS(abr_rm);
}

/* What the calls on a connection answer. */
static void offsets_of_calls(void)
{
    AT(abr_opened, refusal, 0, 4);
    AT(abr_opened, comparisons, 4, 4);
    AT(abr_opened, leaf, 8, 4);
    ENDS(abr_opened);
    AT(abr_answer, refusal, 0, 4);
    AT(abr_answer, comparisons, 4, 4);
    ENDS(abr_answer);
    AT(abr_received, refusal, 0, 4);
    AT(abr_received, comparisons, 4, 4);
    AT(abr_received, kind, 8, 4);
    AT(abr_received, vpi, 12, 4);
    AT(abr_received, vci, 16, 4);
    AT(abr_received, leaf, 20, 4);
    AT(abr_received, acr, 24, 8);
    ENDS(abr_received);
    AT(abr_closed, refusal, 0, 4);
    AT(abr_closed, comparisons, 4, 4);
    AT(abr_closed, cells, 8, 8);
    ENDS(abr_closed);
    AT(abr_sent, refusal, 0, 4);
    AT(abr_sent, comparisons, 4, 4);
    AT(abr_sent, kind, 8, 4);
    AT(abr_sent, vpi, 12, 4);
    AT(abr_sent, vci, 16, 4);
    AT(abr_sent, leaf, 20, 4);
    AT(abr_sent, acr, 24, 8);
    AT(abr_sent, acr_before, 32, 8);
    AT(abr_sent, made, 40, 4);
    AT(abr_sent, reserved, 44, 4);
    ENDS(abr_sent);
    AT(abr_allowed, refusal, 0, 4);
    AT(abr_allowed, reserved, 4, 4);
    AT(abr_allowed, acr, 8, 8);
    AT(abr_allowed, change, 16, 8);
    ENDS(abr_allowed);
}

/* What is read of connections, members and the link. */
static void offsets_of_status(void)
{
    AT(abr_connection, refusal, 0, 4);
    AT(abr_connection, kind, 4, 4);
    AT(abr_connection, vpi, 8, 4);
    AT(abr_connection, vci, 12, 4);
    AT(abr_connection, leaf, 16, 4);
    AT(abr_connection, waiting, 20, 4);
    AT(abr_connection, params, 24, 44);
    AT(abr_connection, crm, 68, 4);
    AT(abr_connection, icr_used, 72, 8);
    AT(abr_connection, acr, 80, 8);
    AT(abr_connection, change, 88, 8);
    AT(abr_connection, opened, 96, 8);
    AT(abr_connection, last_sent, 104, 8);
    AT(abr_connection, last_forward, 112, 8);
    AT(abr_connection, ready, 120, 8);
    AT(abr_connection, last_made, 128, 8);
    AT(abr_connection, last_out_of_rate, 136, 8);
    AT(abr_connection, k, 144, 4);
    AT(abr_connection, unanswered, 148, 4);
    AT(abr_connection, backward_sent, 152, 4);
    AT(abr_connection, efci, 156, 4);
    AT(abr_connection, turned, 160, 4);
    AT(abr_connection, made_level, 164, 4);
    AT(abr_connection, served, 168, 4);
    AT(abr_connection, reserved, 172, 4);
    ENDS(abr_connection);
}

static void offsets_of_lists(void)
{
    AT(abr_member, refusal, 0, 4);
    AT(abr_member, vpi, 4, 4);
    AT(abr_member, vci, 8, 4);
    AT(abr_member, waiting, 12, 4);
    ENDS(abr_member);
    AT(abr_totals, connections, 0, 4);
    AT(abr_totals, connections_max, 4, 4);
    AT(abr_totals, members, 8, 4);
    AT(abr_totals, level, 12, 4);
    AT(abr_totals, last, 16, 8);
    ENDS(abr_totals);
}

/* What the calls without a table answer. */
static void offsets_of_others(void)
{
    AT(abr_cell, refusal, 0, 4);
    AT(abr_cell, kind, 4, 4);
    AT(abr_cell, efci, 8, 4);
    AT(abr_cell, rm, 12, 48);
    ENDS(abr_cell);
    AT(abr_coded, refusal, 0, 4);
    AT(abr_coded, code, 4, 4);
    ENDS(abr_coded);
    AT(abr_rated, refusal, 0, 4);
    AT(abr_rated, reserved, 4, 4);
    AT(abr_rated, rate, 8, 8);
    ENDS(abr_rated);
    AT(abr_contract, pcr, 0, 8);
    AT(abr_contract, mcr, 8, 8);
    AT(abr_contract, icr, 16, 8);
    ENDS(abr_contract);
    AT(abr_imported, refusal, 0, 4);
    AT(abr_imported, code, 4, 4);
    AT(abr_imported, remainder, 8, 8);
    ENDS(abr_imported);
    AT(abr_share, refusal, 0, 4);
    AT(abr_share, limited, 4, 4);
    AT(abr_share, rate, 8, 8);
    ENDS(abr_share);
    AT(abr_verdict, refusal, 0, 4);
    AT(abr_verdict, rule, 4, 4);
    AT(abr_verdict, cell, 8, 8);
    ENDS(abr_verdict);
}

/* Each field of an RM cell is written from and read to its own place. */
static void every_rm_field(void)
{
    static const uint32_t values[12] = {0xA5, 4660, 1, 1, 1, 1, 1, 0x4001, 0x5002, 0x6003, 0x89ABCDEF, 0xFEDCBA98};
    uint8_t octets[ABR_CELL_OCTETS];
    for (int field = 0; field < 12; field++) {
        uint32_t fields[12] = {0};
        abr_rm rm;
        abr_cell cell;
        fields[field] = values[field];
        memcpy(&rm, fields, sizeof rm);
        CHECK(abr_write_rm(rm, octets, sizeof octets) == ABR_OK);
        cell = abr_read(octets, sizeof octets);
        CHECK(cell.refusal == ABR_OK && cell.kind == ABR_CELL_RM && cell.efci == 0);
        CHECK(memcmp(&cell.rm, &rm, sizeof rm) == 0);
    }
}

/* Each parameter is checked by its own range. */
static void every_parameter(void)
{
    static const uint32_t good[11] = {0x7FFF, 0x4000, 0x53E8, 8, 15, 15, 7, ABR_TBE_MAX, ABR_FRTT_MAX, 1023, 7};
    static const uint32_t bad[11] = {0x4001, 0x53E9, 0x3FFF, 9, 16, 16, 8, ABR_TBE_MAX + 1, ABR_FRTT_MAX + 1, 1024, 8};
    for (int field = 0; field <= 11; field++) {
        static abr_table table;
        uint32_t words[11], expected = ABR_REFUSED_RANGE;
        abr_params params;
        memset(&table, 0, sizeof table);
        memcpy(words, good, sizeof words);
        if (field < 11) {
            words[field] = bad[field];
        }
        switch (field) {
        case 7: expected = ABR_REFUSED_TBE; break;
        case 8: expected = ABR_REFUSED_FRTT; break;
        case 11: expected = ABR_OK; break;
        default: break;
        }
        memcpy(&params, words, sizeof params);
        CHECK(abr_open(&table, 1, 32, 0, params).refusal == expected);
    }
}

/* The house set has each code in its own place. */
static void every_house_field(void)
{
    static const uint32_t words[11] = {1, 2, 3, ABR_HOUSE_N, ABR_HOUSE_R, ABR_HOUSE_D, ABR_HOUSE_C,
                                       ABR_HOUSE_TBE, ABR_HOUSE_FRTT, ABR_HOUSE_ADTF, ABR_HOUSE_TRM};
    abr_params params = abr_house(1, 2, 3);
    CHECK(memcmp(&params, words, sizeof params) == 0);
}

/* A contract has each rate in its own place; the refusal is written whatever was there. */
static void every_contract_field(void)
{
    static abr_table table;
    uint32_t refusal = 99;
    abr_contract contract = abr_export(&table, 1, 32, &refusal);
    CHECK(refusal == ABR_REFUSED_NOT_OPEN && contract.pcr == 0 && contract.mcr == 0 && contract.icr == 0);
    CHECK(abr_open(&table, 1, 32, 0, abr_house(0x4401, 0x4001, 0x4201)).refusal == ABR_OK);
    contract = abr_export(&table, 1, 32, &refusal);
    CHECK(refusal == ABR_OK);
    CHECK(contract.pcr == 4 + 4 / 512.0 && contract.mcr == 1 + 1 / 512.0 && contract.icr == 2 + 2 / 512.0);
}

/* What every_octet_is_written gives, prepared anew for each call: VCI 32 and a path with member 40, both on VPI 1. */
static struct {
    abr_table table;
    uint8_t cell[ABR_CELL_OCTETS], trace[2];
    uint32_t refusal;
} given;

/* Asked for while a call is to be refused: a VPI on which nothing is open, a length and a rate that cannot be. */
static uint32_t vpi_asked;
static size_t length_asked;
static uint64_t rate_asked;

/* A call that writes its answer into memory of the caller, all octets of it. */
#define INTO(name, type, call)                             \
    __attribute__((noinline)) static void name(void *into) \
    {                                                      \
        type answer = call;                                \
        memcpy(into, &answer, sizeof answer);              \
    }
INTO(opens, abr_opened, abr_open(&given.table, vpi_asked, 33, 0, abr_house(0x7FFF, 0x4000, 0x53E8)))
INTO(opens_path, abr_opened, abr_open_path(&given.table, vpi_asked + 1, 0, abr_house(0x7FFF, 0x4000, 0x53E8)))
INTO(offers, abr_answer, abr_offer(&given.table, vpi_asked, 32, 1))
INTO(receives, abr_received, abr_receive(&given.table, given.cell, length_asked))
INTO(closes, abr_closed, abr_close(&given.table, vpi_asked, 32))
INTO(sends, abr_sent, abr_slot(&given.table, 0, given.cell, length_asked))
INTO(allows, abr_allowed, abr_acr(&given.table, vpi_asked, 32))
INTO(reads_channel, abr_connection, abr_status(&given.table, vpi_asked, 32))
INTO(reads_member, abr_connection, abr_status(&given.table, vpi_asked, 40))
INTO(reads_leaf, abr_connection, abr_at(&given.table, vpi_asked))
INTO(lists_member, abr_member, abr_member_at(&given.table, vpi_asked - 1))
INTO(counts, abr_totals, abr_link(&given.table))
INTO(exports, abr_contract, abr_export(&given.table, vpi_asked, 32, &given.refusal))
INTO(reads_cell, abr_cell, abr_read(given.cell, length_asked))
INTO(codes, abr_coded, abr_code(rate_asked))
INTO(rates, abr_rated, abr_rate((uint32_t)rate_asked))
INTO(imports, abr_imported, abr_import((double)rate_asked))
INTO(shares, abr_share, abr_fair_share(1, &rate_asked, 1))
INTO(judges, abr_verdict, abr_judge(given.trace, length_asked ? sizeof given.trace : 0))
INTO(houses, abr_params, abr_house(1, 2, 3))

static const struct {
    void (*call)(void *into);
    size_t size;
} calls[] = {
    {opens, sizeof(abr_opened)},
    {opens_path, sizeof(abr_opened)},
    {offers, sizeof(abr_answer)},
    {receives, sizeof(abr_received)},
    {closes, sizeof(abr_closed)},
    {sends, sizeof(abr_sent)},
    {allows, sizeof(abr_allowed)},
    {reads_channel, sizeof(abr_connection)},
    {reads_member, sizeof(abr_connection)},
    {reads_leaf, sizeof(abr_connection)},
    {lists_member, sizeof(abr_member)},
    {counts, sizeof(abr_totals)},
    {exports, sizeof(abr_contract)},
    {reads_cell, sizeof(abr_cell)},
    {codes, sizeof(abr_coded)},
    {rates, sizeof(abr_rated)},
    {imports, sizeof(abr_imported)},
    {shares, sizeof(abr_share)},
    {judges, sizeof(abr_verdict)},
    {houses, sizeof(abr_params)},
};

static void give(void)
{
    abr_rm rm = {1, 32, 1, 0, 1, 0, 0, 0x7FFF, 0, 0, 0, 0};
    abr_params params = abr_house(0x7FFF, 0x4000, 0x53E8);
    memset(&given, 0, sizeof given);
    given.trace[0] = 5;
    CHECK(abr_open(&given.table, 1, 32, 0, params).leaf == 0 && abr_open_path(&given.table, 1, 0, params).leaf == 1);
    CHECK(abr_add_member(&given.table, 1, 40).refusal == ABR_OK && abr_offer(&given.table, 1, 32, 9).refusal == ABR_OK);
    CHECK(abr_write_rm(rm, given.cell, sizeof given.cell) == ABR_OK);
}

/* Accepted or refused, an answer is the same, octet by octet, whatever the memory had before. */
static void every_octet_is_written(void)
{
    for (int refused = 0; refused < 2; refused++) {
        vpi_asked = refused ? 300 : 1;
        length_asked = refused ? 0 : ABR_CELL_OCTETS;
        rate_asked = refused ? ABR_RATE_MAX + 65536 : 0x4000;
        for (size_t i = 0; i < sizeof calls / sizeof calls[0]; i++) {
            uint8_t answer[sizeof(abr_connection)], other[sizeof(abr_connection)];
            uint32_t refusal;
            give();
            fill_stack(0xA5);
            calls[i].call(answer);
            give();
            fill_stack(0x5A);
            calls[i].call(other);
            CHECK(memcmp(answer, other, calls[i].size) == 0);
            memcpy(&refusal, calls[i].call == exports ? (const void *)&given.refusal : answer, sizeof refusal);
            CHECK((refusal == ABR_OK) == !refused || calls[i].call == counts || calls[i].call == houses);
        }
    }
}

/* The connection with a place in the order of names: four VCIs on each VPI, the first and the last. */
static uint32_t vpi_at(uint32_t place)
{
    return place / 4;
}

static uint32_t vci_at(uint32_t place)
{
    static const uint32_t vcis[4] = {ABR_VCI_MIN, ABR_VCI_MIN + 1, ABR_VCI_MAX - 1, ABR_VCI_MAX};
    return vcis[place % 4];
}

/* The next slots go to the connections in order, each with this kind. */
static void all_send(abr_table *table, uint64_t time, uint32_t kind)
{
    uint8_t octets[ABR_CELL_OCTETS];
    for (uint32_t i = 0; i < ABR_CONNECTIONS_MAX; i++) {
        abr_sent sent = abr_slot(table, time, octets, sizeof octets);
        CHECK(sent.refusal == ABR_OK && sent.vpi == vpi_at(i) && sent.vci == vci_at(i));
        CHECK(sent.leaf == ABR_CONNECTIONS_MAX - 1 - i && sent.made == (kind == ABR_SENT_TURNED));
        CHECK(sent.comparisons == ABR_COMPARISONS_MAX && sent.kind == kind);
        CHECK(sent.acr == 512000 && sent.acr_before == 512000);
    }
}

/*
 * A table uses words up to the last and none after it: as many busy connections as there can be, on each a made and an
 * out-of-rate cell.
 */
static void the_whole_table(void)
{
    static struct {
        abr_table table;
        uint64_t after[8];
    } lent;
    uint8_t octets[ABR_CELL_OCTETS];
    abr_params params = abr_house(0x7FFF, 0x4000, 0x53E8);
    CHECK(abr_set_level(&lent.table, 1) == ABR_OK);
    for (uint32_t i = ABR_CONNECTIONS_MAX; i-- > 0;) {
        uint32_t vpi = vpi_at(i), vci = vci_at(i);
        CHECK(abr_open(&lent.table, vpi, vci, 0, params).leaf == ABR_CONNECTIONS_MAX - 1 - i);
        CHECK(abr_offer(&lent.table, vpi, vci, 1).refusal == ABR_OK);
        CHECK(abr_make(&lent.table, vpi, vci, 0).refusal == ABR_OK);
        CHECK(abr_make(&lent.table, vpi, vci, 0).refusal == ABR_REFUSED_MADE_TOO_SOON);
        CHECK(abr_out_of_rate(&lent.table, vpi, vci, 0, octets, sizeof octets) == ABR_OK);
        CHECK(abr_out_of_rate(&lent.table, vpi, vci, 0, octets, sizeof octets) == ABR_REFUSED_OUT_OF_RATE_TOO_SOON);
    }
    CHECK(abr_open(&lent.table, 0, 40, 0, params).refusal == ABR_REFUSED_FULL);
    CHECK(abr_link(&lent.table).connections == ABR_CONNECTIONS_MAX);
    CHECK(abr_at(&lent.table, ABR_CONNECTIONS_MAX - 1).vci == vci_at(0));
    CHECK(abr_at(&lent.table, 0).vci == vci_at(ABR_CONNECTIONS_MAX - 1));
    for (uint64_t i = 0; i < 3; i++) {
        static const uint32_t kinds[3] = {ABR_SENT_FORWARD, ABR_SENT_TURNED, ABR_SENT_DATA};
        CHECK(abr_next_ready(&lent.table) == i * 1000000);
        all_send(&lent.table, i * 1000000, kinds[i]);
    }
    CHECK(abr_next_ready(&lent.table) == 100000000); /* Trm after the forward cells */
    CHECK(abr_offer(&lent.table, vpi_at(0), vci_at(0), 1).refusal == ABR_OK); /* the one that was opened last */
    CHECK(abr_next_ready(&lent.table) == 3000000);
    CHECK(abr_slot_time(&lent.table, 4000000, 2000000) == 3000000 && abr_slot_time(&lent.table, 4000000, 9) == 3999991);
    for (int i = 0; i < 8; i++) {
        CHECK(lent.after[i] == 0);
    }
}

/* Octets may be at any address. */
static void any_alignment(void)
{
    static uint64_t space[16];
    static abr_table table;
    abr_rm rm = {1, 32, 1, 0, 1, 0, 0, 0x7FFF, 0, 0, 0, 0};
    CHECK(abr_open(&table, 1, 32, 0, abr_house(0x7FFF, 0x4000, 0x53E8)).refusal == ABR_OK);
    CHECK(abr_offer(&table, 1, 32, 100).refusal == ABR_OK);
    for (size_t shift = 0; shift < 16; shift++) {
        uint8_t *octets = (uint8_t *)space + shift;
        abr_cell cell;
        abr_sent sent;
        CHECK(abr_write_rm(rm, octets, ABR_CELL_OCTETS) == ABR_OK);
        cell = abr_read(octets, ABR_CELL_OCTETS);
        CHECK(cell.refusal == ABR_OK && cell.rm.er == 0x7FFF);
        CHECK(abr_limit(ABR_RATE_ONE, octets, ABR_CELL_OCTETS) == ABR_OK);
        cell = abr_read(octets, ABR_CELL_OCTETS);
        CHECK(cell.refusal == ABR_OK && cell.rm.er == 0x4000);
        CHECK(abr_receive(&table, octets, ABR_CELL_OCTETS).refusal == ABR_OK);
        CHECK(abr_out_of_rate(&table, 1, 32, (uint64_t)shift << 40, octets, ABR_CELL_OCTETS) == ABR_OK);
        CHECK(abr_read(octets, ABR_CELL_OCTETS).refusal == ABR_OK);
        sent = abr_slot(&table, (uint64_t)shift << 40, octets, ABR_CELL_OCTETS);
        CHECK(sent.refusal == ABR_OK && sent.vpi == 1 && sent.vci == 32);
    }
}

/* What is read of a connection, and of the link, is the same in two tables. */
static int read_alike(const abr_table *first, const abr_table *second, uint32_t vpi, uint32_t vci)
{
    abr_connection status = abr_status(first, vpi, vci), other = abr_status(second, vpi, vci);
    abr_totals link = abr_link(first), other_link = abr_link(second);
    return status.refusal == ABR_OK && memcmp(&status, &other, sizeof status) == 0 &&
           memcmp(&link, &other_link, sizeof link) == 0;
}

/* A table may be copied as a whole: the copy answers as the first one does. */
static void a_copy_answers_the_same(void)
{
    static abr_table first;
    static uint64_t space[ABR_TABLE_WORDS + 1];
    abr_table *second = (abr_table *)(space + 1);
    uint8_t octets[ABR_CELL_OCTETS] = {0}, others[ABR_CELL_OCTETS] = {0};
    abr_params params = abr_house(0x7FFF, 0x4000, 0x53E8);
    for (uint32_t vpi = 0; vpi < 8; vpi++) {
        CHECK(abr_open(&first, vpi, 32, 0, params).refusal == ABR_OK);
        CHECK(abr_offer(&first, vpi, 32, 100).refusal == ABR_OK);
    }
    for (uint64_t slot = 0; slot < 400; slot++) {
        abr_sent sent, other;
        memcpy(second, &first, sizeof first);
        sent = abr_slot(&first, slot * 125000, octets, sizeof octets);
        other = abr_slot(second, slot * 125000, others, sizeof others);
        CHECK(sent.refusal == ABR_OK && sent.kind != ABR_SENT_IDLE && memcmp(&sent, &other, sizeof sent) == 0);
        CHECK(read_alike(&first, second, sent.vpi, sent.vci));
        CHECK(memcmp(octets, others, sizeof octets) == 0);
        CHECK(memcmp(&first, second, sizeof first) == 0);
        CHECK(abr_next_ready(&first) == abr_next_ready(second));
        CHECK(abr_slot_time(&first, (slot + 9) * 125000, 1000000) == abr_slot_time(second, (slot + 9) * 125000, 1000000));
    }
}

int main(void)
{
    CHECK(abr_version() == ABR_VERSION);
    CHECK(abr_table_words() == ABR_TABLE_WORDS);
    offsets_of_params();
    offsets_of_rm();
    offsets_of_calls();
    offsets_of_status();
    offsets_of_lists();
    offsets_of_others();
    every_rm_field();
    every_parameter();
    every_house_field();
    every_contract_field();
    every_octet_is_written();
    any_alignment();
    a_copy_answers_the_same();
    the_whole_table();
    printf("layout: %s\n", checks_failed ? "FAILED" : "ok");
    return checks_failed != 0;
}
