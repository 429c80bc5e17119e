/*
 * The C interface on any processor, over the functions of the proved module.
 *
 * Those take and return numbers and pointers alone, which every C passes alike: an answer that is a struct is written
 * through the first pointer, parameters that are structs are read through one, and a slice is its address and its
 * length in 64 bits. Here they become the functions of abr.h, with structs by value as the processor's own C passes
 * them.
 * scripts/portable holds every prototype below against the module.
 *
 * ABR_NO_DOUBLES leaves out the two calls with doubles, for kernels.
 */
#include "abr.h"

struct aligned {
    char a;
    uint64_t word;
    char b;
    uint32_t number;
};

/* What the module relies on; the structs that cross have their own assertions in abr.h. */
#define LAYOUT(name, condition) typedef char layout_##name[(condition) ? 1 : -1]
LAYOUT(word, sizeof(uint64_t) == 8 && offsetof(struct aligned, word) == 8);
LAYOUT(number, sizeof(uint32_t) == 4 && offsetof(struct aligned, number) == 20);
LAYOUT(address, sizeof(void *) <= 8 && sizeof(size_t) <= sizeof(uint64_t));
LAYOUT(octet, (unsigned char)-1 == 255);
#ifndef ABR_NO_DOUBLES
LAYOUT(double_size, sizeof(double) == 8);
#endif

/* The address of a slice is never null in the module, whose own exports put this one in its place too. */
#define SLICE(at) ((at) ? (at) : (void *)(uintptr_t)4096)

/* The functions of the module; no program sees them. */
#define RAW(name) abr_raw_##name
#pragma GCC visibility push(hidden)

void RAW(acr)(abr_allowed *, const abr_table *, uint32_t, uint32_t);
void RAW(add_member)(abr_answer *, abr_table *, uint32_t, uint32_t);
void RAW(at)(abr_connection *, const abr_table *, uint32_t);
void RAW(close)(abr_closed *, abr_table *, uint32_t, uint32_t);
void RAW(code)(abr_coded *, uint64_t);
#ifndef ABR_NO_DOUBLES
void RAW(export)(abr_contract *, const abr_table *, uint32_t, uint32_t, uint32_t *);
void RAW(import)(abr_imported *, double);
#endif
void RAW(fair_share)(abr_share *, uint64_t, const uint64_t *, uint64_t);
void RAW(house)(abr_params *, uint32_t, uint32_t, uint32_t);
void RAW(judge)(abr_verdict *, const uint8_t *, uint64_t);
uint32_t RAW(limit)(uint64_t, uint8_t *, uint64_t);
void RAW(link)(abr_totals *, const abr_table *);
void RAW(make)(abr_answer *, abr_table *, uint32_t, uint32_t, uint64_t);
void RAW(member_at)(abr_member *, const abr_table *, uint32_t);
uint64_t RAW(next_ready)(const abr_table *);
void RAW(offer)(abr_answer *, abr_table *, uint32_t, uint32_t, uint64_t);
void RAW(offer_member)(abr_answer *, abr_table *, uint32_t, uint32_t, uint64_t);
void RAW(open)(abr_opened *, abr_table *, uint32_t, uint32_t, uint64_t, const abr_params *);
void RAW(open_path)(abr_opened *, abr_table *, uint32_t, uint64_t, const abr_params *);
uint32_t RAW(out_of_rate)(abr_table *, uint32_t, uint32_t, uint64_t, uint8_t *, uint64_t);
uint32_t RAW(port)(uint64_t, const uint64_t *, uint64_t, uint8_t *, uint64_t);
void RAW(rate)(abr_rated *, uint32_t);
void RAW(read)(abr_cell *, const uint8_t *, uint64_t);
void RAW(receive)(abr_received *, abr_table *, const uint8_t *, uint64_t);
void RAW(remove_member)(abr_closed *, abr_table *, uint32_t, uint32_t);
uint32_t RAW(set_level)(abr_table *, uint32_t);
void RAW(slot)(abr_sent *, abr_table *, uint64_t, uint8_t *, uint64_t);
uint64_t RAW(slot_time)(const abr_table *, uint64_t, uint64_t);
void RAW(status)(abr_connection *, const abr_table *, uint32_t, uint32_t);
uint32_t RAW(table_words)(void);
uint32_t RAW(version)(void);
uint32_t RAW(write_rm)(const abr_rm *, uint8_t *, uint64_t);
#pragma GCC visibility pop

uint32_t abr_version(void)
{
    return RAW(version)();
}

uint32_t abr_table_words(void)
{
    return RAW(table_words)();
}

abr_opened abr_open(abr_table *table, uint32_t vpi, uint32_t vci, uint64_t time, abr_params params)
{
    abr_opened answer;
    RAW(open)(&answer, table, vpi, vci, time, &params);
    return answer;
}

abr_closed abr_close(abr_table *table, uint32_t vpi, uint32_t vci)
{
    abr_closed answer;
    RAW(close)(&answer, table, vpi, vci);
    return answer;
}

abr_answer abr_offer(abr_table *table, uint32_t vpi, uint32_t vci, uint64_t cells)
{
    abr_answer answer;
    RAW(offer)(&answer, table, vpi, vci, cells);
    return answer;
}

abr_allowed abr_acr(const abr_table *table, uint32_t vpi, uint32_t vci)
{
    abr_allowed answer;
    RAW(acr)(&answer, table, vpi, vci);
    return answer;
}

abr_connection abr_status(const abr_table *table, uint32_t vpi, uint32_t vci)
{
    abr_connection answer;
    RAW(status)(&answer, table, vpi, vci);
    return answer;
}

abr_connection abr_at(const abr_table *table, uint32_t leaf)
{
    abr_connection answer;
    RAW(at)(&answer, table, leaf);
    return answer;
}

abr_member abr_member_at(const abr_table *table, uint32_t number)
{
    abr_member answer;
    RAW(member_at)(&answer, table, number);
    return answer;
}

abr_totals abr_link(const abr_table *table)
{
    abr_totals answer;
    RAW(link)(&answer, table);
    return answer;
}

abr_opened abr_open_path(abr_table *table, uint32_t vpi, uint64_t time, abr_params params)
{
    abr_opened answer;
    RAW(open_path)(&answer, table, vpi, time, &params);
    return answer;
}

abr_answer abr_add_member(abr_table *table, uint32_t vpi, uint32_t vci)
{
    abr_answer answer;
    RAW(add_member)(&answer, table, vpi, vci);
    return answer;
}

abr_answer abr_offer_member(abr_table *table, uint32_t vpi, uint32_t vci, uint64_t cells)
{
    abr_answer answer;
    RAW(offer_member)(&answer, table, vpi, vci, cells);
    return answer;
}

abr_closed abr_remove_member(abr_table *table, uint32_t vpi, uint32_t vci)
{
    abr_closed answer;
    RAW(remove_member)(&answer, table, vpi, vci);
    return answer;
}

abr_received abr_receive(abr_table *table, const uint8_t *cell, size_t len)
{
    abr_received answer;
    RAW(receive)(&answer, table, SLICE(cell), len);
    return answer;
}

uint32_t abr_set_level(abr_table *table, uint32_t level)
{
    return RAW(set_level)(table, level);
}

abr_answer abr_make(abr_table *table, uint32_t vpi, uint32_t vci, uint64_t time)
{
    abr_answer answer;
    RAW(make)(&answer, table, vpi, vci, time);
    return answer;
}

abr_sent abr_slot(abr_table *table, uint64_t time, uint8_t *cell, size_t len)
{
    abr_sent answer;
    RAW(slot)(&answer, table, time, SLICE(cell), len);
    return answer;
}

uint64_t abr_next_ready(const abr_table *table)
{
    return RAW(next_ready)(table);
}

uint64_t abr_slot_time(const abr_table *table, uint64_t now, uint64_t lag)
{
    return RAW(slot_time)(table, now, lag);
}

uint32_t abr_out_of_rate(abr_table *table, uint32_t vpi, uint32_t vci, uint64_t time, uint8_t *cell, size_t len)
{
    return RAW(out_of_rate)(table, vpi, vci, time, SLICE(cell), len);
}

uint32_t abr_write_rm(abr_rm rm, uint8_t *cell, size_t len)
{
    return RAW(write_rm)(&rm, SLICE(cell), len);
}

abr_cell abr_read(const uint8_t *cell, size_t len)
{
    abr_cell answer;
    RAW(read)(&answer, SLICE(cell), len);
    return answer;
}

abr_coded abr_code(uint64_t rate)
{
    abr_coded answer;
    RAW(code)(&answer, rate);
    return answer;
}

abr_rated abr_rate(uint32_t code)
{
    abr_rated answer;
    RAW(rate)(&answer, code);
    return answer;
}

#ifndef ABR_NO_DOUBLES
abr_contract abr_export(const abr_table *table, uint32_t vpi, uint32_t vci, uint32_t *refusal)
{
    abr_contract answer;
    RAW(export)(&answer, table, vpi, vci, refusal);
    return answer;
}

abr_imported abr_import(double cells_per_second)
{
    abr_imported answer;
    RAW(import)(&answer, cells_per_second);
    return answer;
}
#endif

abr_params abr_house(uint32_t pcr, uint32_t mcr, uint32_t icr)
{
    abr_params answer;
    RAW(house)(&answer, pcr, mcr, icr);
    return answer;
}

abr_share abr_fair_share(uint64_t capacity, const uint64_t *demands, size_t count)
{
    abr_share answer;
    RAW(fair_share)(&answer, capacity, SLICE(demands), count);
    return answer;
}

uint32_t abr_limit(uint64_t rate, uint8_t *cell, size_t len)
{
    return RAW(limit)(rate, SLICE(cell), len);
}

uint32_t abr_port(uint64_t capacity, const uint64_t *demands, size_t count, uint8_t *cell, size_t len)
{
    return RAW(port)(capacity, SLICE(demands), count, SLICE(cell), len);
}

abr_verdict abr_judge(const uint8_t *trace, size_t len)
{
    abr_verdict answer;
    RAW(judge)(&answer, SLICE(trace), len);
    return answer;
}
