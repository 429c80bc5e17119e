/*
 * Buffers of 53 octets up to more than 2^32, mapped in full: a length that is 53
 * only in its low bits is refused like any other, and nothing is written. The same of
 * counts of demands that are small only in their low bits. A trace whose length is that of
 * a shorter one in its low bits is read behind that one's end.
 */
#define _DEFAULT_SOURCE
#include <string.h>
#include <sys/mman.h>

#include "abr.h"
#include "check.h"

static const int flags = MAP_PRIVATE | MAP_ANONYMOUS | MAP_NORESERVE;
static abr_table table;

/* Writes a cell for VCI 32 on VPI 1 to the start of the octets. */
static void put_cell(uint8_t *octets)
{
    abr_rm rm = {1, 32, 1, 0, 0, 0, 0, 0x7FFF, 0, 0, 0, 0};
    CHECK(abr_write_rm(rm, octets, ABR_CELL_OCTETS) == ABR_OK);
}

/* A refused read, slot and received cell have 0 in every other field. */
static void zeros(uint8_t *octets, size_t len)
{
    static const abr_cell no_cell = {.refusal = ABR_REFUSED_LENGTH};
    static const abr_sent not_sent = {.refusal = ABR_REFUSED_LENGTH};
    static const abr_received not_received = {.refusal = ABR_REFUSED_LENGTH};
    abr_cell read = abr_read(octets, len);
    abr_sent sent = abr_slot(&table, 1000, octets, len);
    abr_received received = abr_receive(&table, octets, len);
    CHECK(memcmp(&read, &no_cell, sizeof read) == 0);
    CHECK(memcmp(&sent, &not_sent, sizeof sent) == 0);
    CHECK(memcmp(&received, &not_received, sizeof received) == 0);
}

static void refused(uint8_t *octets, size_t len)
{
    static const uint64_t demand = 2000;
    static abr_table before;
    uint8_t kept[64];
    abr_rm rm = {1, 33, 0, 0, 0, 0, 0, 0, 0, 0, 0, 0};
    memcpy(&before, &table, sizeof before);
    memcpy(kept, octets, sizeof kept);
    CHECK(abr_write_rm(rm, octets, len) == ABR_REFUSED_LENGTH);
    CHECK(abr_out_of_rate(&table, 1, 32, 1000, octets, len) == ABR_REFUSED_LENGTH);
    CHECK(abr_limit(1000, octets, len) == ABR_REFUSED_LENGTH);
    CHECK(abr_port(1000, &demand, 1, octets, len) == ABR_REFUSED_LENGTH);
    zeros(octets, len);
    CHECK(memcmp(kept, octets, sizeof kept) == 0);
    CHECK(memcmp(&before, &table, sizeof before) == 0);
}

/* More demands than there may be, all 0, are refused for their number whatever its low bits are. */
static void too_many(size_t count)
{
    const size_t size = (count * sizeof(uint64_t) + 4095) / 4096 * 4096;
    const uint64_t *demands = mmap(NULL, size, PROT_READ, flags, -1, 0);
    uint8_t octets[ABR_CELL_OCTETS];
    abr_share share;
    if (demands == MAP_FAILED) {
        perror("mmap");
        checks_failed++;
        return;
    }
    put_cell(octets);
    share = abr_fair_share(0, demands, count);
    CHECK(share.refusal == ABR_REFUSED_TOO_MANY_DEMANDS && share.limited == 0 && share.rate == 0);
    CHECK(abr_port(0, demands, count, octets, sizeof octets) == ABR_REFUSED_TOO_MANY_DEMANDS);
    munmap((void *)demands, size);
}

/* n and the Trm number, and then zeros: what is cut behind them passes, the rest has a kind of 0. */
static void judged(uint8_t *octets, size_t above)
{
    for (size_t len = above; len <= above + 4; len++) {
        octets[0] = 5;
        octets[1] = 7;
        abr_verdict verdict = abr_judge(octets, len);
        CHECK(verdict.refusal == ABR_REFUSED_TRACE_RANGE && verdict.rule == 0 && verdict.cell == 0);
        memset(octets, 0, 2);
        CHECK(abr_judge(octets, len).refusal == ABR_REFUSED_TRACE_RANGE);
    }
}

int main(void)
{
    static const int widths[] = {7, 8, 16, 31, 32}, counts[] = {11, 16, 31, 32};
    const size_t size = ((size_t)1 << 32) + 4096;
    uint8_t *octets = mmap(NULL, size, PROT_READ | PROT_WRITE, flags, -1, 0);
    if (octets == MAP_FAILED) {
        perror("mmap");
        return 1;
    }
    CHECK(abr_open(&table, 1, 32, 0, abr_house(0x7FFF, 0x4000, 0x53E8)).refusal == ABR_OK);
    CHECK(abr_offer(&table, 1, 32, 1).refusal == ABR_OK);
    put_cell(octets);
    refused(octets, 0);
    for (size_t i = 0; i < sizeof widths / sizeof widths[0]; i++) {
        refused(octets, ((size_t)1 << widths[i]) + ABR_CELL_OCTETS);
    }
    CHECK(abr_receive(&table, octets, ABR_CELL_OCTETS).refusal == ABR_OK);
    memset(octets, 0, ABR_CELL_OCTETS);
    for (size_t i = 0; i < sizeof widths / sizeof widths[0]; i++) {
        judged(octets, (size_t)1 << widths[i]);
    }
    for (size_t i = 0; i < sizeof counts / sizeof counts[0]; i++) {
        too_many(((size_t)1 << counts[i]) + 1);
    }
    printf("lengths: %s\n", checks_failed ? "FAILED" : "ok");
    return checks_failed != 0;
}
