/*
 * The standards' published vectors through the C interface, on any processor: vectors. The two checks are computed here
 * by long division, bit by bit, held to the catalogues' values of the nine octets "123456789" and to the headers that
 * ITU-T I.432 gives octet by octet, and then to what the library reads and writes. Beside them document 01's values of
 * rates and codes.
 */
#include <string.h>

#include "../c/check.h"
#include "abr.h"

/* the remainder of some bits times x^width by a generator without its highest term */
static unsigned remainder_of(const uint8_t *octets, size_t bits, unsigned width, unsigned generator)
{
    unsigned rest = 0;
    for (size_t i = 0; i < bits; i++) {
        unsigned bit = octets[i / 8] >> (7 - i % 8) & 1u, top = rest >> (width - 1) & 1u;
        rest = (rest << 1 & ((1u << width) - 1)) ^ (top ^ bit ? generator : 0u);
    }
    return rest;
}

static uint8_t header_check(const uint8_t *octets) { return (uint8_t)(remainder_of(octets, 32, 8, 0x07) ^ 0x55); }
static unsigned payload_check(const uint8_t *octets) { return remainder_of(octets, 374, 10, 0x233); }

/* a header and its octet 5 of I.432: with it the payload type decides, with any other the check does */
static void header(uint8_t last, uint8_t check, uint32_t refusal)
{
    uint8_t cell[ABR_CELL_OCTETS] = {0, 0, 0, last, check};
    CHECK(header_check(cell) == check);
    CHECK(abr_read(cell, sizeof cell).refusal == refusal);
    for (unsigned other = 0; other < 256; other++) {
        cell[4] = (uint8_t)other;
        CHECK(other == check || abr_read(cell, sizeof cell).refusal == ABR_REFUSED_HEADER_CHECK);
    }
}

/* a written cell has both checks, and with another CRC it is refused */
static void written(abr_rm fields)
{
    uint8_t cell[ABR_CELL_OCTETS];
    memset(cell, 0xA5, sizeof cell);
    CHECK(abr_write_rm(fields, cell, sizeof cell) == ABR_OK);
    CHECK(cell[4] == header_check(cell));
    CHECK(((cell[51] & 3u) << 8 | cell[52]) == payload_check(cell + 5));
    abr_cell read = abr_read(cell, sizeof cell);
    CHECK(read.refusal == ABR_OK && read.kind == ABR_CELL_RM);
    CHECK(read.rm.vpi == fields.vpi && read.rm.vci == fields.vci && read.rm.sn == fields.sn && read.rm.ql == fields.ql);
    CHECK(read.rm.er == fields.er && read.rm.ccr == fields.ccr && read.rm.mcr == fields.mcr);
    for (unsigned bit = 0; bit < 10; bit++) {
        cell[52 - bit / 8] ^= (uint8_t)(1u << bit % 8);
        CHECK(abr_read(cell, sizeof cell).refusal == ABR_REFUSED_CRC);
        cell[52 - bit / 8] ^= (uint8_t)(1u << bit % 8);
    }
}

static void rates(void)
{
    CHECK(abr_rate(0x4000).rate == 512 && abr_rate(0x7FFF).rate == ABR_RATE_MAX);
    CHECK(abr_code(512000).code == 0x53E8 && abr_code(1023).code == 0x41FF && abr_code(1025).code == 0x4200);
    CHECK(abr_code(511).code == 0x0000 && abr_code(ABR_RATE_MAX + 1).refusal == ABR_REFUSED_TOO_LARGE);
    for (uint32_t code = 0x4000; code < 0x8000; code++) {
        CHECK(abr_code(abr_rate(code).rate).code == code);
    }
}

int main(void)
{
    const uint8_t *nine = (const uint8_t *)"123456789";
    CHECK(remainder_of(nine, 72, 10, 0x233) == 0x199);
    CHECK(remainder_of(nine, 72, 8, 0x07) == 0xF4);
    header(0x00, 0x55, ABR_OK);                   /* unassigned */
    header(0x01, 0x52, ABR_OK);                   /* idle */
    header(0x03, 0x5C, ABR_OK);                   /* physical layer OAM, F1 */
    header(0x09, 0x6A, ABR_REFUSED_PAYLOAD_TYPE); /* physical layer OAM, F3: payload type 4 */
    abr_rm fields = {0};
    for (uint32_t i = 0; i < 256; i++) {
        fields.vpi = i;
        fields.vci = i * 257;
        fields.dir = i & 1, fields.bn = i >> 1 & 1, fields.ci = i >> 2 & 1, fields.ni = i >> 3 & 1, fields.ra = i >> 4 & 1;
        fields.er = i * 128, fields.ccr = 0x7FFF - i, fields.mcr = i;
        fields.ql = i * 0x01020304, fields.sn = ~fields.ql;
        written(fields);
    }
    rates();
    printf("vectors: %s\n", checks_failed ? "FAILED" : "ok");
    return checks_failed != 0;
}
