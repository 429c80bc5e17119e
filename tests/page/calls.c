/*
 * What the page must show, from the library for this processor. Reads requests, one in a line, and answers each with a
 * line of numbers:
 *   read OCTETS             refusal, kind, efci and the fields of an RM cell (abr_read)
 *   write FIELD..           refusal and octets (abr_write_rm), the twelve fields in their order
 *   rate CODE               refusal and rate (abr_rate)
 *   code RATE               refusal and code (abr_code)
 *   import CELLS            refusal, code and remainder (abr_import)
 *   judge FILE              refusal, rule and cell (abr_judge), with the octets of a file
 * Octets are in hexadecimal, without anything between them.
 */
#include <inttypes.h>
#include <stdio.h>
#include <stdlib.h>
#include <string.h>

#include "abr.h"

/* The octets of a text in hexadecimal; how many. */
static size_t octets(const char *text, uint8_t *to, size_t most)
{
    size_t count = 0;
    unsigned octet;
    while (count < most && sscanf(text + 2 * count, "%2x", &octet) == 1) {
        to[count++] = (uint8_t)octet;
    }
    return count;
}

static void answer_read(const char *text)
{
    uint8_t cell[64];
    abr_cell read = abr_read(cell, octets(text, cell, sizeof cell));
    abr_rm rm = read.rm;
    printf("%u %u %u", (unsigned)read.refusal, (unsigned)read.kind, (unsigned)read.efci);
    const uint32_t fields[] = {rm.vpi, rm.vci, rm.dir, rm.bn, rm.ci, rm.ni, rm.ra, rm.er, rm.ccr, rm.mcr, rm.ql, rm.sn};
    for (size_t i = 0; i < sizeof fields / sizeof *fields; i++) {
        printf(" %u", (unsigned)fields[i]);
    }
}

static void answer_write(char *text)
{
    uint32_t f[12];
    for (int i = 0; i < 12; i++) {
        f[i] = (uint32_t)strtoul(text, &text, 0);
    }
    abr_rm rm = {f[0], f[1], f[2], f[3], f[4], f[5], f[6], f[7], f[8], f[9], f[10], f[11]};
    uint8_t cell[ABR_CELL_OCTETS] = {0};
    printf("%u ", (unsigned)abr_write_rm(rm, cell, sizeof cell));
    for (size_t i = 0; i < sizeof cell; i++) {
        printf("%02x", cell[i]);
    }
}

static void answer_judge(const char *path)
{
    FILE *file = fopen(path, "rb");
    if (!file || fseek(file, 0, SEEK_END)) {
        printf("no file");
        return;
    }
    size_t len = (size_t)ftell(file);
    uint8_t *trace = malloc(len + 1);
    rewind(file);
    abr_verdict verdict = abr_judge(trace, trace ? fread(trace, 1, len, file) : 0);
    printf("%u %u %" PRIu64, (unsigned)verdict.refusal, (unsigned)verdict.rule, verdict.cell);
    free(trace);
    fclose(file);
}

int main(void)
{
    static char line[4096];
    while (fgets(line, sizeof line, stdin)) {
        line[strcspn(line, "\n")] = 0;
        char *behind = strchr(line, ' ');
        if (!behind) {
            return 1;
        }
        *behind++ = 0;
        if (!strcmp(line, "read")) {
            answer_read(behind);
        } else if (!strcmp(line, "write")) {
            answer_write(behind);
        } else if (!strcmp(line, "rate")) {
            abr_rated rated = abr_rate((uint32_t)strtoul(behind, NULL, 0));
            printf("%u %" PRIu64, (unsigned)rated.refusal, rated.rate);
        } else if (!strcmp(line, "code")) {
            abr_coded coded = abr_code(strtoull(behind, NULL, 0));
            printf("%u %u", (unsigned)coded.refusal, (unsigned)coded.code);
        } else if (!strcmp(line, "import")) {
            abr_imported imported = abr_import(strtod(behind, NULL));
            printf("%u %u %.17g", (unsigned)imported.refusal, (unsigned)imported.code, imported.remainder);
        } else if (!strcmp(line, "judge")) {
            answer_judge(behind);
        }
        printf("\n");
    }
    return 0;
}
