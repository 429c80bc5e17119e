/*
 * Traces between two pages that cannot be read: guard [ROUNDS]. Each is judged where it
 * ends right before the second page, where it begins right behind the first one, and
 * between other octets. The verdict is the same, and no octet outside is read, since that
 * would end the program. Among the traces are all prefixes of one that passes, those with
 * one octet that says that more follow, and random ones.
 */
#define _DEFAULT_SOURCE
#include <stdlib.h>
#include <string.h>
#include <sys/mman.h>
#include <unistd.h>

#include "abr.h"
#include "check.h"

enum { MOST = 64 };

/* n 2 and Trm 100 ms; four cells, the last one forward, with numbers of one to nine octets. */
static const uint8_t passes[] = {2, 7, 0, 1, 0, 0xC0, 0x84, 0x3D, 3, 0x80, 0xA0, 0x1F, 1, 2, 0x80, 0x80, 0x80,
                                 0x80, 0xF8, 0x3F, 1, 3, 0x80, 0x80, 0x80, 0x80, 0xF8, 0x3F, 0xFF, 0xFF, 0xFF,
                                 0xFF, 0xFF, 0xFF, 0xFF, 0xFF, 0x1F, 1, 0x80, 0xA0, 0x1F};
static const size_t ends[] = {2, 5, 12, 20, 28, sizeof passes}; /* of its records */

static uint8_t *page;
static size_t size;
static uint64_t state = 0x9E3779B97F4A7C15;

static uint64_t next(void)
{
    state ^= state >> 12;
    state ^= state << 25;
    state ^= state >> 27;
    return state * UINT64_C(0x2545F4914F6CDD1D);
}

static int same(abr_verdict a, abr_verdict b)
{
    return a.refusal == b.refusal && a.rule == b.rule && a.cell == b.cell;
}

/* Judges a trace in the three places. */
static abr_verdict judged(const uint8_t *trace, size_t len)
{
    static const uint8_t others[] = {0x00, 0x01, 0x80, 0xFF};
    uint8_t between[MOST + 2];
    memmove(page + size - len, trace, len);
    abr_verdict verdict = abr_judge(page + size - len, len);
    CHECK(memcmp(page + size - len, trace, len) == 0);
    memmove(page, trace, len);
    CHECK(same(abr_judge(page, len), verdict));
    for (unsigned i = 0; i < sizeof others; i++) {
        memset(between, others[i], sizeof between);
        memcpy(between + 1, trace, len);
        CHECK(same(abr_judge(between + 1, len), verdict));
    }
    CHECK(!verdict.refusal || (verdict.rule == 0 && verdict.cell == 0));
    CHECK(verdict.rule <= ABR_RULE_FORWARD && (verdict.rule == 0) == (verdict.cell == 0));
    return verdict;
}

/* Every prefix passes where a record ends, and else ends inside one. */
static void prefixes(void)
{
    for (size_t len = 0; len <= sizeof passes; len++) {
        uint32_t refusal = ABR_REFUSED_TRACE_END;
        for (unsigned i = 0; i < sizeof ends / sizeof ends[0]; i++) {
            refusal = ends[i] == len ? ABR_OK : refusal;
        }
        abr_verdict verdict = judged(passes, len);
        CHECK(verdict.refusal == refusal && verdict.rule == ABR_RULE_NONE);
    }
}

/* One octet says that more follow, or has another bit changed, with the end behind it at any place. */
static void changed(void)
{
    uint8_t trace[sizeof passes];
    for (size_t at = 0; at < sizeof trace; at++) {
        for (int bit = 0; bit < 8; bit++) {
            memcpy(trace, passes, sizeof trace);
            trace[at] ^= (uint8_t)(1 << bit);
            for (size_t len = at + 1; len <= sizeof trace; len++) {
                abr_verdict verdict = judged(trace, len);
                CHECK(verdict.refusal == ABR_OK || verdict.refusal >= ABR_REFUSED_TRACE_NUMBER);
            }
        }
    }
}

/* Numbers that do not end, of every length. */
static void unending(void)
{
    uint8_t trace[MOST];
    memset(trace, 0xFF, sizeof trace);
    for (size_t len = 1; len <= MOST; len++) {
        CHECK(judged(trace, len).refusal == (len < 10 ? ABR_REFUSED_TRACE_END : ABR_REFUSED_TRACE_NUMBER));
    }
}

static void random_octets(unsigned long rounds)
{
    uint8_t trace[MOST];
    for (unsigned long round = 0; round < rounds; round++) {
        size_t len = (size_t)(next() % (MOST + 1));
        uint8_t mask = next() % 2 ? 0x83 : 0xFF;
        for (size_t i = 0; i < len; i++) {
            trace[i] = (uint8_t)next() & mask;
        }
        memcpy(trace, passes, next() % 2 && len > 5 ? 5 : 0);
        (void)judged(trace, len);
    }
}

int main(int argc, char **argv)
{
    unsigned long rounds = argc > 1 ? strtoul(argv[1], NULL, 10) : 200000;
    size = (size_t)sysconf(_SC_PAGESIZE);
    uint8_t *pages = mmap(NULL, 3 * size, PROT_NONE, MAP_PRIVATE | MAP_ANONYMOUS, -1, 0);
    if (pages == MAP_FAILED || mprotect(pages + size, size, PROT_READ | PROT_WRITE)) {
        perror("mmap");
        return 1;
    }
    page = pages + size;
    prefixes();
    changed();
    unending();
    random_octets(rounds);
    printf("guard: %s\n", checks_failed ? "FAILED" : "ok");
    return checks_failed != 0;
}
