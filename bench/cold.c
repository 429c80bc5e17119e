/*
 * The time of each call on a table in its costliest known case (cases.h), with the table and the cell in the caches and
 * with both flushed from them, as other work leaves them on a loaded machine. The code stays in the caches. A median
 * and what 99 of 100 calls took, in nanoseconds, less the median of measuring nothing. These are figures of the machine
 * that it runs on. With the names of cases, only these and only the flushed median, a line each (bench/compare).
 */
#define _POSIX_C_SOURCE 199309L
#include <emmintrin.h>
#include <stdio.h>
#include <stdlib.h>
#include <time.h>

#include "cases.h"

enum { CALLS = 1000, LINE = 64 };

static abr_table prepared[2];
static uint8_t prepared_cell[ABR_CELL_OCTETS];
static uint64_t taken[CALLS];

static void call_nothing(void) { __asm__ volatile("" ::: "memory"); }

/* The octets of a table of the library that is linked. */
static size_t table_octets(void)
{
    return (size_t)abr_table_words() * sizeof(uint64_t);
}

static void flush(const void *from, size_t octets)
{
    const uint8_t *first = from;
    for (size_t i = 0; i < octets; i += LINE) {
        _mm_clflush(first + i);
    }
    _mm_clflush(first + octets - 1);
    _mm_mfence();
}

static uint64_t clock_now(void)
{
    struct timespec now;
    clock_gettime(CLOCK_MONOTONIC, &now);
    return (uint64_t)now.tv_sec * SECOND + (uint64_t)now.tv_nsec;
}

static int by_size(const void *a, const void *b)
{
    uint64_t x = *(const uint64_t *)a, y = *(const uint64_t *)b;
    return (x > y) - (x < y);
}

/* Times a call many times, each on the prepared table and cell; the times are sorted afterwards. */
static void time_calls(void (*call)(void), int cold)
{
    for (unsigned i = 0; i < CALLS; i++) {
        memcpy(table, prepared, table_octets());
        memcpy(cell, prepared_cell, sizeof cell);
        if (cold) {
            flush(table, table_octets());
            flush(cell, sizeof cell);
        }
        uint64_t before = clock_now();
        call();
        taken[i] = clock_now() - before;
    }
    qsort(taken, CALLS, sizeof taken[0], by_size);
}

/* A median or a later place, less what measuring nothing takes. */
static uint64_t at_hundredth(unsigned hundredth, uint64_t nothing)
{
    uint64_t time = taken[CALLS / 100 * hundredth - 1];
    return time > nothing ? time - nothing : 0;
}

/* Prepares a case and keeps it, to be measured many times; 1 if a call is refused. */
static int keep(const abr_case *which)
{
    int wrong = prepare(which);
    memcpy(prepared, table, table_octets());
    memcpy(prepared_cell, cell, sizeof cell);
    return wrong;
}

/* A row of the table; 1 if the call is refused. */
static int measure(const abr_case *which, uint64_t nothing)
{
    if (keep(which)) {
        return 1;
    }
    printf("| %s ", which->name);
    for (int cold = 0; cold < 2; cold++) {
        time_calls(which->call, cold);
        printf("| %llu | %llu ", (unsigned long long)at_hundredth(50, nothing),
               (unsigned long long)at_hundredth(99, nothing));
    }
    puts("|");
    return !accepted(which);
}

/* The flushed median of a case; 1 if the call is refused. */
static int measure_flushed(const abr_case *which, uint64_t nothing)
{
    if (keep(which)) {
        return 1;
    }
    time_calls(which->call, 1);
    printf("%s\t%llu\n", which->name, (unsigned long long)at_hundredth(50, nothing));
    return !accepted(which);
}

/* Whether a case is named; without names all those of the calls on a table. */
static int is_named(const abr_case *which, int count, char **names)
{
    for (int i = 0; i < count; i++) {
        if (strcmp(names[i], which->name) == 0) {
            return 1;
        }
    }
    return count == 0;
}

/* The calls on a table come first in the list of cases, up to the first that has none. */
int main(int argc, char **argv)
{
    int wrong = table_octets() > sizeof room;
    uint64_t nothing;
    time_calls(call_nothing, 0);
    nothing = at_hundredth(50, 0);
    if (argc == 1) {
        puts("| call | cached ns | 99 % | flushed ns | 99 % |\n|---|---:|---:|---:|---:|");
    }
    for (size_t i = 0; i < CASES && !wrong && cases[i].call != call_write_rm; i++) {
        if (is_named(&cases[i], argc - 1, argv + 1)) {
            wrong = argc == 1 ? measure(&cases[i], nothing) : measure_flushed(&cases[i], nothing);
        }
    }
    return wrong;
}
