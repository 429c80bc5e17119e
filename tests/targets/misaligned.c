/*
 * The kernel flavour for x86-64 on a stack that is aligned to eight octets alone, as a kernel may have it: misaligned.
 * Every slot is called once with the stack at a multiple of 16 and once eight octets below it, on two tables, and both
 * must answer alike. (A compiler's usual code for x86-64 may count on 16.)
 */
#include <stdio.h>
#include <string.h>

#include "abr.h"

#ifndef __x86_64__
#error "for x86-64 alone"
#endif

/* calls f(a, b, c, d, e) with the stack `below` octets under a multiple of 16; f answers a struct at a, or nothing */
static void on_stack(size_t below, void *f, void *a, void *b, uint64_t c, void *d, uint64_t e)
{
    register void *r1 __asm__("rdi") = a;
    register void *r2 __asm__("rsi") = b;
    register uint64_t r3 __asm__("rdx") = c;
    register void *r4 __asm__("rcx") = d;
    register uint64_t r5 __asm__("r8") = e;
    __asm__ volatile("mov %%rsp, %%rbx\n\tsub $256, %%rsp\n\tand $-16, %%rsp\n\tsub %[below], %%rsp\n\tcall *%[f]\n\tmov %%rbx, %%rsp"
                     : "+r"(r1), "+r"(r2), "+r"(r3), "+r"(r4), "+r"(r5)
                     : [below] "r"(below), [f] "r"(f)
                     : "rax", "rbx", "r9", "r10", "r11", "memory", "cc");
}

static abr_table tables[2];

int main(void)
{
    unsigned sent = 0;
    uint8_t cells[2][ABR_CELL_OCTETS];
    for (int i = 0; i < 2; i++) {
        abr_params params = abr_house(0x5BE8, 0x53E8, 0x5BE8);
        for (uint32_t vci = 32; vci < 40; vci++) {
            if (abr_open(&tables[i], 1, vci, 0, params).refusal || abr_offer(&tables[i], 1, vci, 60000).refusal) {
                return 1;
            }
        }
    }
    for (uint64_t time = 0; time < 2000000000; time += 40000) {
        abr_sent answers[2];
        for (int i = 0; i < 2; i++) {
            memset(&answers[i], i == 0 ? 0xA5 : 0x5A, sizeof answers[i]); /* every octet of an answer is written */
            memset(cells[i], 0, ABR_CELL_OCTETS);
            on_stack(i == 0 ? 0 : 8, (void *)(uintptr_t)abr_slot, &answers[i], &tables[i], time, cells[i], ABR_CELL_OCTETS);
        }
        if (memcmp(&answers[0], &answers[1], sizeof answers[0]) || memcmp(cells[0], cells[1], ABR_CELL_OCTETS)) {
            printf("misaligned: slots differ at %llu\n", (unsigned long long)time);
            return 1;
        }
        sent += answers[0].kind != 0;
    }
    if (memcmp(&tables[0], &tables[1], sizeof tables[0]) || sent < 1000) {
        printf("misaligned: the tables differ, or %u cells are too few\n", sent);
        return 1;
    }
    printf("misaligned: %u cells alike\n", sent);
    return 0;
}
