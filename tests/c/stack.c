/*
 * The stack that each call uses, measured: stack [MOST]. Each call is an accepted
 * one in its costliest known case (bench/cases.h) and runs on a stack of its own,
 * filled with a pattern before; the lowest octet that changed gives the depth.
 * It is counted from the caller's frame: the arguments that are passed on the
 * stack, the answer, the return address, the frames of the library and what a
 * leaf function writes into the red zone, the 128 octets below the stack pointer
 * that the System V ABI leaves to it. Fails if a call uses more than MOST octets
 * (default 1,024), or is refused.
 */
#define _XOPEN_SOURCE 700
#include <stdio.h>
#include <stdlib.h>
#include <ucontext.h>

#include "../../bench/cases.h"

enum { SIZE = 1 << 16 };

static uint8_t stack[SIZE] __attribute__((aligned(64)));
static ucontext_t here, there;
static void (*volatile chosen)(void);
static uint8_t *top;

static void nothing(void) { __asm__ volatile("" ::: "memory"); }

static void run(void)
{
    top = __builtin_frame_address(0);
    chosen();
}

/* How far below its caller's frame a call wrote, on a stack with this pattern. */
static size_t depth(void (*call)(void), int pattern)
{
    size_t unchanged = 0;
    memset(stack, pattern, SIZE);
    getcontext(&there);
    there.uc_stack.ss_sp = stack;
    there.uc_stack.ss_size = SIZE;
    there.uc_link = &here;
    chosen = call;
    makecontext(&there, run, 0);
    swapcontext(&here, &there);
    while (unchanged < SIZE && stack[unchanged] == pattern) {
        unchanged++;
    }
    return (size_t)(top - stack) - unchanged;
}

/*
 * Two patterns: an octet may be written with the value that it had. The call is made once before, on the usual stack:
 * the loader may bind memcpy when it is first called, and that is no stack of the library.
 */
static int measure(const abr_case *which, size_t most)
{
    static const int patterns[] = {0xC3, 0x3C};
    size_t used = 0;
    if (prepare(which) == 0) {
        which->call();
    }
    for (int i = 0; i < 2; i++) {
        if (prepare(which)) {
            printf("  %s: not prepared\n", which->name);
            return 1;
        }
        size_t base = depth(nothing, patterns[i]), whole = depth(which->call, patterns[i]);
        if (!accepted(which)) {
            printf("  %s: refused, or of another kind\n", which->name);
            return 1;
        }
        used = whole - base > used ? whole - base : used;
    }
    printf("  %-24s %4zu octets of stack%s\n", which->name, used, used > most ? ": too much" : "");
    return used > most;
}

int main(int argc, char **argv)
{
    size_t most = argc > 1 ? strtoul(argv[1], NULL, 10) : 1024;
    int wrong = 0;
    for (size_t i = 0; i < CASES; i++) {
        wrong |= measure(&cases[i], most);
    }
    printf("stack: %s\n", wrong ? "FAILED" : "ok");
    return wrong;
}
