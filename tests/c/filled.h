/* A stack with a pattern in it, to find what a call leaves unwritten in its answer. */
#ifndef FILLED_H
#define FILLED_H

#include <stddef.h>
#include <stdint.h>

/* Fills the octets below the caller's frame, where the function that it calls next has its own. */
__attribute__((noinline)) static void fill_stack(int pattern)
{
    volatile uint8_t octets[2048];
    for (size_t i = 0; i < sizeof octets; i++) {
        octets[i] = (uint8_t)pattern;
    }
}

#endif
