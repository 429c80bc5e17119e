/* The C and C++ tests' check: what fails is counted and printed. */
#ifndef CHECK_H
#define CHECK_H

#include <stdio.h>

static int checks_failed;

#define CHECK(condition)                                                    \
    do {                                                                    \
        if (!(condition)) {                                                 \
            printf("%s:%d: false: %s\n", __FILE__, __LINE__, #condition);   \
            checks_failed++;                                                \
        }                                                                   \
    } while (0)

#endif
