/* What tests/c/manual.c and contracts.c run: the blocks of text that docs/MANUAL.md has, each behind its name, then the
 * checks of its sentences. */
#ifndef BLOCKS_H
#define BLOCKS_H

#include <stddef.h>

#include "check.h"

typedef struct block {
    const char *name;
    void (*print)(void);
} block;

typedef void (*check)(void);

/* Prints and checks all of them; the status of the program. */
static int print_and_check(const block *blocks, size_t printed, const check *checks, size_t checked)
{
    for (size_t each = 0; each < printed; each++) {
        printf("-- %s\n", blocks[each].name);
        blocks[each].print();
    }
    for (size_t each = 0; each < checked; each++) {
        checks[each]();
    }
    return checks_failed != 0;
}

#define PRINT_AND_CHECK(blocks, checks) \
    print_and_check(blocks, sizeof(blocks) / sizeof(blocks)[0], checks, sizeof(checks) / sizeof(checks)[0])

#endif
