/*
 * One call in its costliest known case (cases.h), for an instruction count: worst [CASE]. The call is in measured().
 */
#include <stdio.h>

#include "cases.h"

void measured(const abr_case *which);

__attribute__((noinline, noclone)) void measured(const abr_case *which)
{
    which->call();
}

/* Without an argument: the names of the cases. With a name: that case. */
int main(int argc, char **argv)
{
    for (size_t i = 0; i < CASES; i++) {
        if (argc < 2) {
            puts(cases[i].name);
        } else if (strcmp(argv[1], cases[i].name) == 0) {
            if (prepare(&cases[i])) {
                return 1;
            }
            measured(&cases[i]);
            return !accepted(&cases[i]);
        }
    }
    return argc > 1;
}
