/*
 * The edition of the linked library, by its own answers: how many connections can be open, the comparisons of a call
 * that replays every round of the tournament, and the octets of a table. With a header of another edition or version
 * it makes no call on a table, says so and fails.
 */
#include <stdio.h>

#include "abr.h"

static abr_table table;

int main(void)
{
    abr_opened opened;
    abr_answer offered;
    if (!abr_matches()) {
        printf("abr.h and the library do not belong together\n");
        return 1;
    }
    opened = abr_open(&table, 1, 32, 0, abr_house(0x53E8, 0x4000, 0x53E8));
    offered = abr_offer(&table, 1, 32, 1);
    if (opened.refusal != ABR_OK || offered.refusal != ABR_OK) {
        return 1;
    }
    printf("%u connections, at most %u comparisons in a call, %u octets in a table\n",
           (unsigned)abr_link(&table).connections_max, (unsigned)offered.comparisons, 8 * (unsigned)abr_table_words());
    return 0;
}
