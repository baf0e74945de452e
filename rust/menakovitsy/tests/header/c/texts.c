/* The text of each number: a line with the number, a tab and the text. */
#include <inttypes.h>
#include <stdio.h>

#include "menakovitsy.h"

static void print_text(uint64_t number)
{
    printf("%" PRIu64 "\t%s\n", number, orc_refusal_text(number));
}

int main(void)
{
    for (uint64_t number = 0; number <= 64; number++)
        print_text(number);
    print_text(ORC_RUN - 1);
    print_text(ORC_RUN);
    print_text(ORC_TOO_FEW_WORDS - 1);
    print_text(ORC_TOO_FEW_WORDS);
    return 0;
}
