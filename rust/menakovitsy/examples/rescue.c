/* Rows of a damaged column, rescued by the positions that its row index lists. In a release's folder:
 *
 *     cc -std=c11 -Wall -Wextra -Werror -pedantic -I. rust/menakovitsy/examples/rescue.c x86-64/libmenakovitsy.a -o rescue
 */
#include <inttypes.h>
#include <stdio.h>

#include "menakovitsy.h"

#define GROUPS 3
#define ROWS 13

/* Five rows of 300; 1, 2, 3; then 10, 12, 14, 16, 18. The groups begin at rows 0, 3 and 7: the first two runs go
 * on from one group into the next. */
static const uint64_t runs[GROUPS] = {0, 0, 3};
static const uint64_t skips[GROUPS] = {0, 3, 2};
static const uint64_t counts[GROUPS] = {3, 4, 6};

static int rescue(const char *what, const uint8_t *column, size_t length)
{
    uint64_t words[ORC_RESCUE_WORDS];
    int64_t rows[ROWS];
    uint8_t verdicts[GROUPS];

    if (orc_rescue(column, length, runs, GROUPS, skips, GROUPS, counts, GROUPS, -1, 0, rows, ROWS, verdicts,
                   GROUPS, words, ORC_RESCUE_WORDS) != 0) {
        printf("%s: refusal %" PRIu64 "\n", what, words[ORC_RESCUE_NUMBER]);
        return 0;
    }
    printf("%s: %" PRIu64 " of %d groups kept:", what, words[ORC_RESCUE_KEPT], GROUPS);
    for (uint64_t group = 0, row = 0; group < GROUPS; group++) {
        printf(verdicts[group] == 1 ? " kept" : " replaced");
        for (uint64_t end = row + counts[group]; row < end; row++)
            printf(" %" PRId64, rows[row]);
    }
    printf("\n");
    return words[ORC_RESCUE_ROWS] == ROWS ? 0 : 1;
}

int main(void)
{
    uint8_t column[] = {0x0A, 0x01, 0x2C, 0x46, 0x02, 0x12, 0x30, 0xC0, 0x04, 0x0A, 0x04};

    if (orc_version() != ORC_VERSION) {
        fprintf(stderr, "libmenakovitsy.a is not of this header's version\n");
        return 1;
    }
    if (rescue("whole", column, sizeof column))
        return 1;
    column[7] = 0xFF;
    if (rescue("the last run damaged", column, sizeof column))
        return 1;
    return rescue("cut before the last group begins", column, 2);
}
