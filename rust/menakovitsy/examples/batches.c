/* Columns as a loader reads them, from C: flags and rows in batches, rows that are missing, and the names of
 * all rows. In a release's folder:
 *
 *     cc -std=c11 -Wall -Wextra -Werror -pedantic -I. rust/menakovitsy/examples/batches.c x86-64/libmenakovitsy.a -o batches
 */
#include <inttypes.h>
#include <stdio.h>

#include "menakovitsy.h"

/* The first 24 flags of this column are true: ten, and then ten more, from inside the same run. */
static int flags_in_batches(void)
{
    static const uint8_t column[] = {0x00, 0xFF, 0x00, 0x00};
    uint64_t words[ORC_FLAGS_WORDS];
    uint64_t run = 0, bytes = 0, bits = 0;
    uint8_t flags[10];

    for (int batch = 0; batch < 2; batch++) {
        if (orc_read_flags(column, sizeof column, run, bytes, bits, 10, flags, sizeof flags, words,
                           ORC_FLAGS_WORDS) != 0)
            return 1;
        printf("flags: ");
        for (uint64_t k = 0; k < words[ORC_FLAGS_GIVEN]; k++)
            printf("%d", flags[k]);
        run = words[ORC_FLAGS_NEXT_RUN];
        bytes = words[ORC_FLAGS_NEXT_BYTES];
        bits = words[ORC_FLAGS_NEXT_BITS];
        printf(", next at byte %" PRIu64 ", byte %" PRIu64 ", bit %" PRIu64 "\n", run, bytes, bits);
    }
    return 0;
}

/* How many flags of a column are true: the bytes that it stands for are counted, not the column. */
static int count_flags(void)
{
    static const uint8_t column[] = {0x00, 0xFF, 0xFF, 0x00};
    uint64_t words[ORC_BYTES_WORDS], counted[ORC_COUNT_WORDS];
    uint8_t packed[4];

    if (orc_read_bytes(column, sizeof column, 0, 0, 4, packed, sizeof packed, words, ORC_BYTES_WORDS) != 0)
        return 1;
    if (orc_count_true(packed, words[ORC_BYTES_GIVEN], 32, counted, ORC_COUNT_WORDS) != 0)
        return 1;
    printf("%" PRIu64 " of 32 flags are true\n", counted[ORC_COUNT_TRUE]);
    return 0;
}

/* Five rows of 300; then 1, 2, 3: in batches of three. */
static int rows_in_batches(void)
{
    static const uint8_t column[] = {0x0A, 0x01, 0x2C, 0x46, 0x02, 0x12, 0x30};
    uint64_t words[ORC_BATCH_WORDS];
    uint64_t run = 0, skip = 0;
    int64_t rows[3];

    while (orc_read_rows(column, sizeof column, run, skip, 0, rows, 3, words, ORC_BATCH_WORDS) == 0
           && words[ORC_BATCH_CASE] == ORC_CASE_READ) {
        printf("%" PRIu64 " rows:", words[ORC_BATCH_ROWS]);
        for (uint64_t k = 0; k < words[ORC_BATCH_ROWS]; k++)
            printf(" %" PRId64, rows[k]);
        run = words[ORC_BATCH_NEXT_RUN];
        skip = words[ORC_BATCH_NEXT_SKIP];
        printf(", next at byte %" PRIu64 ", %" PRIu64 " to skip\n", run, skip);
    }
    if (words[ORC_BATCH_CASE] != ORC_CASE_END)
        return 1;
    printf("the column has ended\n");
    return 0;
}

/* A row for each flag that is not 0; -1 for each that is missing. */
static int rows_that_are_missing(void)
{
    static const uint8_t flags[] = {1, 0, 1, 1};
    static const int64_t rows[] = {300, 300, 300};
    uint64_t words[ORC_SPREAD_WORDS];
    int64_t column[4];

    if (orc_spread(flags, 4, rows, 3, -1, column, 4, words, ORC_SPREAD_WORDS) != 0)
        return 1;
    printf("with the missing ones:");
    for (uint64_t k = 0; k < words[ORC_SPREAD_ROWS]; k++)
        printf(" %" PRId64, column[k]);
    printf("\n");
    if (orc_spread(flags, 4, rows, 2, -1, column, 4, words, ORC_SPREAD_WORDS) == ORC_NOT_LINED_UP)
        printf("refusal %" PRIu64 ": flags and rows are not lined up\n", words[ORC_SPREAD_NUMBER]);
    return 0;
}

/* What each row is called. */
static int names(void)
{
    static const char block[] = "drumsvocals";
    static const int64_t lengths[] = {5, 6};
    static const int64_t numbers[] = {1, 0};
    static const uint8_t flags[] = {1, 0, 1};
    uint64_t words[ORC_LABELS_WORDS];
    uint64_t offsets[2], starts[3], sizes[3];

    if (orc_label_column(flags, 3, numbers, 2, lengths, 2, sizeof block - 1, offsets, 2, starts, 3, sizes, 3,
                         words, ORC_LABELS_WORDS) != 0)
        return 1;
    printf("names:");
    for (uint64_t k = 0; k < words[ORC_LABELS_ROWS]; k++) {
        const char *comma = k + 1 < words[ORC_LABELS_ROWS] ? "," : "";
        if (flags[k] != 0)
            printf(" %.*s%s", (int)sizes[k], block + starts[k], comma);
        else
            printf(" none%s", comma);
    }
    printf("\n");
    return 0;
}

int main(void)
{
    if (orc_version() != ORC_VERSION) {
        fprintf(stderr, "libmenakovitsy.a is not of this header's version\n");
        return 1;
    }
    return flags_in_batches() || count_flags() || rows_in_batches() || rows_that_are_missing() || names();
}
