/* A flag column, an integer column and a cut copy of it, from C. In a release's folder:
 *
 *     cc -std=c11 -Wall -Wextra -Werror -pedantic -I. rust/menakovitsy/examples/flags.c x86-64/libmenakovitsy.a -o flags
 */
#include <inttypes.h>
#include <stdio.h>

#include "menakovitsy.h"

int main(void)
{
    /* 32 flags: 24 true, 8 false. */
    static const uint8_t flags[] = {0x00, 0xFF, 0xFF, 0x00};
    /* Five rows of 300; then 1, 2, 3. */
    static const uint8_t column[] = {0x0A, 0x01, 0x2C, 0x46, 0x02, 0x12, 0x30};
    static const uint8_t damaged[] = {0xC2, 0x00};
    uint64_t words[ORC_STREAM_WORDS];
    uint8_t flag[32];
    int64_t rows[ORC_MAX_ROWS];

    if (orc_version() != ORC_VERSION) {
        fprintf(stderr, "libmenakovitsy.a is not of this header's version\n");
        return 1;
    }

    if (orc_read_booleans(flags, sizeof flags, 0, 32, flag, sizeof flag, words, ORC_RUN_WORDS) != 0)
        return 1;
    printf("flag 23 is %d, flag 24 is %d\n", flag[23], flag[24]);

    if (orc_read_stream(column, sizeof column, 0, 0, rows, ORC_MAX_ROWS, words, ORC_STREAM_WORDS) != 0)
        return 1;
    printf("%" PRIu64 " rows from %" PRIu64 " bytes:", words[ORC_STREAM_ROWS],
           words[ORC_STREAM_BYTES]);
    for (uint64_t k = 0; k < words[ORC_STREAM_ROWS]; k++)
        printf(" %" PRId64, rows[k]);
    printf("\n");
    if (words[ORC_STREAM_LAST] == 1 && words[ORC_STREAM_LAST_KIND] == ORC_KIND_DIRECT)
        printf("the last run is direct: %" PRIu64 " rows of %" PRIu64 " bits in %" PRIu64 " bytes\n",
               words[ORC_STREAM_LAST_ROWS], words[ORC_STREAM_LAST_WIDTH], words[ORC_STREAM_LAST_BYTES]);

    /* The same column, cut inside its second run: the rows of the first are there. */
    if (orc_read_stream(column, 5, 0, 0, rows, ORC_MAX_ROWS, words, ORC_STREAM_WORDS) == ORC_ROWS_CUT)
        printf("cut: the run at byte %" PRIu64 " lacks its packed rows, from byte %" PRIu64
               " on; %" PRIu64 " rows are read\n",
               words[ORC_STREAM_PLACE], words[ORC_STREAM_CUT_AT], words[ORC_STREAM_ROWS]);

    /* Damaged: a packed delta with one row. Every refusal has a text, which says what to do. */
    if (orc_read_stream(damaged, sizeof damaged, 0, 0, rows, ORC_MAX_ROWS, words, ORC_STREAM_WORDS) != 0)
        printf("damaged: refusal %" PRIu64 " at byte %" PRIu64 ": %s\n", words[ORC_STREAM_NUMBER],
               words[ORC_STREAM_PLACE], orc_refusal_text(words[ORC_STREAM_NUMBER]));

    /* No words at all: an answer of its own. */
    if (orc_read_stream(column, sizeof column, 0, 0, rows, ORC_MAX_ROWS, NULL, 0) == ORC_TOO_FEW_WORDS)
        printf("a stream's answer has %d words\n", ORC_STREAM_WORDS);
    return 0;
}
