/* Flags and bytes written, from C: a flag column in the fewest bytes, read back, and levels as byte runs. In a
 * release's folder:
 *
 *     cc -std=c11 -Wall -Wextra -Werror -pedantic -I. rust/menakovitsy/examples/write_flags.c x86-64/libmenakovitsy.a -o write_flags
 */
#include <inttypes.h>
#include <stdio.h>
#include <stdlib.h>

#include "menakovitsy.h"

static void print_bytes(const uint8_t *bytes, uint64_t count)
{
    for (uint64_t k = 0; k < count; k++)
        printf(" %02x", bytes[k]);
    printf("\n");
}

/* 32 windows, the first 24 of them normalised. */
static int write_flags(void)
{
    uint64_t words[ORC_RUN_WORDS];
    uint8_t flags[32], back[32];

    for (size_t k = 0; k < sizeof flags; k++)
        flags[k] = k < 24;
    size_t room = orc_boolean_room(sizeof flags);
    uint8_t *column = malloc(room);
    if (column == NULL)
        return 1;
    if (orc_write_booleans(flags, sizeof flags, column, room, words, ORC_RUN_WORDS) != 0) {
        free(column);
        return 1;
    }
    uint64_t written = words[ORC_RUN_BYTES];
    printf("%" PRIu64 " flags in %" PRIu64 " of %zu bytes:", words[ORC_RUN_ROWS], written, room);
    print_bytes(column, written);
    if (orc_read_booleans(column, written, 0, sizeof back, back, sizeof back, words, ORC_RUN_WORDS) == 0)
        printf("flag 23 is %d, flag 24 is %d\n", back[23], back[24]);
    /* A byte too few: nothing is written, and the size says how many are wanted. */
    if (orc_write_booleans(flags, sizeof flags, column, 3, words, ORC_RUN_WORDS) == ORC_TOO_FEW_PLACES)
        printf("refused: the flags want %" PRIu64 " bytes\n", orc_size_of_booleans(flags, sizeof flags));
    free(column);
    return 0;
}

/* 132 equal levels: 129 and 3 are a byte fewer than 130 and 2. */
static int write_levels(void)
{
    uint64_t words[ORC_BYTES_WRITTEN_WORDS];
    uint8_t levels[132], column[ORC_BYTE_ROOM(132)];

    for (size_t k = 0; k < sizeof levels; k++)
        levels[k] = 5;
    if (orc_write_bytes(levels, sizeof levels, column, sizeof column, words, ORC_BYTES_WRITTEN_WORDS) != 0)
        return 1;
    if (words[ORC_BYTES_WRITTEN_SIZE] != orc_size_of_bytes(levels, sizeof levels))
        return 1;
    printf("%" PRIu64 " levels in %" PRIu64 " bytes:", words[ORC_BYTES_WRITTEN_TAKEN],
           words[ORC_BYTES_WRITTEN_SIZE]);
    print_bytes(column, words[ORC_BYTES_WRITTEN_SIZE]);
    return 0;
}

int main(void)
{
    if (orc_version() != ORC_VERSION) {
        fprintf(stderr, "libmenakovitsy.a is not of this header's version\n");
        return 1;
    }
    return write_flags() || write_levels();
}
