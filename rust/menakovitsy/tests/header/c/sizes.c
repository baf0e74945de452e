/* Each macro with a size: a line with its name, for room the number of elements that it is for, and its value. */
#include <inttypes.h>
#include <stdio.h>

#include "menakovitsy.h"

#define PRINT(name) printf(#name " %" PRIu64 "\n", (uint64_t)(name))
#define PRINT_ROOM(name, count) printf(#name " %" PRIu64 " %" PRIu64 "\n", (uint64_t)(count), (uint64_t)name(count))

/* A macro of room may be an array's size. */
typedef uint8_t column[ORC_COLUMN_ROOM(1000)];
typedef uint8_t flags[ORC_BOOLEAN_ROOM(1000) + ORC_BYTE_ROOM(1000)];
typedef uint64_t entries[ORC_INDEX_ROOM(sizeof(column))];
typedef uint8_t converted[ORC_CONVERT_ROOM(sizeof(column))];

int main(void)
{
    PRINT(ORC_VERSION);
    PRINT(ORC_TOO_FEW_WORDS);
    PRINT(ORC_STATE_WORDS);
    PRINT(ORC_MAX_WORDS);
    PRINT(ORC_MAX_ROWS);
    PRINT(ORC_MAX_RUN_BYTES);
    PRINT(ORC_MAX_WRITTEN);
    PRINT(ORC_MAX_ROWS_BYTES);
    PRINT(ORC_MIN_REPEAT_ROWS);
    PRINT(ORC_MAX_REPEAT_ROWS);
    PRINT(ORC_MAX_REPEAT_WIDTH);
    PRINT(ORC_MAX_PATCHES);
    PRINT(ORC_MAX_PATCH_BITS);
    PRINT(ORC_MAX_FILL_BYTES);
    PRINT(ORC_MAX_REPORT_LINE);
    for (size_t count = 0; count < 2100; count++) {
        PRINT_ROOM(ORC_COLUMN_ROOM, count);
        PRINT_ROOM(ORC_BYTE_ROOM, count);
        PRINT_ROOM(ORC_BOOLEAN_ROOM, count);
        PRINT_ROOM(orc_byte_room, count);
        PRINT_ROOM(orc_boolean_room, count);
        PRINT_ROOM(ORC_CONVERT_ROOM, count);
        PRINT_ROOM(ORC_INDEX_ROOM, count);
    }
    /* an int, and more than an int holds: the macros count in 64 bits */
    PRINT_ROOM(ORC_COLUMN_ROOM, 1000000000);
    PRINT_ROOM(ORC_CONVERT_ROOM, 2000000000);
    printf("arrays %zu %zu %zu %zu\n", sizeof(column), sizeof(flags), sizeof(entries), sizeof(converted));
    return 0;
}
