// A column read, one salvaged, and one written, from C++.
#include <cinttypes>
#include <cstdio>
#include <vector>

#include "menakovitsy.h"

static void print_rows(const char *before, const int64_t *rows, uint64_t count)
{
    std::printf("%s", before);
    for (uint64_t k = 0; k < count; k++)
        std::printf(" %" PRId64, rows[k]);
    std::printf("\n");
}

static int fail(uint64_t number)
{
    std::fprintf(stderr, "refusal %" PRIu64 ": %s\n", number, orc_refusal_text(number));
    return 1;
}

// Five rows of 300; then 1, 2, 3.
static int read_rows()
{
    const uint8_t column[] = {0x0A, 0x01, 0x2C, 0x46, 0x02, 0x12, 0x30};
    uint64_t words[ORC_STREAM_WORDS];
    int64_t rows[8];

    if (uint64_t refused = orc_read_stream(column, sizeof column, 0, 0, rows, 8, words, ORC_STREAM_WORDS))
        return fail(refused);
    print_rows("rows:", rows, words[ORC_STREAM_ROWS]);
    return 0;
}

// The same column with its second run damaged, in two groups: the rows of the second become -1.
static int salvage_rows()
{
    const uint8_t column[] = {0x0A, 0x01, 0x2C, 0xC2, 0x02, 0x12, 0x30};
    const uint64_t starts[] = {0, 3}, counts[] = {5, 3};
    uint64_t words[ORC_SALVAGE_WORDS], read[ORC_STREAM_WORDS];
    uint8_t out[sizeof column + 2 * ORC_MAX_FILL_BYTES], report[2 * ORC_MAX_REPORT_LINE];
    int64_t rows[8];

    if (uint64_t refused = orc_salvage(column, sizeof column, starts, 2, counts, 2, -1, 0, out, sizeof out, report,
                                       sizeof report, words, ORC_SALVAGE_WORDS))
        return fail(refused);
    std::fwrite(report, 1, words[ORC_SALVAGE_REPORT], stdout);
    if (uint64_t refused = orc_read_stream(out, words[ORC_SALVAGE_BYTES], 0, 0, rows, 8, read, ORC_STREAM_WORDS))
        return fail(refused);
    print_rows("after the salvage:", rows, read[ORC_STREAM_ROWS]);
    return 0;
}

// 40 rows of 4 bits, and among them one of 20: proposed as one patched run.
static int write_rows()
{
    std::vector<int64_t> rows;
    for (int64_t row = 0; row < 40; row++)
        rows.push_back(row == 17 ? INT64_C(1000000) : row * 7 % 13);
    const uint64_t first[] = {0}, counts[] = {40}, forms[] = {ORC_FORM_PATCHED}, widths[] = {4}, bases[] = {0};
    std::vector<uint8_t> out(ORC_COLUMN_ROOM(rows.size()));
    uint64_t words[ORC_COLUMN_WORDS];

    if (uint64_t refused = orc_write_column(rows.data(), rows.size(), 0, first, 1, counts, 1, forms, 1, widths, 1,
                                            bases, 1, out.data(), out.size(), words, ORC_COLUMN_WORDS))
        return fail(refused);
    if (words[ORC_COLUMN_CASE] != ORC_CASE_READ)
        return 1;
    std::printf("%" PRIu64 " rows in %" PRIu64 " patched run of %" PRIu64 " bytes\n", words[ORC_COLUMN_ROWS],
                words[ORC_COLUMN_RUNS], words[ORC_COLUMN_BYTES]);
    return 0;
}

int main()
{
    if (orc_version() != ORC_VERSION)
        return 1;
    return read_rows() || salvage_rows() || write_rows();
}
