/* Proved readers and writers for the integer columns (run length encoding, version 2), flag columns and byte
 * values of Apache ORC files.
 *
 * Linking. Link libmenakovitsy.a: a release has one for each processor, in the folders x86-64, x86-64-v3 and
 * aarch64 beside this header (little endian, 64-bit size_t). In a checkout `.ci/release` makes a release, and
 * `rt lib --cpu x86-64` in crates/exports the x86-64 library alone, as out/libexports.a there. The header compiles
 * without a warning as C99, C11 and C++17.
 *
 * Slices. A slice is a pointer, and after it the length in elements (bytes, int64_t or uint64_t). If the
 * length is 0, the pointer may be null. A slice with a const pointer is read. Any other is a buffer that the
 * call writes to. Its elements are called places. What is written is in the first of them, and the places after
 * that keep their content, unless the function says otherwise. Pointers to int64_t and uint64_t are aligned as
 * C aligns them.
 *
 * Overlap. A buffer that is written must not overlap any other argument. Two slices that are only read may
 * overlap.
 *
 * State. Calls share nothing, keep nothing and allocate nothing. Threads may call at the same time, if no
 * buffer that one of them writes is used by another. What the reader in parts knows from call to call is in
 * the buffers that the caller keeps for it.
 *
 * Arguments. Positions, counts and n are uint64_t, and every number is answered. A position is a byte of the
 * input, counted from 0; one past the end is empty input. `flag` says how rows are stored: 0 if they are
 * unsigned, any other number if they are signed (zigzag). An unsigned row of 2^63 or more is the int64_t with
 * the same bits.
 *
 * Answers. A function that takes words writes its answer into them and returns the refusal's number, 0 if
 * nothing is refused. How many words an answer has and what each of them means depends on the function.
 * Functions whose answers are alike are a family, and a family's names have its name in them: a program calls
 * orc_convert with ORC_CONVERT_WORDS words, and then reads words[ORC_CONVERT_BYTES]. A later version may append
 * words to a family; none changes its meaning.
 *
 * Refusals. Every call returns, whatever the bytes are. A refused call writes its words and changes nothing
 * else; for the two exceptions see orc_read_stream and orc_part_take. orc_refusal_text says what a number
 * means and what to do. */
#ifndef MENAKOVITSY_H
#define MENAKOVITSY_H

#include <stddef.h>
#include <stdint.h>

#if SIZE_MAX != UINT64_MAX
#error "libmenakovitsy.a is for a processor with 64-bit pointers (x86-64 or Arm): compile for one"
#endif

#ifdef __cplusplus
extern "C" {
#endif

/* The version of these functions. Each change of what they take or answer makes it one more. Before its first
 * call a program compares it with what orc_version returns, which is the version of the library. */
#define ORC_VERSION UINT64_C(14)

uint64_t orc_version(void);

/* ---- Sizes ---- */

/* The most rows of one run: with this many places no run is refused for want of them. */
#define ORC_MAX_ROWS 512

/* The most bytes of one run that is read, and of one that is written. */
#define ORC_MAX_RUN_BYTES 4356
#define ORC_MAX_WRITTEN 4108

/* The bytes that hold the rows of any run for orc_read_run, which writes eight bytes for each row. */
#define ORC_MAX_ROWS_BYTES (8 * ORC_MAX_ROWS)

/* The fewest and the most rows of a short repeat, and the most bytes of its value. */
#define ORC_MIN_REPEAT_ROWS 3
#define ORC_MAX_REPEAT_ROWS 10
#define ORC_MAX_REPEAT_WIDTH 8

/* The most entries in the patch list of a patched run, and the most bits of a patch that is written. */
#define ORC_MAX_PATCHES 31
#define ORC_MAX_PATCH_BITS 56

/* The most bytes of a run of a fill row, which orc_salvage writes, and of a line of its report, with the
 * newline. */
#define ORC_MAX_FILL_BYTES 13
#define ORC_MAX_REPORT_LINE 51

/* The most words of any answer, for a program that uses one buffer for all. */
#define ORC_MAX_WORDS 14

/* Room that is always enough. These macros may be used as array sizes. Some evaluate their argument more than
 * once.
 *
 * Bytes for a column of that many rows, written by orc_write_column. */
#define ORC_COLUMN_ROOM(rows) (UINT64_C(8) * (rows) + UINT64_C(2) * (((rows) + UINT64_C(511)) / 512))

/* Bytes for that many bytes, written by orc_write_bytes, and for that many flags, by orc_write_booleans. */
#define ORC_BYTE_ROOM(bytes) ((bytes) + ((bytes) + UINT64_C(127)) / 128)
#define ORC_BOOLEAN_ROOM(flags) ORC_BYTE_ROOM(((flags) + UINT64_C(7)) / 8)

/* Bytes for a stream of that many bytes, converted by orc_convert. */
#define ORC_CONVERT_ROOM(input_len) (UINT64_C(2) * (input_len))

/* Places in each column of an index, built by orc_build_index for a stream of that many bytes. */
#define ORC_INDEX_ROOM(input_len) ((input_len) / UINT64_C(2))

/* ---- Refusals ---- */

/* The refusals' numbers, and, with ORC_END and ORC_RUN, what orc_read_run returns. */
enum orc_answer {
    /* The input is empty: there is no run. */
    ORC_END = 0,
    /* A run has begun, and its fixed header is not all there. Call again with more bytes; if there are none,
     * the stream is cut. */
    ORC_HEADER_CUT = 1,
    /* Patched base: patch width and gap width are over 64 bits together. No run begins like this: the bytes
     * are damaged, or the position is not that of a run. The same holds for 3, 4, 5 and 7. */
    ORC_ENTRY_OVER_64 = 2,
    /* Patched base: a patch has no room above a value of W bits in 64: it is 2^(64-W) or more. (Value width
     * and patch width may be over 64 together, and an empty list is never refused.) */
    ORC_PATCH_TOO_LARGE = 3,
    /* Delta: a width, and one row. */
    ORC_ONE_ROW_DELTA = 4,
    /* A varint's tenth byte is above 1: it says more than 64 bits hold, or goes on. */
    ORC_VARINT_TOO_LONG = 5,
    /* The value of a short repeat, the base of a patched run or a byte value is cut, or the control byte of a
     * byte run is missing. The input ends before the field does, and the answer says at which byte the field
     * begins (the word CUT_AT of its family). Call again with more bytes; if there are none, the stream is
     * cut. The same holds for 12, 13 and 14. */
    ORC_VALUE_CUT = 6,
    /* Patched base: a patch is outside the run or at the place of another, or the list ends with a skip. */
    ORC_PATCH_OUT_OF_PLACE = 7,
    /* A buffer has too few places. Call again with a larger one: the sizes above say what is always enough. */
    ORC_TOO_FEW_PLACES = 8,
    /* Writer: the form does not allow this many rows. */
    ORC_ROW_COUNT = 9,
    /* Writer: the rows do not have the form, the width is not one of the form's, or there is no such form. Of
     * orc_write_patched: no patched run has these rows with that base and width. */
    ORC_NOT_THE_FORM = 10,
    /* Writer: a row or a magnitude needs more bits than the width. */
    ORC_TOO_NARROW = 11,
    /* A varint is cut. */
    ORC_VARINT_CUT = 12,
    /* Packed rows are cut, or a byte run is cut after its control byte. */
    ORC_ROWS_CUT = 13,
    /* A patch list is cut. */
    ORC_LIST_CUT = 14,
    /* The index is not this stream's: its entries are not exactly the stream's, its columns have unequal
     * lengths, or the stream is refused and has no index. Build it again. */
    ORC_WRONG_INDEX = 15,
    /* There is no such row. Ask for one below the number of rows (of a label: below the number of flags). */
    ORC_NO_SUCH_ROW = 16,
    /* Row groups: the starts do not begin at 0, do not rise strictly or pass the stream's end, or the two
     * columns have unequal lengths. Of orc_rescue: the positions are not in order, as it says there. Give those
     * of this stream, all of them and in order. */
    ORC_WRONG_STARTS = 17,
    /* Dictionary: a length is below 0, or the lengths do not add up to the block (as whole numbers, never
     * modulo 2^64). Give the lengths and the block of one dictionary, both whole. */
    ORC_LENGTHS_NOT_THE_BLOCK = 18,
    /* Dictionary: the row's number is outside it, or the numbers end before the row's entry. Give the numbers
     * of the rows that the flags are of. */
    ORC_NO_SUCH_NAME = 19,
    /* Flags and rows are not lined up: there are more or fewer rows than flags that are not 0. Give the flags
     * and the rows of the same column, from the same row on; if they are, the file is damaged. */
    ORC_NOT_LINED_UP = 21,
    /* Of orc_read_run, from here on: 65536 times the bytes consumed, plus the rows. */
    ORC_RUN = 65536
};

/* What a function returns if words_len is below the number of words of its answer. It has then touched nothing:
 * no word, row or byte. */
#define ORC_TOO_FEW_WORDS UINT64_MAX

/* What a refusal's number means, and, in parentheses, what to do. Every number has a text. */
static inline const char *orc_refusal_text(uint64_t number)
{
    if (number == ORC_TOO_FEW_WORDS)
        return "fewer words were lent than the answer has (lend as many as the macro of the function's family "
               "says, ORC_STREAM_WORDS for orc_read_stream)";
    if (number == ORC_END || number >= ORC_RUN)
        return "nothing is refused";
    switch (number) {
    case ORC_HEADER_CUT:
        return "the input ends inside the run's header (call again with more bytes; if there are none, the "
               "stream is cut or the offset is wrong)";
    case ORC_ENTRY_OVER_64:
        return "patched base: patch width and gap width are over 64 bits together (no run begins like this: "
               "the bytes are damaged, or the offset is not a run's first byte)";
    case ORC_PATCH_TOO_LARGE:
        return "patched base: a patch has no room above its value, in 64 bits (no run begins like this: the "
               "bytes are damaged, or the offset is not a run's first byte)";
    case ORC_ONE_ROW_DELTA:
        return "delta: packed magnitudes announced for a single row (no run begins like this: the bytes are "
               "damaged, or the offset is not a run's first byte)";
    case ORC_VARINT_TOO_LONG:
        return "a varint says more than 64 bits hold: its tenth byte is above 1 (no run begins like this: the "
               "bytes are damaged, or the offset is not a run's first byte)";
    case ORC_VALUE_CUT:
        return "a value, a base or a control byte is cut (call again with more bytes; if there are none, the "
               "stream is cut or the offset is wrong)";
    case ORC_PATCH_OUT_OF_PLACE:
        return "patched base: a patch is outside the run or at another's place, or the list ends with a skip "
               "(no run begins like this: the bytes are damaged, or the offset is not a run's first byte)";
    case ORC_TOO_FEW_PLACES:
        return "fewer places were lent than are needed (lend more places; 512 rows hold any run, 4,108 bytes "
               "any run that is written; ORC_COLUMN_ROOM and ORC_BOOLEAN_ROOM say what holds a column)";
    case ORC_ROW_COUNT:
        return "writer: the form does not allow this many rows (give the rows in runs of a length that the "
               "form holds, or choose another form)";
    case ORC_NOT_THE_FORM:
        return "writer: the rows do not have the form, or the width is none of its widths (choose another form "
               "or width)";
    case ORC_TOO_NARROW:
        return "writer: a row or a magnitude needs more bits than the width (choose a wider width)";
    case ORC_VARINT_CUT:
        return "a varint is cut (call again with more bytes; if there are none, the stream is cut or the "
               "offset is wrong)";
    case ORC_ROWS_CUT:
        return "a block of packed rows or of bytes is cut (call again with more bytes; if there are none, the "
               "stream is cut or the offset is wrong)";
    case ORC_LIST_CUT:
        return "a patch list is cut (call again with more bytes; if there are none, the stream is cut or the "
               "offset is wrong)";
    case ORC_WRONG_INDEX:
        return "the index is not this column's, or its columns have unequal lengths (build the index again; "
               "if that is refused, the column is damaged)";
    case ORC_NO_SUCH_ROW:
        return "there is no such row (ask for a row below the number of rows (of labels: of flags))";
    case ORC_WRONG_STARTS:
        return "row groups: their starts or positions do not begin at 0, are not in order or pass the column's "
               "end (give the starts or positions and the rows of this column's groups, from 0 on, all of them "
               "and in order)";
    case ORC_LENGTHS_NOT_THE_BLOCK:
        return "dictionary: a length is below 0, or the lengths do not add up to the block (give the lengths "
               "and the block of one dictionary, both whole; if they are, the file is damaged)";
    case ORC_NO_SUCH_NAME:
        return "dictionary: the row's number is outside it, or the numbers end before the row's entry (give "
               "the numbers of the same rows as the flags, and the dictionary that they are for; if they are, "
               "the file is damaged)";
    case ORC_NOT_LINED_UP:
        return "flags and rows are not lined up: there are more or fewer rows than flags that are set (give "
               "the flags and the rows of the same column, from the same row on; if they are, the file is "
               "damaged)";
    default:
        return "a number that this header does not know (link the library of the header's own version: compare "
               "orc_version() with ORC_VERSION)";
    }
}

/* ---- What words may hold ---- */

/* The word CASE of every family. */
enum orc_case {
    /* There is no run: the input is empty (orc_read_run_at), the column has ended (the reader in parts, once it
     * is closed), or there are no more rows (orc_read_rows). No other function answers it. */
    ORC_CASE_END = 0,
    /* Of orc_check_column alone: the proposal is not accepted. */
    ORC_CASE_NOT_ACCEPTED = 0,
    /* It was done: read, written, found or counted. Of orc_read_stream: the stream was read whole. Of
     * orc_label: the row has a name. */
    ORC_CASE_READ = 1,
    /* It was refused: the word NUMBER says why. */
    ORC_CASE_REFUSED = 2,
    /* Of orc_label alone: the row has no name, and is called by the fallback. */
    ORC_CASE_FALLBACK = 3,
    /* Of orc_part_take alone: all of the part is taken, and no run has ended. */
    ORC_CASE_MORE = 3,
    /* Of orc_write_column alone: the proposal is not accepted, and direct runs of 64 bits were written. */
    ORC_CASE_DIRECT = 3
};

/* The word KIND of a run, as it is laid out. Fixed and packed delta are one kind. */
enum orc_kind {
    ORC_KIND_SHORT_REPEAT = 0,
    ORC_KIND_DIRECT = 1,
    ORC_KIND_PATCHED_BASE = 2,
    ORC_KIND_DELTA = 3,
    ORC_KIND_BOOLEANS = 4,
    ORC_KIND_BYTE_VALUE = 5
};

/* The forms that a run is written in: the argument form of orc_write_run, and the column forms of a proposal.
 * These are other numbers than the kinds. */
enum orc_form {
    /* ORC_MIN_REPEAT_ROWS to ORC_MAX_REPEAT_ROWS equal rows. The width is the bytes of the value, 1 to
     * ORC_MAX_REPEAT_WIDTH. */
    ORC_FORM_SHORT_REPEAT = 0,
    /* 1 to ORC_MAX_ROWS rows. The width is an orc_code. */
    ORC_FORM_DIRECT = 1,
    /* 1 to ORC_MAX_ROWS rows with one step throughout. The width is 0. */
    ORC_FORM_FIXED_DELTA = 2,
    /* 2 to ORC_MAX_ROWS rows, whatever they are. The width, of the steps after the first, is an orc_code, but
     * not ORC_CODE_1. A step against the direction of the first counts modulo 2^64, so that it needs 64
     * bits. */
    ORC_FORM_PACKED_DELTA = 3,
    /* A patched run: 1 to ORC_MAX_ROWS rows. The width is in bits, and a kept one. In a proposal alone: one
     * run is written by orc_write_patched, and orc_write_run refuses this form with ORC_NOT_THE_FORM. */
    ORC_FORM_PATCHED = 4
};

/* The codes of the kept widths, those that are written: ORC_CODE_24 is the code of 24 bits. */
enum orc_code {
    ORC_CODE_1 = 0,
    ORC_CODE_2 = 1,
    ORC_CODE_4 = 3,
    ORC_CODE_8 = 7,
    ORC_CODE_16 = 15,
    ORC_CODE_24 = 23,
    ORC_CODE_32 = 27,
    ORC_CODE_40 = 28,
    ORC_CODE_48 = 29,
    ORC_CODE_56 = 30,
    ORC_CODE_64 = 31
};

/* ---- One run, flags, or a byte value ---- */

/* The family of orc_read_run_at, orc_read_booleans, orc_byte_value, orc_write_run, orc_write_patched and
 * orc_write_booleans. */
#define ORC_RUN_WORDS 9

enum orc_run_word {
    /* An orc_case: ORC_CASE_READ, ORC_CASE_REFUSED, or, of orc_read_run_at alone, ORC_CASE_END. */
    ORC_RUN_CASE = 0,
    /* The refusal's number, an orc_answer; 0 unless refused. */
    ORC_RUN_NUMBER = 1,
    /* The position of the call if it reads, and 0 if it writes; 0 unless refused. */
    ORC_RUN_PLACE = 2,
    /* An orc_kind. This word, the next two and ORC_RUN_WIDTH are 0 unless the case is ORC_CASE_READ. */
    ORC_RUN_KIND = 3,
    /* The rows of the run; of booleans and byte values, n. */
    ORC_RUN_ROWS = 4,
    /* How many bytes were consumed, or, of a writer, written. */
    ORC_RUN_BYTES = 5,
    /* 1 if the refusal names a cut field (6, 12, 13 and 14, and no other), otherwise 0. */
    ORC_RUN_CUT = 6,
    /* The byte of the input where the cut field begins; 0 if there is none. */
    ORC_RUN_CUT_AT = 7,
    /* The width of the run's values in bits: of a short repeat 8 for each byte of its value, of a fixed delta
     * 0, of packed rows and magnitudes theirs; of booleans 1, of a byte value 8. */
    ORC_RUN_WIDTH = 8
};

/* Reads the run that begins at byte `at` of input into the first places of rows. ORC_CASE_END if there is no
 * byte there. Refused with 1 to 7 or 12 to 14, as the bytes are; then with ORC_TOO_FEW_PLACES if the run has
 * more than rows_len rows. */
uint64_t orc_read_run_at(const uint8_t *input, size_t input_len, uint64_t at, uint64_t flag,
                         int64_t *rows, size_t rows_len, uint64_t *words, size_t words_len);

/* Reads n booleans from byte `at` of input on into the first n bytes of out, each as 0 or 1. Byte runs are
 * taken whole: ORC_RUN_BYTES counts all of the last one that is needed, also if not all of its booleans were
 * asked for. So a call at the byte after it does not go on with the next boolean. To read a column in batches
 * use orc_read_flags. Refused with ORC_VALUE_CUT (a control byte is missing) or ORC_ROWS_CUT (a byte run is
 * cut after it), then with ORC_TOO_FEW_PLACES if out_len is below n. */
uint64_t orc_read_booleans(const uint8_t *input, size_t input_len, uint64_t at, uint64_t n,
                           uint8_t *out, size_t out_len, uint64_t *words, size_t words_len);

/* The byte value of length n at byte `at` of input. It is not copied: if nothing is refused, it is the bytes
 * input[at] to input[at + n - 1]. A value of length 0 has no bytes, and is never refused, also past the end.
 * Refused with ORC_VALUE_CUT if the input ends before the value does. */
uint64_t orc_byte_value(const uint8_t *input, size_t input_len, uint64_t at, uint64_t n,
                        uint64_t *words, size_t words_len);

/* Writes rows as one run into the first bytes of out. `form` is an orc_form, which says what rows a form takes
 * and what `width` is. ORC_MAX_WRITTEN bytes hold any run. Refused in this order: ORC_ROW_COUNT,
 * ORC_NOT_THE_FORM, ORC_TOO_NARROW, ORC_TOO_FEW_PLACES. */
uint64_t orc_write_run(const int64_t *rows, size_t rows_len, uint64_t flag, uint64_t form,
                       uint64_t width, uint8_t *out, size_t out_len, uint64_t *words,
                       size_t words_len);

/* Writes rows, 1 to ORC_MAX_ROWS of them, as one patched run into the first bytes of out. Each row is stored
 * as its difference from `base`: the low `width` bits are packed, and what is above them becomes a patch. The
 * width is in bits and must be a kept one: 1, 2, 4, 8, 16, 24, 32, 40, 48, 56 or 64. The run reads back as the
 * rows under either flag. Refused in this order: ORC_ROW_COUNT; ORC_NOT_THE_FORM if the width is not kept, the
 * list would have more than ORC_MAX_PATCHES entries, a patch needs more than ORC_MAX_PATCH_BITS bits, or `base`
 * is -2^63; ORC_TOO_FEW_PLACES. */
uint64_t orc_write_patched(const int64_t *rows, size_t rows_len, int64_t base, uint64_t width,
                           uint8_t *out, size_t out_len, uint64_t *words, size_t words_len);

/* Returns the orc_code of the narrowest kept width that holds x. */
uint64_t orc_narrowest_code(uint64_t x);

/* ---- A stream ---- */

/* The family of orc_read_stream. Words 3 and 8 are always 0. */
#define ORC_STREAM_WORDS 14

enum orc_stream_word {
    /* An orc_case: ORC_CASE_READ if the stream was read whole, otherwise ORC_CASE_REFUSED. */
    ORC_STREAM_CASE = 0,
    /* The refusal's number, an orc_answer; 0 unless refused. */
    ORC_STREAM_NUMBER = 1,
    /* The byte of the input where the refused run begins; 0 unless refused. */
    ORC_STREAM_PLACE = 2,
    /* The rows and the bytes of all runs that were read, in both cases. The bytes count from the position. */
    ORC_STREAM_ROWS = 4,
    ORC_STREAM_BYTES = 5,
    /* 1 if the refusal names a cut field, and the byte of the input where it begins; otherwise 0 and 0. */
    ORC_STREAM_CUT = 6,
    ORC_STREAM_CUT_AT = 7,
    /* 1 if a run was read, in both cases, otherwise 0. */
    ORC_STREAM_LAST = 9,
    /* The kind, the width, the rows and the bytes of the last run that was read; 0 if there is none. */
    ORC_STREAM_LAST_KIND = 10,
    ORC_STREAM_LAST_WIDTH = 11,
    ORC_STREAM_LAST_ROWS = 12,
    ORC_STREAM_LAST_BYTES = 13
};

/* Reads all runs from byte `at` of input to its end into rows, one after the other. If there are no bytes, that
 * is a whole stream of no rows. It stops at the first run that is refused, with ORC_TOO_FEW_PLACES if the run
 * has more rows than there are places left. The rows of the runs before it are in the first places, and
 * ORC_STREAM_ROWS and ORC_STREAM_BYTES count them; the places after these are as they were. */
uint64_t orc_read_stream(const uint8_t *input, size_t input_len, uint64_t at, uint64_t flag,
                         int64_t *rows, size_t rows_len, uint64_t *words, size_t words_len);

/* ---- A column that arrives in parts ---- */

/* How many words the state of the reader has. What they mean is the library's business. */
#define ORC_STATE_WORDS 7

/* The family of orc_part_take and orc_part_close. */
#define ORC_PART_WORDS 11

enum orc_part_word {
    /* An orc_case: ORC_CASE_READ if a run has ended, ORC_CASE_MORE, ORC_CASE_END or ORC_CASE_REFUSED. */
    ORC_PART_CASE = 0,
    /* The refusal's number, an orc_answer; 0 unless refused. */
    ORC_PART_NUMBER = 1,
    /* The byte where the refused run begins, counted from the first part modulo 2^64; 0 unless refused. */
    ORC_PART_PLACE = 2,
    /* The kind, the rows and the bytes of the run; 0 unless the case is ORC_CASE_READ. */
    ORC_PART_KIND = 3,
    ORC_PART_ROWS = 4,
    ORC_PART_BYTES = 5,
    /* 1 if the refusal names a cut field, and the byte where it begins, counted likewise; otherwise 0 and 0. */
    ORC_PART_CUT = 6,
    ORC_PART_CUT_AT = 7,
    /* The width of the run's values in bits, and the byte where the run begins, counted likewise; 0 unless the
     * case is ORC_CASE_READ. */
    ORC_PART_WIDTH = 8,
    ORC_PART_START = 9,
    /* How many bytes of the part the call took. */
    ORC_PART_TAKEN = 10
};

/* Makes the state of a new reader, in the first ORC_STATE_WORDS of state, and returns 0. The calls below keep
 * it up to date. Beside it the caller keeps `held`, a buffer of ORC_MAX_RUN_BYTES bytes, for the bytes of the
 * one run that is unfinished. Every state is answered, also one that no start led to. With fewer than
 * ORC_STATE_WORDS words in state: ORC_TOO_FEW_WORDS. */
uint64_t orc_part_start(uint64_t *state, size_t state_len);

/* Takes `part`, the next bytes of the column. Parts may have any size, and may be empty.
 *
 * If a run ends in the part (ORC_CASE_READ), its rows are in the first places of rows, and the part is taken
 * up to the run's end: call again with the bytes after the first ORC_PART_TAKEN. Otherwise (ORC_CASE_MORE) all
 * of the part is taken. A run that is unfinished is never refused here, only by orc_part_close.
 *
 * Refused with ORC_TOO_FEW_PLACES, at place 0, if rows_len is below ORC_MAX_ROWS or held_len below
 * ORC_MAX_RUN_BYTES: nothing is changed, and the call may be made again with larger buffers. Any other refusal
 * comes as soon as the bytes show it; it takes nothing of the part, and the state remembers it. Each later
 * call gives the same refusal, or, after orc_part_close, the same end, and takes nothing. With fewer than
 * ORC_STATE_WORDS words in state or ORC_PART_WORDS in words: ORC_TOO_FEW_WORDS. */
uint64_t orc_part_take(uint64_t *state, size_t state_len, uint8_t *held, size_t held_len,
                       const uint8_t *part, size_t part_len, uint64_t flag, int64_t *rows,
                       size_t rows_len, uint64_t *words, size_t words_len);

/* Closes the reader: ORC_CASE_END if the column has ended after a whole run, otherwise the refusal of the run
 * that is unfinished. It wants the same buffers as orc_part_take. */
uint64_t orc_part_close(uint64_t *state, size_t state_len, uint8_t *held, size_t held_len,
                        uint64_t flag, int64_t *rows, size_t rows_len, uint64_t *words,
                        size_t words_len);

/* ---- Rows in batches ---- */

/* The family of orc_read_rows. */
#define ORC_BATCH_WORDS 8

enum orc_batch_word {
    /* An orc_case: ORC_CASE_READ, ORC_CASE_REFUSED, or ORC_CASE_END if there are no more rows. */
    ORC_BATCH_CASE = 0,
    /* The refusal's number, an orc_answer; 0 unless refused. */
    ORC_BATCH_NUMBER = 1,
    /* The byte of the input where the refused run begins; 0 for ORC_NO_SUCH_ROW, and unless refused. */
    ORC_BATCH_PLACE = 2,
    /* How many rows there are, in the first places. This word and the next two are 0 unless the case is
     * ORC_CASE_READ. */
    ORC_BATCH_ROWS = 3,
    /* The position of the row after them: its run, and the rows of that run to skip. */
    ORC_BATCH_NEXT_RUN = 4,
    ORC_BATCH_NEXT_SKIP = 5,
    /* 1 if the refusal names a cut field, and the byte of the input where it begins; otherwise 0 and 0. */
    ORC_BATCH_CUT = 6,
    ORC_BATCH_CUT_AT = 7
};

/* Reads the rows from a position on into rows, as many as there are places. A position is what ORC's row index
 * holds for an integer column: `run` is the byte where a run begins, and `skip` the rows to skip from there.
 * Runs that are skipped are measured and not decoded.
 *
 * ORC_CASE_READ: ORC_BATCH_ROWS rows are in the first places, and the next batch begins at the position
 * ORC_BATCH_NEXT_RUN, ORC_BATCH_NEXT_SKIP. There are fewer rows than places at the column's end, and before a
 * run that is refused: a damaged run costs none of the rows before it. The call after that answers
 * ORC_CASE_END, or that run's refusal. ORC_NO_SUCH_ROW if `skip` is more than the rows that there are. A
 * column is read whole by
 *
 *     uint64_t run = 0, skip = 0;
 *     while (orc_read_rows(input, input_len, run, skip, 0, rows, 1024, words, ORC_BATCH_WORDS) == 0
 *            && words[ORC_BATCH_CASE] == ORC_CASE_READ) {
 *         use(rows, words[ORC_BATCH_ROWS]);
 *         run = words[ORC_BATCH_NEXT_RUN];
 *         skip = words[ORC_BATCH_NEXT_SKIP];
 *     }
 */
uint64_t orc_read_rows(const uint8_t *input, size_t input_len, uint64_t run, uint64_t skip, uint64_t flag,
                       int64_t *rows, size_t rows_len, uint64_t *words, size_t words_len);

/* ---- Flags and bytes in batches ---- */

/* The family of orc_read_flags. */
#define ORC_FLAGS_WORDS 9

enum orc_flags_word {
    /* An orc_case: ORC_CASE_READ or ORC_CASE_REFUSED. */
    ORC_FLAGS_CASE = 0,
    /* The refusal's number, an orc_answer; 0 unless refused. */
    ORC_FLAGS_NUMBER = 1,
    /* The argument `run`; 0 unless refused. */
    ORC_FLAGS_PLACE = 2,
    /* How many flags there are, in the first bytes: n. This word and the next three are 0 if refused. */
    ORC_FLAGS_GIVEN = 3,
    /* The position of the flag after them: its run, the bytes to skip, and the bits of the next byte. */
    ORC_FLAGS_NEXT_RUN = 4,
    ORC_FLAGS_NEXT_BYTES = 5,
    ORC_FLAGS_NEXT_BITS = 6,
    /* 1 if the refusal names a cut field, and the byte of the input where it begins; otherwise 0 and 0. */
    ORC_FLAGS_CUT = 7,
    ORC_FLAGS_CUT_AT = 8
};

/* Reads the n flags after a position into the first n bytes of out, each as 0 or 1. A position is what ORC's
 * row index holds for a flag column: `run` is the byte where a byte run begins, `bytes` the bytes to skip from
 * there, of those that the runs stand for, and `bits` the bits of the next byte to skip. The next batch begins
 * at ORC_FLAGS_NEXT_RUN, ORC_FLAGS_NEXT_BYTES, ORC_FLAGS_NEXT_BITS. All or nothing: refused as
 * orc_read_booleans refuses all that is skipped and the n together, then with ORC_TOO_FEW_PLACES if out_len is
 * below n. */
uint64_t orc_read_flags(const uint8_t *input, size_t input_len, uint64_t run, uint64_t bytes, uint64_t bits,
                        uint64_t n, uint8_t *out, size_t out_len, uint64_t *words, size_t words_len);

/* The family of orc_read_bytes. */
#define ORC_BYTES_WORDS 8

enum orc_bytes_word {
    /* An orc_case: ORC_CASE_READ or ORC_CASE_REFUSED. */
    ORC_BYTES_CASE = 0,
    /* The refusal's number, an orc_answer; 0 unless refused. */
    ORC_BYTES_NUMBER = 1,
    /* The argument `run`; 0 unless refused. */
    ORC_BYTES_PLACE = 2,
    /* How many bytes there are, in the first places: n. This word and the next two are 0 if refused. */
    ORC_BYTES_GIVEN = 3,
    /* The position of the byte after them: its run, and the bytes to skip. */
    ORC_BYTES_NEXT_RUN = 4,
    ORC_BYTES_NEXT_BYTES = 5,
    /* 1 if the refusal names a cut field, and the byte of the input where it begins; otherwise 0 and 0. */
    ORC_BYTES_CUT = 6,
    ORC_BYTES_CUT_AT = 7
};

/* The same with n of the bytes that the byte runs stand for: the values of a tinyint column, or the packed
 * flags that orc_count_true wants. The next batch begins at ORC_BYTES_NEXT_RUN, ORC_BYTES_NEXT_BYTES. */
uint64_t orc_read_bytes(const uint8_t *input, size_t input_len, uint64_t run, uint64_t bytes, uint64_t n,
                        uint8_t *out, size_t out_len, uint64_t *words, size_t words_len);

/* The family of orc_count_true. */
#define ORC_COUNT_WORDS 6

enum orc_count_word {
    /* An orc_case: ORC_CASE_READ or ORC_CASE_REFUSED. */
    ORC_COUNT_CASE = 0,
    /* The refusal's number, an orc_answer; 0 unless refused. */
    ORC_COUNT_NUMBER = 1,
    /* Always 0. */
    ORC_COUNT_PLACE = 2,
    /* How many booleans are true; 0 if refused. */
    ORC_COUNT_TRUE = 3,
    /* 1 if the refusal names a cut field, otherwise 0; and the byte where it begins, always 0. */
    ORC_COUNT_CUT = 4,
    ORC_COUNT_CUT_AT = 5
};

/* Counts how many of the first n booleans are true: packed has eight in each byte, the highest bit first. It
 * wants the bytes that a flag column stands for, which orc_read_bytes reads, and not the column. Of the flag
 * column 00 FF FF 00 itself, 32 rows of which 24 are true, it counts the ones of those four bytes: 16. Refused
 * with ORC_VALUE_CUT if packed holds fewer than n. */
uint64_t orc_count_true(const uint8_t *packed, size_t packed_len, uint64_t n, uint64_t *words,
                        size_t words_len);

/* ---- Rows that are missing ---- */

/* The family of orc_spread. */
#define ORC_SPREAD_WORDS 4

enum orc_spread_word {
    /* An orc_case: ORC_CASE_READ or ORC_CASE_REFUSED. */
    ORC_SPREAD_CASE = 0,
    /* The refusal's number, an orc_answer; 0 unless refused. */
    ORC_SPREAD_NUMBER = 1,
    /* Always 0. */
    ORC_SPREAD_PLACE = 2,
    /* How many rows the column has, in the first places: flags_len. 0 if refused. */
    ORC_SPREAD_ROWS = 3
};

/* Makes a column with its missing rows filled. flags has a byte for each row of the column, and rows a row for
 * each flag that is not 0: place i of out gets the next of rows if flag i is not 0, and `fill` otherwise.
 * Refused in this order: ORC_NOT_LINED_UP, ORC_TOO_FEW_PLACES if out_len is below flags_len. */
uint64_t orc_spread(const uint8_t *flags, size_t flags_len, const int64_t *rows, size_t rows_len,
                    int64_t fill, int64_t *out, size_t out_len, uint64_t *words, size_t words_len);

/* ---- Names from a dictionary ---- */

/* The family of orc_label. */
#define ORC_LABEL_WORDS 5

enum orc_label_word {
    /* An orc_case: ORC_CASE_READ if the row has a name, ORC_CASE_FALLBACK if not, or ORC_CASE_REFUSED. */
    ORC_LABEL_CASE = 0,
    /* The refusal's number, an orc_answer; 0 unless refused. */
    ORC_LABEL_NUMBER = 1,
    /* Always 0. */
    ORC_LABEL_PLACE = 2,
    /* The byte of the block where the name begins; 0 unless the case is ORC_CASE_READ. */
    ORC_LABEL_START = 3,
    /* How many bytes the name or the fallback has; 0 if refused. */
    ORC_LABEL_SIZE = 4
};

/* What a row is called. The dictionary is a block of names, one after the other, and the length of each.
 * flags has a byte for each row: any but 0 means that the row has a name. numbers has an entry for each row
 * that has a name and for no other: which name it is, counted from 0. The name is the ORC_LABEL_SIZE bytes of
 * block from ORC_LABEL_START on. A row without one is called by `fallback`, all of it.
 *
 * Refused in this order: ORC_NO_SUCH_ROW if `row` is not below flags_len, ORC_LENGTHS_NOT_THE_BLOCK (also for a
 * row without a name), ORC_NO_SUCH_NAME (only the entry of the row that is asked for counts). */
uint64_t orc_label(const int64_t *lengths, size_t lengths_len, const int64_t *numbers,
                   size_t numbers_len, const uint8_t *flags, size_t flags_len, const uint8_t *block,
                   size_t block_len, const uint8_t *fallback, size_t fallback_len, uint64_t row,
                   uint64_t *words, size_t words_len);

/* The family of orc_label_column. */
#define ORC_LABELS_WORDS 5

enum orc_labels_word {
    /* An orc_case: ORC_CASE_READ or ORC_CASE_REFUSED. */
    ORC_LABELS_CASE = 0,
    /* The refusal's number, an orc_answer; 0 unless refused. */
    ORC_LABELS_NUMBER = 1,
    /* Always 0. */
    ORC_LABELS_PLACE = 2,
    /* How many rows there are, in the first starts and sizes: flags_len. 0 if refused. */
    ORC_LABELS_ROWS = 3,
    /* For ORC_NO_SUCH_NAME the first row that has a flag and no name of the dictionary; otherwise 0. */
    ORC_LABELS_REFUSED_ROW = 4
};

/* The names of all rows in one pass: for each row what orc_label says, in time linear in rows and dictionary.
 * block_len is the length of the block, which itself is not wanted. offsets[j] becomes the byte of the block
 * where name j begins. starts[i] and sizes[i] become where the name of row i begins and how long it is, 0 and 0
 * if its flag is 0.
 *
 * Refused in this order: ORC_LENGTHS_NOT_THE_BLOCK (also if there are no rows); ORC_NO_SUCH_NAME, with the
 * first such row in ORC_LABELS_REFUSED_ROW; ORC_TOO_FEW_PLACES if offsets_len is below lengths_len, or
 * starts_len or sizes_len below flags_len. Numbers after those of the rows with a name are not looked at. */
uint64_t orc_label_column(const uint8_t *flags, size_t flags_len, const int64_t *numbers,
                          size_t numbers_len, const int64_t *lengths, size_t lengths_len,
                          uint64_t block_len, uint64_t *offsets, size_t offsets_len, uint64_t *starts,
                          size_t starts_len, uint64_t *sizes, size_t sizes_len, uint64_t *words,
                          size_t words_len);

/* ---- The index of a stream ---- */

/* The index beside a stream is three columns with an entry for each run: in `first` the number of the run's
 * first row, in `at` the byte where it begins, in `counts` how many rows it has. The stream is all of input.
 * An index is not trusted: each call compares it with the stream, without decoding rows for that. Columns of
 * unequal length are ORC_WRONG_INDEX before all else, in building too.
 *
 * The family of orc_build_index. */
#define ORC_INDEX_WORDS 8

enum orc_index_word {
    /* An orc_case: ORC_CASE_READ or ORC_CASE_REFUSED. */
    ORC_INDEX_CASE = 0,
    /* The refusal's number, an orc_answer; 0 unless refused. */
    ORC_INDEX_NUMBER = 1,
    /* The byte where the refused run begins; 0 for ORC_TOO_FEW_PLACES and ORC_WRONG_INDEX, and unless
     * refused. */
    ORC_INDEX_PLACE = 2,
    /* How many entries there are, in the first places of each column. This word and the next two are 0 if
     * refused. */
    ORC_INDEX_ENTRIES = 3,
    /* The rows and the bytes of the whole stream. */
    ORC_INDEX_ROWS = 4,
    ORC_INDEX_BYTES = 5,
    /* 1 if the refusal names a cut field, and the byte of the input where it begins; otherwise 0 and 0. */
    ORC_INDEX_CUT = 6,
    ORC_INDEX_CUT_AT = 7
};

/* Builds the index, in the first places of `first`, `at` and `counts`. ORC_INDEX_ROOM(input_len) places are
 * always enough. Refused in this order: ORC_WRONG_INDEX if the three have unequal lengths; the stream's own
 * refusal; ORC_TOO_FEW_PLACES if an entry lacks a place, or if the stream has 2^64 rows or more, for which no
 * number of places is enough. */
uint64_t orc_build_index(const uint8_t *input, size_t input_len, uint64_t *first, size_t first_len,
                         uint64_t *at, size_t at_len, uint64_t *counts, size_t counts_len,
                         uint64_t *words, size_t words_len);

/* The family of orc_look_up. */
#define ORC_ENTRY_WORDS 6

enum orc_entry_word {
    /* An orc_case: ORC_CASE_READ or ORC_CASE_REFUSED. */
    ORC_ENTRY_CASE = 0,
    /* The refusal's number, an orc_answer; 0 unless refused. */
    ORC_ENTRY_NUMBER = 1,
    /* Always 0. */
    ORC_ENTRY_PLACE = 2,
    /* The number of the run's first row, the byte where it begins, and how many rows it has; 0 if refused. */
    ORC_ENTRY_FIRST = 3,
    ORC_ENTRY_AT = 4,
    ORC_ENTRY_ROWS = 5
};

/* Finds the entry of the run that holds `row`, counted from 0. Refused in this order: ORC_WRONG_INDEX,
 * ORC_NO_SUCH_ROW. */
uint64_t orc_look_up(const uint8_t *input, size_t input_len, const uint64_t *first, size_t first_len,
                     const uint64_t *at, size_t at_len, const uint64_t *counts, size_t counts_len,
                     uint64_t row, uint64_t *words, size_t words_len);

/* The family of orc_read_from. */
#define ORC_ROWS_FROM_WORDS 4

enum orc_rows_from_word {
    /* An orc_case: ORC_CASE_READ or ORC_CASE_REFUSED. */
    ORC_ROWS_FROM_CASE = 0,
    /* The refusal's number, an orc_answer; 0 unless refused. */
    ORC_ROWS_FROM_NUMBER = 1,
    /* Always 0. */
    ORC_ROWS_FROM_PLACE = 2,
    /* How many rows there are, in the first places; 0 if refused. */
    ORC_ROWS_FROM_ROWS = 3
};

/* Reads all rows from number `row` to the stream's end into the first places of rows. Refused in this order:
 * ORC_WRONG_INDEX, ORC_NO_SUCH_ROW, ORC_TOO_FEW_PLACES. */
uint64_t orc_read_from(const uint8_t *input, size_t input_len, const uint64_t *first, size_t first_len,
                       const uint64_t *at, size_t at_len, const uint64_t *counts, size_t counts_len,
                       uint64_t row, uint64_t flag, int64_t *rows, size_t rows_len, uint64_t *words,
                       size_t words_len);

/* ---- A damaged stream ---- */

/* The family of orc_salvage. */
#define ORC_SALVAGE_WORDS 5

enum orc_salvage_word {
    /* An orc_case: ORC_CASE_READ or ORC_CASE_REFUSED. */
    ORC_SALVAGE_CASE = 0,
    /* The refusal's number, an orc_answer; 0 unless refused. */
    ORC_SALVAGE_NUMBER = 1,
    /* Always 0. */
    ORC_SALVAGE_PLACE = 2,
    /* How many bytes the new stream has, and how many the report; 0 if refused. */
    ORC_SALVAGE_BYTES = 3,
    ORC_SALVAGE_REPORT = 4
};

/* Salvages a damaged stream by its row groups: `starts` has the byte where each begins, `counts` its rows. A
 * group is kept, byte for byte, exactly if its bytes up to the next start (or the end) read as a whole stream
 * of exactly its rows. Otherwise it is replaced by fixed delta runs of `fill`, ORC_MAX_ROWS rows each and the
 * rest last (a group of 0 rows by nothing). The new stream is in the first bytes of out. It reads whole,
 * and has as many rows as `counts` lists. The report is in the first bytes of report, with no 0 at its end: a
 * line for each group, in order, with "kept" or "replaced", the group's number from 0 and its rows, a space
 * between them, and a newline.
 *
 * Always enough: for out, input_len bytes and ORC_MAX_FILL_BYTES for every ORC_MAX_ROWS rows begun of each
 * group; for report, ORC_MAX_REPORT_LINE bytes for each group. Refused in this order: ORC_WRONG_STARTS (no
 * groups at all are those of an empty stream); ORC_TOO_FEW_PLACES if out or report is too small. */
uint64_t orc_salvage(const uint8_t *input, size_t input_len, const uint64_t *starts, size_t starts_len,
                     const uint64_t *counts, size_t counts_len, int64_t fill, uint64_t flag,
                     uint8_t *out, size_t out_len, uint8_t *report, size_t report_len,
                     uint64_t *words, size_t words_len);

/* The family of orc_rescue. */
#define ORC_RESCUE_WORDS 5

enum orc_rescue_word {
    /* An orc_case: ORC_CASE_READ or ORC_CASE_REFUSED. */
    ORC_RESCUE_CASE = 0,
    /* The refusal's number, an orc_answer; 0 unless refused. */
    ORC_RESCUE_NUMBER = 1,
    /* Always 0. */
    ORC_RESCUE_PLACE = 2,
    /* How many rows were written, which is the sum of the counts, and how many groups were kept; 0 if
     * refused. */
    ORC_RESCUE_ROWS = 3,
    ORC_RESCUE_KEPT = 4
};

/* Rescues the rows of a damaged stream by the positions of its row groups, as ORC's row index lists them:
 * runs[k] is the byte where a run begins, skips[k] the rows to skip from there, and counts[k] the rows of group
 * k. Unlike those of orc_salvage, groups need not begin where runs begin. A group is kept exactly if all its
 * rows can be read from its position, and the row after them is where the next group begins, or the end of
 * input after the last group. In any other group each row is `fill`. So with the positions that a writer lists,
 * a damaged run costs the groups that have rows of it, and no other. Damage that leaves a group readable, with
 * its number of rows, is not seen.
 *
 * The rows of all groups are in the first places of rows, one group after the other, as many as `counts` adds
 * up to. verdicts[k] becomes 1 if group k was kept and 0 if it was replaced. orc_write_column makes a stream of
 * the rows again.
 *
 * Refused in this order: ORC_WRONG_STARTS if the three columns have unequal lengths, the first position is not
 * byte 0 with nothing to skip, a byte is below the one before it or above input_len, or of two groups at one
 * byte the later skips less (no groups at all are those of an empty input); ORC_TOO_FEW_PLACES if rows_len is
 * below what `counts` adds up to, or verdicts_len below the number of groups. */
uint64_t orc_rescue(const uint8_t *input, size_t input_len, const uint64_t *runs, size_t runs_len,
                    const uint64_t *skips, size_t skips_len, const uint64_t *counts, size_t counts_len,
                    int64_t fill, uint64_t flag, int64_t *rows, size_t rows_len, uint8_t *verdicts,
                    size_t verdicts_len, uint64_t *words, size_t words_len);

/* ---- A stream without odd widths ---- */

/* The family of orc_convert. */
#define ORC_CONVERT_WORDS 7

enum orc_convert_word {
    /* An orc_case: ORC_CASE_READ or ORC_CASE_REFUSED. */
    ORC_CONVERT_CASE = 0,
    /* The refusal's number, an orc_answer; 0 unless refused. */
    ORC_CONVERT_NUMBER = 1,
    /* The byte where the refused run begins; 0 for ORC_TOO_FEW_PLACES, and unless refused. */
    ORC_CONVERT_PLACE = 2,
    /* How many runs were altered, and how many bytes the new stream has; 0 if refused. */
    ORC_CONVERT_ALTERED = 3,
    ORC_CONVERT_BYTES = 4,
    /* 1 if the refusal names a cut field, and the byte of the input where it begins; otherwise 0 and 0. */
    ORC_CONVERT_CUT = 5,
    ORC_CONVERT_CUT_AT = 6
};

/* Converts a stream to the kept widths. Each direct or packed delta run of an odd width (all but 1, 2, 4, 8,
 * 16, 24, 32, 40, 48, 56 and 64 bits) becomes the writer's run of the same rows at the next kept width, and
 * every other run is copied. The new stream is in the first bytes of out. ORC_CONVERT_ROOM(input_len) bytes
 * are always enough. Refused in this order: the stream's own refusal, ORC_TOO_FEW_PLACES. */
uint64_t orc_convert(const uint8_t *input, size_t input_len, uint64_t flag, uint8_t *out, size_t out_len,
                     uint64_t *words, size_t words_len);

/* ---- Columns written ---- */

/* A proposal says how to cut a column of rows into runs: five columns with an entry for each segment. They are
 * first rows and row counts; forms, each an orc_form; widths, as orc_form says; and bases, the bits of an
 * int64_t, which only ORC_FORM_PATCHED looks at.
 *
 * Proposes runs for all rows, in the first places of the five columns, and returns how many. rows_len places in
 * each column are always enough for the planner's best. If its best lacks places, it proposes direct runs of 64
 * bits. It returns 0 only if there are no rows, or if the shortest column has fewer places than there are such
 * runs, one for every ORC_MAX_ROWS rows begun. The places after the segments may have changed. Which runs it
 * proposes is not promised: another version may cut otherwise. */
uint64_t orc_plan(const int64_t *rows, size_t rows_len, uint64_t flag, uint64_t *first, size_t first_len,
                  uint64_t *counts, size_t counts_len, uint64_t *forms, size_t forms_len,
                  uint64_t *widths, size_t widths_len, uint64_t *bases, size_t bases_len);

/* The family of orc_check_column, which refuses nothing: it has neither number nor place. */
#define ORC_CHECK_WORDS 4

enum orc_check_word {
    /* An orc_case: ORC_CASE_READ if the proposal is accepted, otherwise ORC_CASE_NOT_ACCEPTED. */
    ORC_CHECK_CASE = 0,
    /* How many runs the proposal has, how many rows, and how many bytes they take; 0 if not accepted. */
    ORC_CHECK_RUNS = 1,
    ORC_CHECK_ROWS = 2,
    ORC_CHECK_BYTES = 3
};

/* Checks a proposal, whoever made it. It is accepted exactly if its columns have one length, its segments cover
 * all rows in order with no overlap and no gap, the writer of each run accepts its segment, and `room` bytes
 * hold all runs. A column of no rows has the empty proposal, and no bytes. Returns 0, or ORC_TOO_FEW_WORDS. */
uint64_t orc_check_column(const int64_t *rows, size_t rows_len, uint64_t flag, const uint64_t *first,
                          size_t first_len, const uint64_t *counts, size_t counts_len,
                          const uint64_t *forms, size_t forms_len, const uint64_t *widths,
                          size_t widths_len, const uint64_t *bases, size_t bases_len, uint64_t room,
                          uint64_t *words, size_t words_len);

/* The family of orc_write_column. */
#define ORC_COLUMN_WORDS 6

enum orc_column_word {
    /* An orc_case: ORC_CASE_READ if the proposal was written, ORC_CASE_DIRECT if direct runs of 64 bits were,
     * or ORC_CASE_REFUSED. */
    ORC_COLUMN_CASE = 0,
    /* The refusal's number, an orc_answer; 0 unless refused. */
    ORC_COLUMN_NUMBER = 1,
    /* Always 0. */
    ORC_COLUMN_PLACE = 2,
    /* How many runs were written, how many rows, and how many bytes they take; 0 if refused. */
    ORC_COLUMN_RUNS = 3,
    ORC_COLUMN_ROWS = 4,
    ORC_COLUMN_BYTES = 5
};

/* Writes a column by a proposal into the first bytes of out. If the proposal is not accepted for this room, it
 * writes direct runs of 64 bits, ORC_MAX_ROWS rows each and the rest last. Whatever the proposal, what is
 * written reads whole as the rows. ORC_COLUMN_ROOM(rows_len) bytes are always enough. Refused with
 * ORC_TOO_FEW_PLACES if the direct runs have no room either. */
uint64_t orc_write_column(const int64_t *rows, size_t rows_len, uint64_t flag, const uint64_t *first,
                          size_t first_len, const uint64_t *counts, size_t counts_len,
                          const uint64_t *forms, size_t forms_len, const uint64_t *widths,
                          size_t widths_len, const uint64_t *bases, size_t bases_len, uint8_t *out,
                          size_t out_len, uint64_t *words, size_t words_len);

/* ---- Flags and bytes written ---- */

/* Writes a flag column into the first bytes of out: the flags of a boolean column, or which rows of any column
 * are present (ORC's PRESENT). flags has a byte for each row, and any but 0 is true. They are packed eight to a
 * byte, the highest bit first, with 0 for the bits after the last, and the bytes are written as byte runs. No
 * byte runs that stand for the same bytes have fewer. Nothing is written for no flags. The words are those of
 * ORC_RUN_WORDS: ORC_RUN_BYTES bytes were written, ORC_RUN_ROWS is flags_len, ORC_RUN_KIND is
 * ORC_KIND_BOOLEANS and ORC_RUN_WIDTH 1. ORC_BOOLEAN_ROOM(flags_len) bytes are always enough. Refused with
 * ORC_TOO_FEW_PLACES if out is too small. */
uint64_t orc_write_booleans(const uint8_t *flags, size_t flags_len, uint8_t *out, size_t out_len,
                            uint64_t *words, size_t words_len);

/* The family of orc_write_bytes. */
#define ORC_BYTES_WRITTEN_WORDS 5

enum orc_bytes_written_word {
    /* An orc_case: ORC_CASE_READ or ORC_CASE_REFUSED. */
    ORC_BYTES_WRITTEN_CASE = 0,
    /* The refusal's number, an orc_answer; 0 unless refused. */
    ORC_BYTES_WRITTEN_NUMBER = 1,
    /* Always 0. */
    ORC_BYTES_WRITTEN_PLACE = 2,
    /* How many bytes were taken, which is all of them, and how many were written; 0 if refused. */
    ORC_BYTES_WRITTEN_TAKEN = 3,
    ORC_BYTES_WRITTEN_SIZE = 4
};

/* The same with bytes as they are, for tinyint columns. ORC_BYTE_ROOM(bytes_len) bytes are always enough. */
uint64_t orc_write_bytes(const uint8_t *bytes, size_t bytes_len, uint8_t *out, size_t out_len,
                         uint64_t *words, size_t words_len);

/* Return how many bytes orc_write_booleans and orc_write_bytes would write, exactly. */
uint64_t orc_size_of_booleans(const uint8_t *flags, size_t flags_len);
uint64_t orc_size_of_bytes(const uint8_t *bytes, size_t bytes_len);

/* The room that is always enough, as functions: ORC_BYTE_ROOM and ORC_BOOLEAN_ROOM of a length that is known
 * only when the program runs. */
static inline size_t orc_byte_room(size_t bytes)
{
    return ORC_BYTE_ROOM(bytes);
}

static inline size_t orc_boolean_room(size_t flags)
{
    return ORC_BOOLEAN_ROOM(flags);
}

/* ---- One run, answered by one number ---- */

/* Reads the run at the start of input, and returns an orc_answer, or, from ORC_RUN on, a run: its rows and its
 * bytes are what orc_rows and orc_consumed say. Each row is written to out as eight bytes, the lowest first. A
 * last part of out with fewer than eight bytes is not a place and keeps its content. ORC_MAX_ROWS_BYTES bytes
 * hold any run. */
uint64_t orc_read_run(const uint8_t *input, size_t input_len, uint8_t *out, size_t out_len,
                      uint64_t flag);

/* How many rows a number of orc_read_run stands for: 0 unless it is a run. */
static inline size_t orc_rows(uint64_t answer)
{
    return answer < ORC_RUN ? 0 : answer % ORC_RUN;
}

/* How many bytes the run takes: 0 unless it is a run. The next run begins there. */
static inline size_t orc_consumed(uint64_t answer)
{
    return answer / ORC_RUN;
}

#ifdef __cplusplus
}
#endif

#endif
