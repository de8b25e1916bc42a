/*
 * Radar picture archive: the C interface.
 *
 * A picture is 1 to 4 dimensions, an empty word E and one 32-bit word for each cell, in row order (the last dimension runs fastest); at
 * most 16,777,216 cells. A file keeps the words that are not E, and a header of one of six kinds that says where they stood. A setting
 * is kind, width and step:
 *
 *    kind 1  runs             width 0        step 0
 *    kind 2  positions        width 0        step 0
 *    kind 3  base and offset  width 1 or 2   step 1 to 255
 *    kind 4  jumps            width 1 or 2   step 0
 *    kind 5  paged runs       width 0        step 2 to 64
 *    kind 6  pointed jumps    width 1 or 2   step 1 to 255: kind 4 with the rank of every step-th jump behind the differences
 *
 * Every call is total: any bytes and any numbers may be handed in, and the caller owes no earlier check. A buffer is a pointer and then
 * a length in elements; a pointer may be anything where the length is 0. Buffers lent to one call must not overlap. No call allocates,
 * keeps a pointer or has state, so calls may run at the same time in several threads.
 *
 * A plain answer is a number: 0 (accepted), or the first of these that applies, in the order that the call names:
 *
 *    1 short    file under 52 bytes
 *    2 kind     kind not 1 to 6
 *    3 setting  width or step not allowed for the kind
 *    4 extent   dimension count, extent or product outside the picture's rule, or an extent past the count that isn't 1
 *    5 counts   a count, offset or length that the layout doesn't give, or bytes lent differ from the length
 *    6 body     none of 1 to 5, and no picture has these bytes
 *    7 picture  words lent aren't cells in number
 *    8 beyond   position >= cells, rank >= N, a coordinate outside its extent, box low above high, rank range not a <= b <= N
 *    9 unfit    the file to be put out is kind 3 and an offset exceeds 256^width - 1
 *   10 small    destination shorter than the result
 *   11 other    two files whose dimensions, E or words differ
 *
 * A refused call leaves the destination unchanged to the last element. An accepted result fills the destination's first elements and
 * leaves the rest unchanged; a file's length stands in its bytes 48 to 51, lowest byte first. No file is longer than 167,772,212 bytes.
 *
 * A lookup's answer is 64 bits: the low 32 the value, the high 32 the code: 0 given, 1 to 11 refused with that number (the value is then
 * 0), 255 empty (the value is then the number of stored cells before the cell).
 *
 * To link: radar_archive.pc has the flags of the installed library. The loader finds the shared one by its soname libradar_archive.so.1,
 * whose number is RA_VERSION_MAJOR; the static one needs nothing but the C library.
 *
 *    cc program.c $(pkg-config --cflags --libs radar_archive)
 *    cc program.c $(pkg-config --cflags radar_archive) $(pkg-config --variable=libdir radar_archive)/libradar_archive.a
 *
 * The examples are C11. Each stands on its own beside this sample, a picture of 12 cells with E = 0 and its file of kind 2:
 *
 * Sample:
 *     static const uint32_t extents[4] = {12, 1, 1, 1};
 *     static const uint32_t words[12] = {0, 0, 7, 9, 0, 5, 0, 0, 0, 0, 300, 0};
 *     static const uint8_t file[84] = {
 *         2, 1, 0, 0, 12, 0, 0, 0, 1, 0, 0, 0, 1, 0, 0, 0, 1, 0, 0, 0, 0, 0, 0, 0, 4, 0, 0, 0, 4, 0, 0, 0, 0, 0, 0, 0, 52, 0, 0, 0, 68, 0,
 *         0, 0, 68, 0, 0, 0, 84, 0, 0, 0, 2, 0, 0, 0, 3, 0, 0, 0, 5, 0, 0, 0, 10, 0, 0, 0, 7, 0, 0, 0, 9, 0, 0, 0, 5, 0, 0, 0, 44, 1, 0, 0};
 */
#ifndef RADAR_ARCHIVE_H
#define RADAR_ARCHIVE_H

#include <stddef.h>
#include <stdint.h>

#ifdef __cplusplus
extern "C" {
#endif

/* The version. The package, radar_archive.pc and the command have it from here. */
#define RA_VERSION_MAJOR 1
#define RA_VERSION_MINOR 2
#define RA_VERSION_PATCH 0
#define RA_VERSION "1.2.0"

/*
 * The last change request that this interface has: 0 is document 01 alone, 7 adds kind 6, 9 the number of stored cells before an empty
 * cell. A program can test it.
 */
#define RA_REQUEST 9

/* The bytes of the longest file. */
#define RA_LONGEST_FILE 167772212u

/* The numbers of refusals, by their words. */
#define RA_SHORT 1u
#define RA_KIND 2u
#define RA_SETTING 3u
#define RA_EXTENT 4u
#define RA_COUNTS 5u
#define RA_BODY 6u
#define RA_PICTURE 7u
#define RA_BEYOND 8u
#define RA_UNFIT 9u
#define RA_SMALL 10u
#define RA_OTHER 11u

/* The code of ra_rank and ra_opened_rank that says the cell is empty. */
#define RA_EMPTY 255u

/* The value and the code of a lookup's answer. */
#define RA_VALUE(answer) ((uint32_t)(answer))
#define RA_CODE(answer) ((uint32_t)((answer) >> 32))

/*
 * The word of a number: "accepted" for 0, "short" to "other" for 1 to 11, "empty" for RA_EMPTY, "unknown" for any other.
 *
 * Example:
 *     assert(strcmp(ra_word(ra_check(file, 83)), "counts") == 0);
 */
static inline const char *ra_word(uint32_t number)
{
    static const char *const words[] = {"accepted", "short", "kind",   "setting", "extent", "counts",
                                        "body",     "picture", "beyond", "unfit",   "small",  "other"};
    return number <= RA_OTHER ? words[number] : number == RA_EMPTY ? "empty" : "unknown";
}

/*
 * The complete check of a file.
 *
 *   file, len   the file's bytes
 *
 * Answers 0 if some picture has these bytes, else the first of 1 to 6.
 *
 * Example:
 *     assert(ra_check(file, 84) == 0);
 *     assert(ra_check(file, 83) == 5);
 *     assert(ra_check(file, 51) == 1);
 */
uint32_t ra_check(const uint8_t *file, size_t len);

/*
 * What the file's header says. The complete check comes first.
 *
 *   file, len      the file's bytes
 *   dst, dst_len   the destination, in numbers
 *
 * Answers 0, or the first of 1 to 6, 10. Accepted: RA_INFO_NUMBERS numbers stand in the destination's first elements: kind, width, step, the
 * number of dimensions, cells, E, N, and the four extents, 1 past the number of dimensions. RA_INFO_KIND to RA_INFO_EXTENTS are their places.
 *
 * Example:
 *     uint32_t info[RA_INFO_NUMBERS];
 *     assert(ra_info(file, 84, info, RA_INFO_NUMBERS) == 0);
 *     assert(info[RA_INFO_KIND] == 2 && info[RA_INFO_CELLS] == 12 && info[RA_INFO_STORED] == 4);
 *     for (uint32_t i = 0; i < info[RA_INFO_DIMS]; i++)
 *         assert(info[RA_INFO_EXTENTS + i] == extents[i]);
 *     assert(ra_info(file, 84, info, 10) == 10);
 */
#define RA_INFO_NUMBERS 11
enum {
    RA_INFO_KIND,
    RA_INFO_WIDTH,
    RA_INFO_STEP,
    RA_INFO_DIMS,
    RA_INFO_CELLS,
    RA_INFO_EMPTY,
    RA_INFO_STORED,
    RA_INFO_EXTENTS
};
uint32_t ra_info(const uint8_t *file, size_t len, uint32_t *dst, size_t dst_len);

/*
 * Makes the file of a picture.
 *
 *   kind, width, step      the setting
 *   dims                   the number of dimensions
 *   extents, extents_len   four numbers, 1 past the number of dimensions; another number of them is 4
 *   empty                  the empty word E
 *   words, words_len       one word for each cell, in row order
 *   dst, dst_len           the destination, in bytes
 *
 * Answers 0, or the first of 2, 3, 4, 7, 9, 10. Accepted: the file stands in the destination's first bytes.
 *
 * Example:
 *     uint8_t made[100] = {0};
 *     assert(ra_make(2, 0, 0, 1, extents, 4, 0, words, 12, made, 100) == 0);
 *     assert(memcmp(made, file, 84) == 0);
 *     assert(ra_make(2, 0, 0, 1, extents, 4, 0, words, 11, made, 100) == 7);
 *     assert(ra_make(2, 0, 0, 1, extents, 4, 0, words, 12, made, 83) == 10);
 */
uint32_t ra_make(uint32_t kind, uint32_t width, uint32_t step, uint32_t dims, const uint32_t *extents, size_t extents_len,
                 uint32_t empty, const uint32_t *words, size_t words_len, uint8_t *dst, size_t dst_len);

/*
 * Puts out the file after writing one cell, in the file's own setting. Writing E empties the cell; writing the word already there is
 * accepted.
 *
 *   file, len      the file's bytes
 *   position       where
 *   word           what
 *   dst, dst_len   the destination, in bytes
 *
 * Answers 0, or the first of 1 to 6, 8, 9, 10. Accepted: the new file stands in the destination's first bytes.
 *
 * Example:
 *     uint8_t written[92] = {0};
 *     assert(ra_write(file, 84, 6, 41, written, 92) == 0);
 *     assert(written[48] == 92);
 *     assert(RA_VALUE(ra_cell(written, 92, 6)) == 41);
 *     assert(ra_write(file, 84, 12, 41, written, 92) == 8);
 */
uint32_t ra_write(const uint8_t *file, size_t len, uint32_t position, uint32_t word, uint8_t *dst, size_t dst_len);

/*
 * Puts out the file in another setting.
 *
 *   file, len           the file's bytes
 *   kind, width, step   the new setting
 *   dst, dst_len        the destination, in bytes
 *
 * Answers 0, or the first of 1 to 6 of the file, then 2, 3 of the setting, 9, 10. Accepted: the new file stands in the destination's
 * first bytes.
 *
 * Example:
 *     uint8_t changed[84] = {0};
 *     assert(ra_change(file, 84, 4, 1, 0, changed, 84) == 0);
 *     assert(changed[48] == 76);
 *     assert(ra_check(changed, 76) == 0);
 *     assert(ra_change(file, 84, 5, 0, 65, changed, 84) == 3);
 */
uint32_t ra_change(const uint8_t *file, size_t len, uint32_t kind, uint32_t width, uint32_t step, uint8_t *dst, size_t dst_len);

/*
 * All words of the picture, in row order.
 *
 *   file, len      the file's bytes
 *   dst, dst_len   the destination, in words
 *
 * Answers 0, or the first of 1 to 6, 10. Accepted: the words stand in the destination's first elements.
 *
 * Example:
 *     uint32_t out[13] = {0};
 *     out[12] = 99;
 *     assert(ra_expand(file, 84, out, 13) == 0);
 *     assert(memcmp(out, words, sizeof words) == 0 && out[12] == 99);
 *     assert(ra_expand(file, 84, out, 11) == 10);
 */
uint32_t ra_expand(const uint8_t *file, size_t len, uint32_t *dst, size_t dst_len);

/*
 * The word at a position. The complete check comes first.
 *
 *   file, len   the file's bytes
 *   position    where
 *
 * Answers the word (code 0; E for an empty cell), or the first of 1 to 6, 8.
 *
 * Example:
 *     uint64_t answer = ra_cell(file, 84, 10);
 *     assert(RA_CODE(answer) == 0 && RA_VALUE(answer) == 300);
 *     assert(RA_CODE(ra_cell(file, 84, 12)) == 8);
 */
uint64_t ra_cell(const uint8_t *file, size_t len, uint32_t position);

/*
 * The rank at a position: the number of stored cells before it. The complete check comes first.
 *
 *   file, len   the file's bytes
 *   position    where
 *
 * Answers the rank (code 0); for an empty cell RA_EMPTY, and as the value the number of stored cells before it: 0 before the first stored
 * cell, N after the last; or the first of 1 to 6, 8. So the stored cells from one position to another, both inclusive, are the value at the
 * second, 1 more if it is stored, less the value at the first.
 *
 * Example:
 *     uint64_t stored = ra_rank(file, 84, 5), empty = ra_rank(file, 84, 6), last = ra_rank(file, 84, 11);
 *     assert(RA_CODE(stored) == 0 && RA_VALUE(stored) == 2);
 *     assert(RA_CODE(empty) == RA_EMPTY && RA_VALUE(empty) == 3);
 *     assert(RA_CODE(last) == RA_EMPTY && RA_VALUE(last) == 4);
 *     uint32_t from_5_to_11 = RA_VALUE(last) + (RA_CODE(last) == 0) - RA_VALUE(stored);
 *     assert(from_5_to_11 == 2);
 */
uint64_t ra_rank(const uint8_t *file, size_t len, uint32_t position);

/*
 * The position of a rank. The complete check comes first.
 *
 *   file, len   the file's bytes
 *   rank        which of the stored cells
 *
 * Answers the position (code 0), or the first of 1 to 6, 8.
 *
 * Example:
 *     uint64_t answer = ra_position(file, 84, 3);
 *     assert(RA_CODE(answer) == 0 && RA_VALUE(answer) == 10);
 *     assert(RA_CODE(ra_position(file, 84, 4)) == 8);
 */
uint64_t ra_position(const uint8_t *file, size_t len, uint32_t rank);

/*
 * The position of coordinates, in row order.
 *
 *   dims, extents, extents_len   the dimensions, as for ra_make
 *   at, at_len                   four coordinates, those past the number of dimensions 0; another number of them is 8
 *
 * Answers the position (code 0), or the first of 4, 8.
 *
 * Example:
 *     uint32_t three_by_four[4] = {3, 4, 1, 1};
 *     uint32_t at[4] = {1, 2, 0, 0};
 *     assert(RA_VALUE(ra_coordinates_position(2, three_by_four, 4, at, 4)) == 6);
 *     at[1] = 4;
 *     assert(RA_CODE(ra_coordinates_position(2, three_by_four, 4, at, 4)) == 8);
 */
uint64_t ra_coordinates_position(uint32_t dims, const uint32_t *extents, size_t extents_len, const uint32_t *at, size_t at_len);

/*
 * The coordinates of a position.
 *
 *   dims, extents, extents_len   the dimensions, as for ra_make
 *   position                     which
 *   dst, dst_len                 the destination, in numbers
 *
 * Answers 0, or the first of 4, 8, 10. Accepted: the four coordinates stand in the destination's first elements.
 *
 * Example:
 *     uint32_t three_by_four[4] = {3, 4, 1, 1};
 *     uint32_t at[4] = {0};
 *     assert(ra_position_coordinates(2, three_by_four, 4, 6, at, 4) == 0);
 *     assert(at[0] == 1 && at[1] == 2 && at[2] == 0 && at[3] == 0);
 */
uint32_t ra_position_coordinates(uint32_t dims, const uint32_t *extents, size_t extents_len, uint32_t position, uint32_t *dst,
                                 size_t dst_len);

/*
 * The words of a box, in row order.
 *
 *   file, len        the file's bytes
 *   low, low_len     four coordinates of the low corner, those past the number of dimensions 0
 *   high, high_len   four coordinates of the high corner, which belongs to the box
 *   dst, dst_len     the destination, in words
 *
 * Answers 0, or the first of 1 to 6, 8, 10; a corner of another number of coordinates is 8. Accepted: the words stand in the
 * destination's first elements.
 *
 * Example:
 *     uint32_t low[4] = {2, 0, 0, 0}, high[4] = {5, 0, 0, 0}, out[4] = {0};
 *     assert(ra_box(file, 84, low, 4, high, 4, out, 4) == 0);
 *     assert(out[0] == 7 && out[1] == 9 && out[2] == 0 && out[3] == 5);
 */
uint32_t ra_box(const uint8_t *file, size_t len, const uint32_t *low, size_t low_len, const uint32_t *high, size_t high_len,
                uint32_t *dst, size_t dst_len);

/*
 * Where the stored bytes of some ranks begin in the caller's file; they are 4 * (to - from) bytes.
 *
 *   file, len   the file's bytes
 *   from, to    the ranks, `to` not included
 *
 * Answers the offset (code 0), or the first of 1 to 6, 8.
 *
 * Example:
 *     uint64_t answer = ra_ranks(file, 84, 1, 3);
 *     assert(RA_CODE(answer) == 0 && RA_VALUE(answer) == 72);
 *     assert(file[72] == 9 && file[76] == 5);
 */
uint64_t ra_ranks(const uint8_t *file, size_t len, uint32_t from, uint32_t to);

/*
 * Which of two files of one picture is the shorter.
 *
 *   a, a_len   the first file's bytes
 *   b, b_len   the second file's bytes
 *
 * Answers 0 (the first, also on equal length) or 1 (the second), code 0; or the first of 1 to 6 of a, 1 to 6 of b, 11.
 *
 * Example:
 *     uint8_t jumps[76] = {0};
 *     assert(ra_change(file, 84, 4, 1, 0, jumps, 76) == 0);
 *     assert(RA_VALUE(ra_shorter(file, 84, jumps, 76)) == 1);
 */
uint64_t ra_shorter(const uint8_t *a, size_t a_len, const uint8_t *b, size_t b_len);

/*
 * The three lookups over the header's own counts, nothing checked, for a file that ra_check has accepted and that has not changed since:
 * there they answer as ra_cell, ra_rank and ra_position do, in the time of the search alone. On any other bytes they end all the same,
 * inside what was lent, with 8, empty (the value is then any number), a number below what the header claims, or (ra_opened_cell) any word.
 * Under 52 bytes: 8.
 *
 * Example:
 *     assert(ra_check(file, 84) == 0);
 *     for (uint32_t p = 0; p < 12; p++)
 *         assert(RA_VALUE(ra_opened_cell(file, 84, p)) == words[p]);
 *     assert(RA_VALUE(ra_opened_rank(file, 84, 5)) == 2);
 *     assert(RA_CODE(ra_opened_rank(file, 84, 6)) == RA_EMPTY && RA_VALUE(ra_opened_rank(file, 84, 6)) == 3);
 *     assert(RA_VALUE(ra_opened_position(file, 84, 2)) == 5);
 */
uint64_t ra_opened_cell(const uint8_t *file, size_t len, uint32_t position);
uint64_t ra_opened_rank(const uint8_t *file, size_t len, uint32_t position);
uint64_t ra_opened_position(const uint8_t *file, size_t len, uint32_t rank);

#ifdef __cplusplus
}
#endif

#endif
