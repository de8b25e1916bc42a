/* What the header has beside the calls: the version, the numbers by their words and the words of numbers, the places of ra_info, the longest file. */
#include "files.h"
#include "harness.h"
#include "tests.h"

#include <string.h>

#define TEXT_OF(number) #number
#define TEXT(number) TEXT_OF(number)

/* The version in one piece is its three numbers; the last request has the number of stored cells before an empty cell. */
void version_macros(void)
{
    HOLDS(strcmp(RA_VERSION, TEXT(RA_VERSION_MAJOR) "." TEXT(RA_VERSION_MINOR) "." TEXT(RA_VERSION_PATCH)) == 0);
#if RA_VERSION_MAJOR < 1 || RA_REQUEST < 9
    HOLDS(!"the version's numbers and the request can be tested by the preprocessor");
#endif
}

/* Each word's number is the answer that the word is of. */
void numbers_by_their_words(void)
{
    static const uint32_t beyond_line[4] = {12, 0, 0, 0};
    uint32_t far_apart[300] = {[0] = 1, [257] = 1};
    uint8_t file[200], other[200], dst[200];
    size_t len = sample(1, file);
    EQUAL(ra_check(file, 51), RA_SHORT);
    EQUAL(ra_change(file, len, 7, 0, 0, dst, 200), RA_KIND);
    EQUAL(ra_change(file, len, 2, 1, 0, dst, 200), RA_SETTING);
    EQUAL(ra_make(2, 0, 0, 5, LINE_12, 4, 0, SAMPLE, 12, dst, 200), RA_EXTENT);
    EQUAL(ra_check(file, len - 1), RA_COUNTS);
    EQUAL(ra_make(2, 0, 0, 1, LINE_12, 4, 0, SAMPLE, 11, dst, 200), RA_PICTURE);
    EQUAL(RA_CODE(ra_coordinates_position(1, LINE_12, 4, beyond_line, 4)), RA_BEYOND);
    EQUAL(make_line((struct setting){3, 1, 2}, far_apart, 300, dst, 200), RA_UNFIT);
    EQUAL(ra_change(file, len, 2, 0, 0, dst, len - 1), RA_SMALL);
    EQUAL(ra_write(file, len, 0, 1, other, 200), 0);
    EQUAL(RA_CODE(ra_shorter(file, len, other, field(other, 48))), RA_OTHER);
    EQUAL(RA_CODE(ra_rank(file, len, 0)), RA_EMPTY);
    EQUAL(RA_VALUE(ra_rank(file, len, 0)), 0);
    EQUAL(RA_CODE(ra_rank(file, len, 6)), RA_EMPTY);
    EQUAL(RA_VALUE(ra_rank(file, len, 6)), 3);
    set_field(file, 52, 12);
    EQUAL(ra_check(file, len), RA_BODY);
}

/* The word of each number, and of numbers that have none. */
void words_of_numbers(void)
{
    static const char *const words[] = {"accepted", "short",   "kind",   "setting", "extent", "counts",
                                        "body",     "picture", "beyond", "unfit",   "small",  "other"};
    static const uint32_t unknown[] = {12, 254, 256, UINT32_MAX};
    for (uint32_t number = 0; number <= RA_OTHER; number++)
        HOLDS(strcmp(ra_word(number), words[number]) == 0);
    HOLDS(strcmp(ra_word(RA_EMPTY), "empty") == 0);
    for (size_t i = 0; i < sizeof unknown / sizeof *unknown; i++)
        HOLDS(strcmp(ra_word(unknown[i]), "unknown") == 0);
}

/* Each number that ra_info puts out stands at its place: a picture whose numbers up to the extents are all different. */
void places_of_info(void)
{
    static const uint32_t extents[4] = {4, 5, 1, 1};
    uint32_t words[20], info[RA_INFO_NUMBERS + 1] = {[RA_INFO_NUMBERS] = 99};
    uint8_t file[200];
    for (uint32_t p = 0; p < 20; p++)
        words[p] = p < 6 ? p : 77;
    EQUAL(ra_make(3, 1, 7, 2, extents, 4, 77, words, 20, file, 200), 0);
    EQUAL(ra_info(file, field(file, 48), info, RA_INFO_NUMBERS + 1), 0);
    EQUAL(info[RA_INFO_KIND], 3);
    EQUAL(info[RA_INFO_WIDTH], 1);
    EQUAL(info[RA_INFO_STEP], 7);
    EQUAL(info[RA_INFO_DIMS], 2);
    EQUAL(info[RA_INFO_CELLS], 20);
    EQUAL(info[RA_INFO_EMPTY], 77);
    EQUAL(info[RA_INFO_STORED], 6);
    HOLDS(memcmp(info + RA_INFO_EXTENTS, extents, sizeof extents) == 0);
    EQUAL(RA_INFO_EXTENTS + 4, RA_INFO_NUMBERS);
    EQUAL(info[RA_INFO_NUMBERS], 99);
}

/* A picture whose file is as long as any can be: every cell stored, kind 3 with a base and two bytes of offset for each. */
void longest_file(void)
{
    static const uint32_t extents[4] = {16777216, 1, 1, 1};
    size_t before = lent_count();
    uint32_t *words = lend((size_t)4 * extents[0], AT_END);
    uint8_t *file = lend(RA_LONGEST_FILE, AT_END);
    memset(words, 1, (size_t)4 * extents[0]);
    EQUAL(ra_make(3, 2, 1, 1, extents, 4, 0, words, extents[0], file, RA_LONGEST_FILE - 1), RA_SMALL);
    EQUAL(ra_make(3, 2, 1, 1, extents, 4, 0, words, extents[0], file, RA_LONGEST_FILE), 0);
    EQUAL(field(file, 48), RA_LONGEST_FILE);
    release(before);
}
