/* The numbers of refused calls, in the order in which they are tested. */
#include "files.h"
#include "harness.h"
#include "tests.h"

#include <string.h>

/* Every number of make, in the order in which it is tested. */
void refusals_of_make(void)
{
    static const uint32_t wrong[4] = {12, 2, 1, 1};
    static const uint32_t wraps[4] = {65536, 65536, 65536, 65536};
    uint8_t file[100];
    EQUAL(ra_make(0, 9, 9, 9, wrong, 4, 0, SAMPLE, 3, file, 0), 2);
    EQUAL(ra_make(7, 9, 9, 9, wrong, 4, 0, SAMPLE, 3, file, 0), 2);
    EQUAL(ra_make(257, 0, 0, 1, LINE_12, 4, 0, SAMPLE, 12, file, 100), 2);
    EQUAL(ra_make(3, 257, 1, 9, wrong, 4, 0, SAMPLE, 3, file, 0), 3);
    EQUAL(ra_make(6, 1, 0, 9, wrong, 4, 0, SAMPLE, 3, file, 0), 3);
    EQUAL(ra_make(6, 1, 256, 9, wrong, 4, 0, SAMPLE, 3, file, 0), 3);
    EQUAL(ra_make(6, 0, 1, 9, wrong, 4, 0, SAMPLE, 3, file, 0), 3);
    EQUAL(ra_make(1, 0, 0, 1, wrong, 4, 0, SAMPLE, 3, file, 0), 4);
    EQUAL(ra_make(1, 0, 0, 4, wraps, 4, 0, SAMPLE, 0, file, 0), 4);
    EQUAL(ra_make(1, 0, 0, 1, LINE_12, 3, 0, SAMPLE, 12, file, 100), 4);
    EQUAL(ra_make(1, 0, 0, 1, NULL, 0, 0, SAMPLE, 12, file, 100), 4);
    EQUAL(ra_make(1, 0, 0, 1, LINE_12, 4, 0, SAMPLE, 11, file, 0), 7);
    EQUAL(ra_make(1, 0, 0, 1, LINE_12, 4, 0, NULL, 0, file, 0), 7);
    EQUAL(ra_make(1, 0, 0, 1, LINE_12, 4, 0, SAMPLE, 12, file, 91), 10);
    EQUAL(ra_make(1, 0, 0, 1, LINE_12, 4, 0, SAMPLE, 12, NULL, 0), 10);
}

/* The numbers of write and change on an accepted file, in the order in which they are tested. */
void refusals_of_write_and_change(void)
{
    uint8_t file[200], dst[200];
    uint32_t words[300] = {0};
    size_t len = sample(2, file);
    EQUAL(ra_write(file, len, 12, 1, dst, 0), 8);
    EQUAL(ra_write(file, len, 11, 1, dst, 0), 10);
    EQUAL(ra_change(file, len, 0, 9, 9, dst, 0), 2);
    EQUAL(ra_change(file, len, 257, 0, 0, dst, 200), 2);
    EQUAL(ra_change(file, len, 3, 0, 1, dst, 0), 3);
    EQUAL(ra_change(file, len, 3, 257, 1, dst, 200), 3);
    EQUAL(ra_change(file, len, 5, 0, 258, dst, 200), 3);
    EQUAL(ra_change(file, len, 6, 3, 2, dst, 200), 3);
    EQUAL(ra_change(file, len, 6, 1, 258, dst, 200), 3);
    EQUAL(ra_change(file, len, 6, 1, 2, dst, 79), 10);
    EQUAL(ra_change(file, len, 1, 0, 0, dst, 91), 10);
    words[2] = 7;
    EQUAL(make_line(SETTINGS[2], words, 300, file, 200), 0);
    len = field(file, 48);
    EQUAL(ra_write(file, len, 258, 1, dst, 0), 9);
    EQUAL(ra_write(file, len, 257, 1, dst, 200), 0);
    words[258] = 8;
    EQUAL(make_line(SETTINGS[1], words, 300, file, 200), 0);
    len = field(file, 48);
    EQUAL(ra_change(file, len, 3, 1, 2, dst, 0), 9);
    EQUAL(ra_change(file, len, 3, 2, 2, dst, 0), 10);
    EQUAL(ra_change(file, len, 3, 2, 2, dst, 200), 0);
}

/* Damages a file of kind 1 so that a number applies; gives its length. */
static size_t damage_for(uint8_t *file, size_t len, uint32_t number)
{
    switch (number) {
    case 1: return 51;
    case 2: file[0] = 7; break;
    case 3: file[3] = 1; break;
    case 4: set_field(file, 8, 0); break;
    case 5: set_field(file, 48, 91); break;
    default: set_field(file, 52, 4); break;
    }
    return len;
}

/* The numbers 1 to 6 of a file in every call, before all others. */
void refusals_of_files(void)
{
    for (uint32_t number = 1; number <= 6; number++) {
        uint8_t good[200], file[200], dst[200], before[200];
        uint32_t words[20];
        const uint32_t far[4] = {99, 99, 99, 99};
        size_t len = sample(0, good);
        memcpy(file, good, len);
        len = damage_for(file, len, number);
        memset(dst, 0xa5, sizeof dst);
        memset(before, 0xa5, sizeof before);
        EQUAL(ra_check(file, len), number);
        EQUAL(ra_write(file, len, 99, 1, dst, 0), number);
        EQUAL(ra_write(file, len, 2, 1, dst, sizeof dst), number);
        EQUAL(ra_change(file, len, 9, 9, 9, dst, 0), number);
        EQUAL(ra_change(file, len, 2, 0, 0, dst, sizeof dst), number);
        EQUAL(ra_expand(file, len, words, 0), number);
        EQUAL(ra_info(file, len, words, 0), number);
        EQUAL(ra_cell(file, len, 99), refused(number));
        EQUAL(ra_rank(file, len, 99), refused(number));
        EQUAL(ra_position(file, len, 99), refused(number));
        EQUAL(ra_box(file, len, far, 4, far, 4, words, 0), number);
        EQUAL(ra_box(file, len, NULL, 0, NULL, 0, NULL, 0), number);
        EQUAL(ra_ranks(file, len, 9, 8), refused(number));
        EQUAL(ra_shorter(file, len, good, 92), refused(number));
        EQUAL(ra_shorter(good, 92, file, len), refused(number));
        EQUAL(ra_shorter(file, len, good, 7), refused(number));
        HOLDS(memcmp(dst, before, sizeof dst) == 0);
    }
}

/* Slices of length 0 whose pointer is nothing. */
void nothing_lent(void)
{
    EQUAL(ra_check(NULL, 0), 1);
    EQUAL(ra_write(NULL, 0, 0, 0, NULL, 0), 1);
    EQUAL(ra_change(NULL, 0, 1, 0, 0, NULL, 0), 1);
    EQUAL(ra_expand(NULL, 0, NULL, 0), 1);
    EQUAL(ra_info(NULL, 0, NULL, 0), 1);
    EQUAL(ra_cell(NULL, 0, 0), refused(1));
    EQUAL(ra_ranks(NULL, 0, 0, 0), refused(1));
    EQUAL(ra_shorter(NULL, 0, NULL, 0), refused(1));
    EQUAL(ra_opened_cell(NULL, 0, 0), refused(8));
    EQUAL(ra_opened_rank(NULL, 0, 0), refused(8));
    EQUAL(ra_opened_position(NULL, 0, 0), refused(8));
    EQUAL(ra_coordinates_position(1, NULL, 0, NULL, 0), refused(4));
    EQUAL(ra_coordinates_position(1, LINE_12, 4, NULL, 0), refused(8));
    EQUAL(ra_position_coordinates(1, NULL, 0, 0, NULL, 0), 4);
    EQUAL(ra_position_coordinates(1, LINE_12, 4, 12, NULL, 0), 8);
    EQUAL(ra_position_coordinates(1, LINE_12, 4, 11, NULL, 0), 10);
}
