/* Coordinates both ways, boxes and ranges of ranks of a picture of 3 rows and 4 columns, and two files of the sample. */
#include "files.h"
#include "harness.h"
#include "tests.h"

#include <string.h>

static const uint32_t EXTENTS[4] = {3, 4, 1, 1};

void coordinates(void)
{
    uint32_t at[5];
    for (uint32_t p = 0; p < 12; p++) {
        uint32_t wanted[4] = {p / 4, p % 4, 0, 0};
        at[4] = 77;
        EQUAL(ra_position_coordinates(2, EXTENTS, 4, p, at, 3), 10);
        EQUAL(ra_position_coordinates(2, EXTENTS, 4, p, at, 5), 0);
        HOLDS(memcmp(at, wanted, sizeof wanted) == 0);
        EQUAL(at[4], 77);
        EQUAL(ra_coordinates_position(2, EXTENTS, 4, wanted, 4), given(p));
    }
    EQUAL(ra_coordinates_position(2, EXTENTS, 4, (uint32_t[4]){1, 4, 0, 0}, 4), refused(8));
    EQUAL(ra_coordinates_position(2, EXTENTS, 4, (uint32_t[4]){1, 2, 1, 0}, 4), refused(8));
    EQUAL(ra_coordinates_position(2, EXTENTS, 4, (uint32_t[5]){1, 2, 0, 0, 0}, 5), refused(8));
    EQUAL(ra_coordinates_position(1, EXTENTS, 4, (uint32_t[4]){0}, 4), refused(4));
    EQUAL(ra_position_coordinates(2, EXTENTS, 4, 12, at, 5), 8);
}

/* The box between two corners of a file against its words. */
static void box(const uint8_t *file, size_t len, const uint32_t *words, const uint32_t low[4], const uint32_t high[4])
{
    uint32_t wanted[12], boxed[13];
    size_t size = 0;
    if (low[0] > high[0] || low[1] > high[1]) {
        EQUAL(ra_box(file, len, low, 4, high, 4, boxed, 13), 8);
        EQUAL(ra_box(file, len, low, 4, high, 4, boxed, 0), 8);
        return;
    }
    for (uint32_t r = low[0]; r <= high[0]; r++)
        for (uint32_t c = low[1]; c <= high[1]; c++)
            wanted[size++] = words[4 * r + c];
    boxed[size] = 77;
    EQUAL(ra_box(file, len, low, 4, high, 4, boxed, size - 1), 10);
    EQUAL(ra_box(file, len, low, 4, high, 4, boxed, size + 1), 0);
    HOLDS(memcmp(boxed, wanted, 4 * size) == 0);
    EQUAL(boxed[size], 77);
}

/* Every range of ranks of a file, and the next ones outside. */
static void ranges(const uint8_t *file, size_t len)
{
    uint32_t stored = field(file, 24), words_at = field(file, 44);
    for (uint32_t from = 0; from <= stored + 1; from++)
        for (uint32_t to = 0; to <= stored + 1; to++)
            EQUAL(ra_ranks(file, len, from, to), from <= to && to <= stored ? given(words_at + 4 * from) : refused(8));
}

void boxes_and_ranks(void)
{
    uint32_t words[12];
    uint8_t file[400];
    for (uint32_t p = 0; p < 12; p++)
        words[p] = 3 * (p % 5);
    for (int i = 0; i < KINDS; i++) {
        struct setting s = SETTINGS[i];
        EQUAL(ra_make(s.kind, s.width, s.step, 2, EXTENTS, 4, 0, words, 12, file, sizeof file), 0);
        size_t len = field(file, 48);
        for (uint32_t low = 0; low < 12; low++)
            for (uint32_t high = 0; high < 12; high++)
                box(file, len, words, (uint32_t[4]){low / 4, low % 4, 0, 0}, (uint32_t[4]){high / 4, high % 4, 0, 0});
        ranges(file, len);
    }
}

/* The shorter of two files. */
void two_files(void)
{
    uint8_t a[200], b[200];
    for (int i = 0; i < KINDS; i++) {
        for (int j = 0; j < KINDS; j++) {
            size_t a_len = sample(i, a), b_len = sample(j, b);
            EQUAL(ra_shorter(a, a_len, b, b_len), given(b_len < a_len));
            b[b_len - 1] ^= 1;
            EQUAL(ra_check(b, b_len), 0);
            EQUAL(ra_shorter(a, a_len, b, b_len), refused(11));
            sample(j, b);
            b[1] = 2;
            EQUAL(ra_shorter(a, a_len, b, b_len), refused(11));
            sample(j, b);
            set_field(b, 20, 1);
            EQUAL(ra_shorter(a, a_len, b, b_len), refused(11));
        }
    }
}
