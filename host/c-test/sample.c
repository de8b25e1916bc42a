/* The sample and its neighbours, M1 to M12. */
#include "files.h"
#include "harness.h"
#include "tests.h"

/* M1 to M8, and the sample in kind 6. */
void sample_files(void)
{
    static const uint32_t first[KINDS][6] = {{3, 2, 5, 3, 10, 7}, {2, 3, 5, 10}, {2, 5}, {2}, {6, 3, 11, 7}, {2}};
    static const size_t first_count[KINDS] = {6, 4, 2, 1, 4, 1};
    for (int i = 0; i < KINDS; i++) {
        uint8_t file[200];
        size_t len = sample(i, file);
        for (size_t k = 0; k < first_count[i]; k++)
            EQUAL(field(file, 52 + 4 * k), first[i][k]);
        for (int side = AT_END; side <= AT_START; side++) {
            size_t count = lent_count();
            const uint8_t *lent = input(file, len, (enum side)side);
            EQUAL(ra_check(lent, len), 0);
            reads_as(lent, len, SAMPLE, 12);
            release(count);
        }
    }
}

/* An empty cell of a line of 12 words, and the number of stored cells before it, in every kind. */
static void empty_cell(const uint32_t words[12], uint32_t p, uint32_t before)
{
    for (int i = 0; i < KINDS; i++) {
        uint8_t file[200];
        EQUAL(make_line(SETTINGS[i], words, 12, file, 200), 0);
        EQUAL(ra_rank(file, field(file, 48), p), empty(before));
        EQUAL(ra_opened_rank(file, field(file, 48), p), empty(before));
    }
}

/* M7 with its numbers and its neighbours, a line without stored cells, and one whose last cell alone is empty. */
void sample_empty_cells(void)
{
    static const uint32_t none[12] = {0}, all_but_last[12] = {1, 2, 3, 4, 5, 6, 7, 8, 9, 10, 11, 0};
    empty_cell(SAMPLE, 0, 0);
    empty_cell(SAMPLE, 4, 2);
    empty_cell(SAMPLE, 6, 3);
    empty_cell(SAMPLE, 9, 3);
    empty_cell(SAMPLE, 11, 4);
    empty_cell(none, 0, 0);
    empty_cell(none, 11, 0);
    empty_cell(all_but_last, 11, 11);
}

/* M10. */
void sample_full(void)
{
    uint8_t file[200];
    uint32_t full[12];
    for (uint32_t p = 0; p < 12; p++)
        full[p] = p + 1;
    EQUAL(make_line(SETTINGS[0], full, 12, file, 200), 0);
    EQUAL(field(file, 28), 1);
    EQUAL(field(file, 52), 11);
    EQUAL(field(file, 56), 0);
}

/* M9, M11, M12, and the bounds of step and extent. */
void sample_bounds(void)
{
    uint8_t file[200];
    uint32_t words[300] = {0};
    EQUAL(make_line(SETTINGS[0], words, 12, file, 52), 0);
    EQUAL(field(file, 48), 52);
    words[2] = 7;
    words[257] = 8;
    EQUAL(make_line(SETTINGS[3], words, 300, file, 200), 0);
    EQUAL(field(file, 28), 1);
    EQUAL(file[57], 255);
    words[257] = 0;
    words[258] = 8;
    EQUAL(make_line(SETTINGS[3], words, 300, file, 200), 0);
    EQUAL(field(file, 28), 2);
    EQUAL(field(file, 56), 258);
    EQUAL(make_line(SETTINGS[2], words, 300, file, 200), 9);
    EQUAL(make_line((struct setting){3, 1, 1}, words, 300, file, 200), 0);
    EQUAL(make_line((struct setting){5, 0, 64}, words, 300, file, 200), 0);
    EQUAL(make_line((struct setting){5, 0, 65}, words, 300, file, 200), 3);
    set_field(file, 4, 16777216);
    EQUAL(ra_check(file, field(file, 48)), 0);
    set_field(file, 4, 16777217);
    EQUAL(ra_check(file, field(file, 48)), 4);
}
