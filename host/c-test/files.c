/* The sample picture, its settings and files, and what the tests do with a file. */
#include "files.h"

#include "harness.h"

#include <string.h>

const uint32_t SAMPLE[12] = {0, 0, 7, 9, 0, 5, 0, 0, 0, 0, 300, 0};
const uint32_t LINE_12[4] = {12, 1, 1, 1};
const struct setting SETTINGS[KINDS] = {{1, 0, 0}, {2, 0, 0}, {3, 1, 2}, {4, 1, 0}, {5, 0, 2}, {6, 1, 2}};

/* The lengths of the sample's files. */
static const size_t LENGTHS[KINDS] = {92, 84, 80, 76, 108, 80};

uint32_t field(const uint8_t *file, size_t at)
{
    return file[at] | (uint32_t)file[at + 1] << 8 | (uint32_t)file[at + 2] << 16 | (uint32_t)file[at + 3] << 24;
}

void set_field(uint8_t *file, size_t at, uint32_t value)
{
    for (int i = 0; i < 4; i++)
        file[at + (size_t)i] = (uint8_t)(value >> 8 * i);
}

uint32_t make_line(struct setting s, const uint32_t *words, size_t cells, uint8_t *dst, size_t dst_len)
{
    uint32_t extents[4] = {(uint32_t)cells, 1, 1, 1};
    return ra_make(s.kind, s.width, s.step, 1, extents, 4, 0, words, cells, dst, dst_len);
}

size_t sample(int index, uint8_t file[200])
{
    EQUAL(make_line(SETTINGS[index], SAMPLE, 12, file, 200), 0);
    EQUAL(field(file, 48), LENGTHS[index]);
    return LENGTHS[index];
}

void reads_as(const uint8_t *file, size_t len, const uint32_t *words, uint32_t cells)
{
    size_t count = lent_count();
    uint32_t rank = 0;
    for (uint32_t p = 0; p < cells; p++) {
        EQUAL(ra_cell(file, len, p), given(words[p]));
        EQUAL(ra_opened_cell(file, len, p), given(words[p]));
        if (words[p] == 0) {
            EQUAL(ra_rank(file, len, p), empty(rank));
            EQUAL(ra_opened_rank(file, len, p), empty(rank));
            continue;
        }
        EQUAL(ra_rank(file, len, p), given(rank));
        EQUAL(ra_opened_rank(file, len, p), given(rank));
        EQUAL(ra_position(file, len, rank), given(p));
        EQUAL(ra_opened_position(file, len, rank), given(p));
        rank++;
    }
    EQUAL(ra_cell(file, len, cells), refused(8));
    EQUAL(ra_rank(file, len, UINT32_MAX), refused(8));
    EQUAL(ra_position(file, len, rank), refused(8));
    EQUAL(ra_opened_cell(file, len, UINT32_MAX), refused(8));
    EQUAL(ra_opened_rank(file, len, cells), refused(8));
    EQUAL(ra_opened_position(file, len, rank), refused(8));
    uint32_t *info = lend(4 * RA_INFO_NUMBERS, AT_END);
    EQUAL(ra_info(file, len, info, RA_INFO_NUMBERS - 1), RA_SMALL);
    EQUAL(ra_info(file, len, info, RA_INFO_NUMBERS), 0);
    EQUAL(info[RA_INFO_KIND], file[0]);
    EQUAL(info[RA_INFO_CELLS], cells);
    EQUAL(info[RA_INFO_EMPTY], 0);
    EQUAL(info[RA_INFO_STORED], rank);
    uint32_t *all = lend(4 * (size_t)cells, AT_END);
    EQUAL(ra_expand(file, len, all, cells - 1), 10);
    EQUAL(ra_expand(file, len, all, cells), 0);
    HOLDS(memcmp(all, words, 4 * (size_t)cells) == 0);
    release(count);
}
