/* Every sample file, and one of several pointers, cut anywhere, and with any byte or field changed, against a page without access. */
#include "files.h"
#include "harness.h"
#include "tests.h"

#include <string.h>

/* The ranks of the first cells of an accepted file against its words. */
static void ranks_as_words(const uint8_t *file, size_t len)
{
    uint32_t before = 0;
    for (uint32_t n = 0; n < 13 && RA_CODE(ra_cell(file, len, n)) == 0; n++) {
        int stored = RA_VALUE(ra_cell(file, len, n)) != field(file, 20);
        uint64_t wanted = stored ? given(before) : empty(before);
        EQUAL(ra_rank(file, len, n), wanted);
        EQUAL(ra_opened_rank(file, len, n), wanted);
        before += (uint32_t)stored;
    }
}

/* The calls on bytes: refused ones have one number for all, and lookups without a check end in range, "empty" with any number. */
static void any_bytes(const uint8_t *file, size_t len)
{
    static const uint32_t zero[4] = {0};
    uint32_t number = ra_check(file, len), words[12];
    uint8_t dst[1];
    HOLDS(number <= 6);
    if (number != 0) {
        EQUAL(ra_cell(file, len, 3), refused(number));
        EQUAL(ra_rank(file, len, 3), refused(number));
        EQUAL(ra_position(file, len, 3), refused(number));
        EQUAL(ra_expand(file, len, words, 12), number);
        EQUAL(ra_write(file, len, 3, 3, dst, 1), number);
        EQUAL(ra_change(file, len, 1, 0, 0, dst, 1), number);
        EQUAL(ra_box(file, len, zero, 4, zero, 4, words, 12), number);
        EQUAL(ra_ranks(file, len, 0, 0), refused(number));
        EQUAL(ra_shorter(file, len, file, len), refused(number));
    } else {
        ranks_as_words(file, len);
    }
    for (uint32_t n = 0; n < 13; n++) {
        uint64_t cell = ra_opened_cell(file, len, n), rank = ra_opened_rank(file, len, n), at = ra_opened_position(file, len, n);
        HOLDS(RA_CODE(cell) == 0 || cell == refused(8));
        HOLDS(rank == refused(8) || RA_CODE(rank) == RA_EMPTY || (RA_CODE(rank) == 0 && RA_VALUE(rank) < field(file, 24)));
        HOLDS(RA_CODE(at) == 0 || at == refused(8));
    }
}

/* A file cut anywhere. */
static void cut_files(const uint8_t *file, size_t len, enum side side)
{
    for (size_t cut = 0; cut < len; cut++) {
        size_t count = lent_count();
        const uint8_t *lent = input(file, cut, side);
        EQUAL(ra_check(lent, cut), cut < 52 ? 1 : 5);
        any_bytes(lent, cut);
        release(count);
    }
}

/* A file with any byte or field changed. */
static void changed_files(const uint8_t *file, size_t len, enum side side)
{
    static const uint8_t changes[] = {1, 2, 127, 128, 255};
    static const uint32_t values[] = {0, 1, 53, 255, 65536, 16777216, 0x20000000, 0x40000000, 0x7fffffff, 0x80000000, 0xffffffff};
    size_t count = lent_count();
    uint8_t *lent = lend(len, side);
    for (size_t at = 0; at < len; at++) {
        for (size_t k = 0; k < sizeof changes; k++) {
            memcpy(lent, file, len);
            lent[at] = (uint8_t)(lent[at] + changes[k]);
            any_bytes(lent, len);
        }
        for (size_t k = 0; at % 4 == 0 && k < sizeof values / sizeof *values; k++) {
            memcpy(lent, file, len);
            set_field(lent, at, values[k]);
            any_bytes(lent, len);
        }
    }
    release(count);
}

/* A file damaged in all ways, at either side. */
static void damaged(const uint8_t *file, size_t len)
{
    for (int side = AT_END; side <= AT_START; side++) {
        cut_files(file, len, (enum side)side);
        changed_files(file, len, (enum side)side);
    }
}

void damaged_files(void)
{
    uint8_t file[200];
    for (int i = 0; i < KINDS; i++) {
        size_t len = sample(i, file);
        damaged(file, len);
    }
    for (uint32_t width = 1; width <= 2; width++) {
        uint32_t words[1300] = {[1] = 7, [3] = 9, [300] = 5, [600] = 4, [601] = 3, [900] = 2, [1200] = 1, [1299] = 8};
        EQUAL(make_line((struct setting){6, width, 2}, words, 1300, file, sizeof file), 0);
        damaged(file, field(file, 48));
    }
}
