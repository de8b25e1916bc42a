/* Kind 6: its pointers in each step, false ones, and those of files after writes. */
#include "files.h"
#include "harness.h"
#include "tests.h"

#include <string.h>

enum { CELLS = 1300, STORED = 7, JUMPS = 5 };

static const uint32_t STEPS[] = {1, 2, 3, 16, 255};

/* Stored cells, and the ranks of their jumps at width 1. */
static const uint32_t POSITIONS[STORED] = {1, 3, 300, 600, 601, 900, 1200};
static const uint32_t RANKS[JUMPS] = {0, 2, 3, 5, 6};

/* The file of these cells with a step; its length. */
static size_t pointed(uint32_t step, uint8_t file[200])
{
    static uint32_t words[CELLS];
    for (uint32_t rank = 0; rank < STORED; rank++)
        words[POSITIONS[rank]] = 7 + rank;
    EQUAL(make_line((struct setting){6, 1, step}, words, CELLS, file, 200), 0);
    reads_as(file, field(file, 48), words, CELLS);
    return field(file, 48);
}

/* Where the pointers begin. */
static size_t pointers_at(const uint8_t *file)
{
    return field(file, 40) + file[2] * (size_t)field(file, 32);
}

/* A jump's rank for each step-th jump, after the differences and in no count. */
void pointers_of_steps(void)
{
    for (size_t i = 0; i < sizeof STEPS / sizeof *STEPS; i++) {
        uint8_t file[200];
        size_t len = pointed(STEPS[i], file), at = pointers_at(file);
        EQUAL(field(file, 28), JUMPS);
        EQUAL(field(file, 32), STORED);
        EQUAL(at, 52 + 4 * JUMPS + STORED);
        for (uint32_t jump = 0; jump < JUMPS; jump += STEPS[i], at += 4)
            EQUAL(field(file, at), RANKS[jump]);
        EQUAL(field(file, 44), at);
        EQUAL(len, at + 4 * STORED);
    }
}

/* Each pointer with another number is 6. */
void false_pointers(void)
{
    for (size_t i = 0; i < sizeof STEPS / sizeof *STEPS; i++) {
        uint8_t file[200];
        size_t len = pointed(STEPS[i], file);
        for (size_t at = pointers_at(file); at < field(file, 44); at += 4) {
            uint32_t right = field(file, at);
            const uint32_t others[] = {0, 1, 2, 3, 4, 5, 6, 7, 300, 1200, right + 256, right + 65536, right + 16777216, UINT32_MAX};
            for (size_t k = 0; k < sizeof others / sizeof *others; k++) {
                set_field(file, at, others[k]);
                EQUAL(ra_check(file, len), others[k] == right ? 0 : 6);
            }
            set_field(file, at, right);
        }
    }
}

/* A words' offset without the pointers is 5, and so is a number of jumps above N; one that is false with offsets that agree is 6. */
void other_counts_of_pointers(void)
{
    uint8_t file[200], other[200];
    size_t len = pointed(1, file);
    set_field(file, 44, field(file, 44) - 4);
    EQUAL(ra_check(file, len), 5);
    set_field(file, 44, (uint32_t)pointers_at(file));
    EQUAL(ra_check(file, len), 5);
    len = pointed(1, file);
    set_field(file, 28, STORED + 1);
    EQUAL(ra_check(file, len), 5);
    /* One jump and its pointer fewer. */
    size_t at = field(file, 40), end = pointers_at(file) + 4 * JUMPS;
    len = pointed(1, file);
    memcpy(other, file, at - 4);
    memcpy(other + at - 4, file + at, end - 4 - at);
    memcpy(other + end - 8, file + end, len - end);
    set_field(other, 28, JUMPS - 1);
    set_field(other, 40, (uint32_t)at - 4);
    set_field(other, 44, (uint32_t)end - 8);
    set_field(other, 48, (uint32_t)len - 8);
    EQUAL(ra_check(other, len - 8), 6);
}

/* Cells 130 apart come and go, so that jumps do; each file is the one that make gives. */
void pointers_in_a_list(void)
{
    enum { PLACES = 20 };
    static uint32_t words[130 * PLACES];
    static uint8_t file[800], next[800], made[800];
    uint32_t seed = 2002;
    for (size_t i = 0; i < sizeof STEPS / sizeof *STEPS; i++) {
        const struct setting s = {6, 1, STEPS[i]};
        memset(words, 0, sizeof words);
        EQUAL(make_line(s, words, 130 * PLACES, file, sizeof file), 0);
        for (int turn = 0; turn < 300; turn++) {
            seed = seed * 1664525u + 1013904223u;
            uint32_t place = 130 * ((seed >> 8) % PLACES);
            words[place] = words[place] == 0 ? 1 + (seed >> 20) : 0;
            EQUAL(ra_write(file, field(file, 48), place, words[place], next, sizeof next), 0);
            EQUAL(make_line(s, words, 130 * PLACES, made, sizeof made), 0);
            HOLDS(memcmp(next, made, field(made, 48)) == 0);
            memcpy(file, next, sizeof next);
        }
        reads_as(file, field(file, 48), words, 130 * PLACES);
        EQUAL(ra_change(file, field(file, 48), 4, 1, 0, next, sizeof next), 0);
        EQUAL(ra_change(next, field(next, 48), s.kind, s.width, s.step, made, sizeof made), 0);
        HOLDS(memcmp(made, file, field(file, 48)) == 0);
    }
}
