/* Holds the engine's time for calls that rest on wide loops against the same loops in C (loops.c), both in this run. A ratio is compared with a bound; times are never
 * compared. A bound is a third or more above what was measured, also beside two busy programs, and below what the line gives when its loops go one element at a time, which
 * -fno-tree-vectorize shows on the loops in C. A line above its bound is measured again, and fails if it is above it each time. The last line is 'N passed, M failed'. */
#define _POSIX_C_SOURCE 199309L
#include "loops.h"
#include "radar_archive.h"

#include <stdio.h>
#include <stdlib.h>
#include <string.h>
#include <time.h>

enum { CELLS = 1 << 20, ROUNDS = 24, TRIES = 4, ROOM = 52 + 9 * CELLS };

struct file {
    uint8_t *bytes;
    size_t len;
};

static uint32_t words[CELLS], none[CELLS];
static struct file kind1, kind2, kind3, kind4w1, kind4w2, kind6w1, kind6w2;
static uint8_t *ours, *theirs;

static double now(void)
{
    struct timespec t;
    clock_gettime(CLOCK_MONOTONIC, &t);
    return (double)t.tv_sec + 1e-9 * (double)t.tv_nsec;
}

static void must(int holds, const char *what)
{
    if (!holds) {
        printf("guard: %s\n0 passed, 1 failed\n", what);
        exit(1);
    }
}

static uint32_t field(const uint8_t *file, size_t at)
{
    uint32_t x;
    memcpy(&x, file + at, 4);
    return x;
}

/* Single cells, from 2 to 6 apart. */
static void fill_words(void)
{
    uint32_t seed = 12345;
    for (uint32_t p = 3; p < CELLS;) {
        seed = seed * 1664525u + 1013904223u;
        words[p] = 1 + (seed >> 8);
        p += 2 + (seed >> 24) % 5;
    }
}

static uint32_t make_into(uint32_t kind, uint32_t width, uint32_t step, const uint32_t *from, uint8_t *dst)
{
    static const uint32_t extents[4] = {CELLS, 1, 1, 1};
    return ra_make(kind, width, step, 1, extents, 4, 0, from, CELLS, dst, ROOM);
}

static struct file made(uint32_t kind, uint32_t width, uint32_t step)
{
    struct file f = {malloc(ROOM), 0};
    must(f.bytes != NULL, "no memory");
    must(make_into(kind, width, step, words, f.bytes) == 0, "a file is not made");
    f.len = field(f.bytes, 48);
    return f;
}

/* ---- the lines: what the engine does, and the same in C; both give 1 where the result is the one wanted */

static int engine_check(struct file f) { return ra_check(f.bytes, f.len) == 0; }

static int engine_position(struct file f, uint32_t want)
{
    uint64_t p = ra_opened_position(f.bytes, f.len, field(f.bytes, 24) - 1);
    return RA_CODE(p) == 0 && RA_VALUE(p) == want;
}

static uint32_t last_position(void) { return field(kind2.bytes, 52 + 4 * (size_t)(field(kind2.bytes, 24) - 1)); }
static uint32_t last_rank(struct file f) { return field(f.bytes, 24) - 1; }

static int check_1(int engine) { return engine ? engine_check(kind1) : check_runs(kind1.bytes); }
static int check_2(int engine) { return engine ? engine_check(kind2) : check_positions(kind2.bytes); }
static int check_3(int engine) { return engine ? engine_check(kind3) : check_offsets(kind3.bytes); }
static int check_4w1(int engine) { return engine ? engine_check(kind4w1) : check_jumps_1(kind4w1.bytes); }
static int check_4w2(int engine) { return engine ? engine_check(kind4w2) : check_jumps_2(kind4w2.bytes); }
static int check_6w1(int engine) { return engine ? engine_check(kind6w1) : check_jumps_1(kind6w1.bytes); }
static int check_6w2(int engine) { return engine ? engine_check(kind6w2) : check_jumps_2(kind6w2.bytes); }

static int position_4w1(int engine)
{
    uint32_t want = last_position();
    return engine ? engine_position(kind4w1, want) : jump_position_1(kind4w1.bytes, last_rank(kind4w1)) == want;
}

static int position_4w2(int engine)
{
    uint32_t want = last_position();
    return engine ? engine_position(kind4w2, want) : jump_position_2(kind4w2.bytes, last_rank(kind4w2)) == want;
}

static int changed(int engine, struct file from, struct file to, uint32_t width, uint32_t step, size_t (*reference)(const uint8_t *, uint8_t *))
{
    if (engine)
        return ra_change(from.bytes, from.len, to.bytes[0], width, step, ours, ROOM) == 0;
    return reference(from.bytes, theirs) == to.len;
}

static int change_2_3(int engine) { return changed(engine, kind2, kind3, 2, 16, to_offsets); }
static int change_2_4(int engine) { return changed(engine, kind2, kind4w2, 2, 0, to_jumps_2); }
static int change_4_2(int engine) { return changed(engine, kind4w2, kind2, 0, 0, to_positions); }

static int make_empty(int engine)
{
    uint32_t runs;
    return engine ? make_into(1, 0, 0, none, ours) == 0 : count_cells(none, CELLS, 0, &runs) == 0 && runs == 0;
}

struct line {
    const char *name;
    int (*run)(int engine);
    double bound;
};

static const struct line lines[] = {
    {"check, kind 1", check_1, 2},
    {"check, kind 2", check_2, 2.5},
    {"check, kind 3 w2 l16", check_3, 2.5},
    {"check, kind 4 w1", check_4w1, 2},
    {"check, kind 4 w2", check_4w2, 2},
    {"check, kind 6 w1 n16", check_6w1, 2},
    {"check, kind 6 w2 n16", check_6w2, 2},
    {"opened position, kind 4 w1", position_4w1, 2.5},
    {"opened position, kind 4 w2", position_4w2, 2.5},
    {"change, kind 2 to 3 w2 l16", change_2_3, 3.5},
    {"change, kind 2 to 4 w2", change_2_4, 3.1},
    {"change, kind 4 w2 to 2", change_4_2, 2.3},
    {"make, kind 1, nothing stored", make_empty, 4},
};

/* The engine's best time over the best of the same in C, the two taking turns. */
static double ratio(const struct line *line)
{
    double best[2] = {1e9, 1e9};
    for (int round = 0; round < 2 * ROUNDS; round++) {
        int engine = round & 1;
        double start = now();
        int right = line->run(engine);
        double took = now() - start;
        must(right, line->name);
        if (took < best[engine])
            best[engine] = took;
    }
    return best[1] / best[0];
}

int main(void)
{
    int passed = 0, failed = 0;
    fill_words();
    ours = malloc(ROOM);
    theirs = malloc(ROOM);
    must(ours != NULL && theirs != NULL, "no memory");
    kind1 = made(1, 0, 0);
    kind2 = made(2, 0, 0);
    kind3 = made(3, 2, 16);
    kind4w1 = made(4, 1, 0);
    kind4w2 = made(4, 2, 0);
    kind6w1 = made(6, 1, 16);
    kind6w2 = made(6, 2, 16);
    for (size_t i = 0; i < sizeof lines / sizeof *lines; i++) {
        double r = ratio(&lines[i]);
        for (int again = 1; again < TRIES && r > lines[i].bound; again++)
            r = ratio(&lines[i]);
        int slow = r > lines[i].bound;
        printf("%-30s %5.2f of the same in C, at most %.1f%s\n", lines[i].name, r, lines[i].bound, slow ? ": TOO SLOW" : "");
        passed += !slow;
        failed += slow;
    }
    printf("%d passed, %d failed\n", passed, failed);
    return failed != 0;
}
