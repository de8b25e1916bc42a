/* The inner loops of the engine as plain C. Offsets and counts are the header's (docs/FORMAT.md). */
#include "loops.h"

#include <string.h>

enum { HEADER = 52, STEP = 16 };
static const uint32_t JUMP = 0xffffffff;   /* past every position */

static uint32_t u32(const uint8_t *at)
{
    uint32_t x;
    memcpy(&x, at, 4);
    return x;
}

static uint32_t u16(const uint8_t *at)
{
    uint16_t x;
    memcpy(&x, at, 2);
    return x;
}

static void put_u16(uint8_t *at, uint32_t x)
{
    uint16_t y = (uint16_t)x;
    memcpy(at, &y, 2);
}

static uint32_t count(const uint8_t *file) { return u32(file + 24); }
static const uint8_t *second(const uint8_t *file) { return file + u32(file + 40); }

/* No stored word is the empty one. */
static int words_right(const uint8_t *file)
{
    size_t n = count(file);
    uint32_t empty = u32(file + 20), same = 0;
    const uint8_t *words = file + u32(file + 44);
    for (size_t i = 0; i < n; i++)
        same |= u32(words + 4 * i) == empty;
    return !same;
}

int check_runs(const uint8_t *file)
{
    size_t n = u32(file + 28);
    uint32_t falls = 0;
    const uint8_t *pairs = file + HEADER;
    for (size_t i = 1; i < n; i++) {
        uint32_t last = u32(pairs + 8 * i - 8), empty = u32(pairs + 8 * i - 4), l = u32(pairs + 8 * i), v = u32(pairs + 8 * i + 4);
        falls += (l <= last) | (v <= empty) | (l - last <= v - empty);
    }
    return falls == 0 && words_right(file);
}

int check_positions(const uint8_t *file)
{
    size_t n = count(file);
    uint32_t falls = 0;
    for (size_t i = 1; i < n; i++)
        falls |= u32(file + HEADER + 4 * i) <= u32(file + HEADER + 4 * i - 4);
    return !falls && words_right(file);
}

int check_offsets(const uint8_t *file)
{
    size_t n = count(file);
    uint32_t falls = 0, right = 1;
    const uint8_t *at = second(file);
    for (size_t i = 1; i < n; i += 128) {
        uint16_t few = 0;
        size_t end = n - i < 128 ? n : i + 128;
        for (size_t k = i; k < end; k++)
            few += u16(at + 2 * k) <= u16(at + 2 * k - 2);
        falls += few;
    }
    for (size_t i = STEP; i < n; i += STEP)
        right &= u16(at + 2 * i) == 0 && u16(at + 2 * i - 2) < u32(file + HEADER + i / 4) - u32(file + HEADER + i / 4 - 4);
    return falls == (n - 1) / STEP && right && words_right(file);
}

/* The difference of a rank. The width is 1 or 2, and each caller's own, so that a loop is compiled for it. */
static inline uint32_t difference(const uint8_t *differences, size_t rank, size_t width)
{
    return width == 1 ? differences[rank] : u16(differences + 2 * rank);
}

/* The position of a rank, by a walk from rank 0, where no other jump is on the way; else JUMP. */
static inline uint32_t walked(const uint8_t *file, size_t rank, size_t width)
{
    uint32_t zeros = 0, sum = u32(file + HEADER);
    const uint8_t *differences = second(file);
    for (size_t i = 1; i <= rank; i++)
        zeros |= difference(differences, i, width) == 0;
    for (size_t i = 1; i <= rank; i++)
        sum += difference(differences, i, width);
    return zeros ? JUMP : sum;
}

uint32_t jump_position_1(const uint8_t *file, uint32_t rank) { return walked(file, rank, 1); }
uint32_t jump_position_2(const uint8_t *file, uint32_t rank) { return walked(file, rank, 2); }

int check_jumps_1(const uint8_t *file) { return walked(file, count(file) - 1, 1) < 1u << 24 && words_right(file); }
int check_jumps_2(const uint8_t *file) { return walked(file, count(file) - 1, 2) < 1u << 24 && words_right(file); }

/* The header's first bytes and the words; the parts are put between by the caller. */
static size_t put_words(const uint8_t *file, uint8_t *dst, size_t place)
{
    memcpy(dst, file, HEADER);
    memcpy(dst + place, file + u32(file + 44), 4 * (size_t)count(file));
    return place + 4 * (size_t)count(file);
}

size_t to_positions(const uint8_t *file, uint8_t *dst)
{
    size_t n = count(file);
    uint32_t at = u32(file + HEADER);
    const uint8_t *differences = second(file);
    if (!check_jumps_2(file))
        return 0;
    for (size_t i = 0; i < n; i++) {
        at += u16(differences + 2 * i);
        memcpy(dst + HEADER + 4 * i, &at, 4);
    }
    return put_words(file, dst, HEADER + 4 * n);
}

size_t to_offsets(const uint8_t *file, uint8_t *dst)
{
    size_t n = count(file), bases = (n + STEP - 1) / STEP;
    uint8_t *offsets = dst + HEADER + 4 * bases;
    uint32_t far = 0;
    if (!check_positions(file))
        return 0;
    for (size_t i = 0; i < n; i += STEP)
        far |= u32(file + HEADER + 4 * (n - i < STEP ? n - 1 : i + STEP - 1)) - u32(file + HEADER + 4 * i) > 65535;
    for (size_t i = 0; i < n; i += STEP) {
        uint32_t base = u32(file + HEADER + 4 * i);
        size_t end = n - i < STEP ? n : i + STEP;
        memcpy(dst + HEADER + i / 4, &base, 4);
        for (size_t k = i; k < end; k++)
            put_u16(offsets + 2 * k, u32(file + HEADER + 4 * k) - base);
    }
    return far ? 0 : put_words(file, dst, HEADER + 4 * bases + 2 * n);
}

size_t to_jumps_2(const uint8_t *file, uint8_t *dst)
{
    size_t n = count(file);
    uint32_t jumps = 1;
    if (!check_positions(file))
        return 0;
    for (size_t i = 1; i < n; i++)
        jumps += u32(file + HEADER + 4 * i) - u32(file + HEADER + 4 * i - 4) > 65535;
    uint8_t *differences = dst + HEADER + 4 * (size_t)jumps;
    memcpy(dst + HEADER, file + HEADER, 4);
    put_u16(differences, 0);
    for (size_t i = 1; i < n; i++) {
        uint32_t d = u32(file + HEADER + 4 * i) - u32(file + HEADER + 4 * i - 4);
        put_u16(differences + 2 * i, d > 65535 ? 0 : d);
    }
    return jumps > 1 ? 0 : put_words(file, dst, HEADER + 4 + 2 * n);
}

uint32_t count_cells(const uint32_t *words, size_t n, uint32_t empty, uint32_t *runs)
{
    uint32_t stored = words[0] != empty, begun = stored;
    for (size_t i = 1; i < n; i++) {
        stored += words[i] != empty;
        begun += (words[i] != empty) & (words[i - 1] == empty);
    }
    *runs = begun;
    return stored;
}
