/*
 * A wrong engine: the calls of the engine with one fault each, to see whether the target finds it. The linker puts these functions in the
 * place of the engine's (--wrap), and the variable FUZZ_PLANTED names the fault. This file is compiled without coverage, so the search
 * gets no hint that a fault is near.
 */
#include <stdlib.h>
#include <string.h>

#include "radar_archive.h"

uint32_t __real_ra_check(const uint8_t *file, size_t len);
uint32_t __real_ra_write(const uint8_t *file, size_t len, uint32_t position, uint32_t word, uint8_t *dst, size_t dst_len);
uint32_t __real_ra_change(const uint8_t *file, size_t len, uint32_t kind, uint32_t width, uint32_t step, uint8_t *dst, size_t dst_len);
uint32_t __real_ra_box(const uint8_t *file, size_t len, const uint32_t *low, size_t low_len, const uint32_t *high, size_t high_len,
                       uint32_t *dst, size_t dst_len);
uint64_t __real_ra_rank(const uint8_t *file, size_t len, uint32_t position);
uint64_t __real_ra_position(const uint8_t *file, size_t len, uint32_t rank);
uint64_t __real_ra_opened_rank(const uint8_t *file, size_t len, uint32_t position);
uint64_t __real_ra_shorter(const uint8_t *a, size_t a_len, const uint8_t *b, size_t b_len);

/* Whether the fault of this name is planted. */
static int planted(const char *name) {
    static const char *chosen;
    if (!chosen) {
        chosen = getenv("FUZZ_PLANTED");
        if (!chosen) {
            abort();
        }
    }
    return strcmp(chosen, name) == 0;
}

static uint32_t field(const uint8_t *file, size_t at) {
    return (uint32_t)file[at] | (uint32_t)file[at + 1] << 8 | (uint32_t)file[at + 2] << 16 | (uint32_t)file[at + 3] << 24;
}

static void put(uint8_t *file, size_t at, uint32_t value) {
    for (int i = 0; i < 4; i++) {
        file[at + i] = (uint8_t)(value >> 8 * i);
    }
}

/* Lays the upper levels of a kind 5 file anew from its level 0. */
static void upper_levels(uint8_t *file, uint32_t step) {
    uint32_t level = field(file, 32), below = field(file, 40), end = below;
    while (level > step) {
        uint32_t entries = (level + step - 1) / step, at = end - 8 * entries;
        uint32_t cells = 0, empty = 0;
        for (uint32_t i = 0; i < entries; i++) {
            uint32_t last = (i + 1) * step < level ? (i + 1) * step - 1 : level - 1;
            if (i % step == 0) {
                cells = empty = 0;
            }
            put(file, at + 8 * i, cells += field(file, below + 8 * last));
            put(file, at + 8 * i + 4, empty += field(file, below + 8 * last + 4));
        }
        below = end = at;
        level = entries;
    }
}

/* Whether a refused kind 5 file would be accepted with other upper levels. */
static int false_upper_level(const uint8_t *file, size_t len) {
    if (file[0] != 5) {
        return 0;
    }
    uint8_t *copy = malloc(len);
    memcpy(copy, file, len);
    upper_levels(copy, file[3]);
    int accepted = __real_ra_check(copy, len) == 0;
    free(copy);
    return accepted;
}

/* Whether E stands among the stored words, at a rank past 2, and nothing else is wrong. */
static int empty_word_stored(const uint8_t *file, size_t len) {
    uint32_t stored = field(file, 24), words = field(file, 44), found = 0;
    uint8_t *copy = malloc(len);
    memcpy(copy, file, len);
    for (uint32_t rank = 3; rank < stored; rank++) {
        if (field(file, words + 4 * rank) == field(file, 20)) {
            put(copy, words + 4 * rank, field(file, 20) + 1);
            found = 1;
        }
    }
    found = found && __real_ra_check(copy, len) == 0;
    free(copy);
    return found;
}

/* The product of the extents in 32 bits, and whether it is more than that. */
static int product_wraps(const uint8_t *file) {
    uint64_t product = 1;
    int more = 0;
    for (int i = 0; i < 4; i++) {
        product *= field(file, 4 + 4 * i);
        more |= product >> 32 != 0;
        product &= 0xffffffffu;
    }
    return more && product != 0 && product <= 16777216;
}

uint32_t __wrap_ra_check(const uint8_t *file, size_t len) {
    uint32_t number = __real_ra_check(file, len);
    if (planted("false-upper-level") && number == 6 && false_upper_level(file, len)) {
        return 0;
    }
    if (planted("empty-word-stored") && number == 6 && empty_word_stored(file, len)) {
        return 0;
    }
    if (planted("product-wraps") && number == 4 && product_wraps(file)) {
        return 5;
    }
    if (planted("reads-past-the-file") && number == 0 && file[0] == 4 && ((const volatile uint8_t *)file)[len] == 1) {
        return 6;
    }
    return number;
}

/* "Empty" with a number. */
static uint64_t empty_with(uint32_t number) {
    return (uint64_t)RA_EMPTY << 32 | number;
}

/* The rank one too high in the last page of a kind 5 file that has three levels; 0 for every empty cell. */
uint64_t __wrap_ra_rank(const uint8_t *file, size_t len, uint32_t position) {
    uint64_t answer = __real_ra_rank(file, len, position);
    if (planted("rank-off-by-one") && RA_CODE(answer) == 0 && file[0] == 5) {
        uint32_t step = file[3], level = field(file, 32);
        if (level > step * step && RA_VALUE(answer) + 1 == field(file, 24)) {
            return answer + 1;
        }
    }
    if (planted("rank-empty-with-0") && RA_CODE(answer) == RA_EMPTY) {
        return empty_with(0);
    }
    return answer;
}

/* The position one too low at the last rank of a kind 3 group that is full. */
uint64_t __wrap_ra_position(const uint8_t *file, size_t len, uint32_t rank) {
    uint64_t answer = __real_ra_position(file, len, rank);
    if (planted("position-off-by-one") && RA_CODE(answer) == 0 && file[0] == 3 && file[3] > 4 && rank % file[3] == file[3] - 1u) {
        return answer - 1;
    }
    return answer;
}

/* N itself as a rank, over bytes that are no file; N for every empty cell. */
uint64_t __wrap_ra_opened_rank(const uint8_t *file, size_t len, uint32_t position) {
    uint64_t answer = __real_ra_opened_rank(file, len, position);
    if (planted("opened-rank-out-of-range") && RA_CODE(answer) == 0 && __real_ra_check(file, len) == 6) {
        return field(file, 24);
    }
    if (planted("opened-rank-empty-with-n") && RA_CODE(answer) == RA_EMPTY) {
        return empty_with(field(file, 24));
    }
    return answer;
}

uint32_t __wrap_ra_write(const uint8_t *file, size_t len, uint32_t position, uint32_t word, uint8_t *dst, size_t dst_len) {
    uint32_t number = __real_ra_write(file, len, position, word, dst, dst_len);
    if (planted("write-one-byte-past") && number == 0 && file[0] == 3 && file[2] == 2 && position == 0) {
        dst[field(dst, 48)] ^= 1;
    }
    if (planted("write-that-joins-runs") && number == 0 && file[0] == 5 && word != field(file, 20) && field(dst, 32) < field(file, 32)) {
        dst[field(dst, 40)] ^= 1;
    }
    if (planted("refusal-alters") && number == 9 && dst_len > 52) {
        dst[0] ^= 1;
    }
    return number;
}

/* A difference of exactly 255 written as a jump would be; here only its number is false. */
uint32_t __wrap_ra_change(const uint8_t *file, size_t len, uint32_t kind, uint32_t width, uint32_t step, uint8_t *dst, size_t dst_len) {
    uint32_t number = __real_ra_change(file, len, kind, width, step, dst, dst_len);
    if (planted("difference-255") && number == 0 && kind == 4 && width == 1) {
        for (uint32_t at = field(dst, 40); at < field(dst, 44); at++) {
            dst[at] -= dst[at] == 255;
        }
    }
    if (planted("width-modulo-256") && number == 3 && kind == 4 && step == 0) {
        return __real_ra_change(file, len, kind, width & 255, step, dst, dst_len);
    }
    return number;
}

/* The last word of a box of four dimensions, none of extent 1, is missing. */
uint32_t __wrap_ra_box(const uint8_t *file, size_t len, const uint32_t *low, size_t low_len, const uint32_t *high, size_t high_len,
                       uint32_t *dst, size_t dst_len) {
    uint32_t before = dst_len ? dst[dst_len - 1] : 0;
    uint32_t number = __real_ra_box(file, len, low, low_len, high, high_len, dst, dst_len);
    if (planted("box-of-four-dimensions") && number == 0) {
        uint64_t words = 1;
        int broad = 1;
        for (int i = 0; i < 4; i++) {
            words *= high[i] - low[i] + 1;
            broad &= high[i] > low[i];
        }
        if (broad && words == dst_len) {
            dst[dst_len - 1] = before;
        }
    }
    return number;
}

/* The second of two files of equal length, where the first is of a higher kind. */
uint64_t __wrap_ra_shorter(const uint8_t *a, size_t a_len, const uint8_t *b, size_t b_len) {
    uint64_t answer = __real_ra_shorter(a, a_len, b, b_len);
    if (planted("second-on-equal-length") && answer == 0 && a_len == b_len && a[0] > b[0]) {
        return 1;
    }
    return answer;
}
