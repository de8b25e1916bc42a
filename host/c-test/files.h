/* The sample picture, its settings and files, and what the tests do with a file. */
#ifndef FILES_H
#define FILES_H

#include <stddef.h>
#include <stdint.h>

struct setting {
    uint32_t kind, width, step;
};

/* The sample's words; its empty word is 0. */
extern const uint32_t SAMPLE[12];

/* The extents of a line of 12 cells. */
extern const uint32_t LINE_12[4];

/* The kinds. */
enum { KINDS = 6 };

/* The settings of M1 to M5, and one of kind 6. */
extern const struct setting SETTINGS[KINDS];

/* The 4-byte number at an offset, lowest byte first. */
uint32_t field(const uint8_t *file, size_t at);

/* Puts a 4-byte number at an offset. */
void set_field(uint8_t *file, size_t at, uint32_t value);

/* Makes a line of words with E = 0; gives the number. */
uint32_t make_line(struct setting s, const uint32_t *words, size_t cells, uint8_t *dst, size_t dst_len);

/* The sample's file in a setting; its length. */
size_t sample(int index, uint8_t file[200]);

/* Every lookup and expand of a file against its words with E = 0. */
void reads_as(const uint8_t *file, size_t len, const uint32_t *words, uint32_t cells);

#endif
