/* The inner loops of the engine as plain C, over a file that is accepted: what the engine's speed is held against. */
#ifndef LOOPS_H
#define LOOPS_H

#include <stddef.h>
#include <stdint.h>

/* The check of the parts and of the words: 1 where all is right. */
int check_runs(const uint8_t *file);
int check_positions(const uint8_t *file);
int check_offsets(const uint8_t *file);
int check_jumps_1(const uint8_t *file);
int check_jumps_2(const uint8_t *file);

/* Kind 4: the position of a rank, by a walk from rank 0. */
uint32_t jump_position_1(const uint8_t *file, uint32_t rank);
uint32_t jump_position_2(const uint8_t *file, uint32_t rank);

/* The parts and words of a file of kind 2 into another kind's; the bytes put out. */
size_t to_positions(const uint8_t *file, uint8_t *dst);
size_t to_offsets(const uint8_t *file, uint8_t *dst);
size_t to_jumps_2(const uint8_t *file, uint8_t *dst);

/* The stored cells among n words, and the runs that they make. */
uint32_t count_cells(const uint32_t *words, size_t n, uint32_t empty, uint32_t *runs);

#endif
