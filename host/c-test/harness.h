/*
 * Counted comparisons, and buffers between pages without access.
 *
 * A lent buffer stands against a page that cannot be read or written, at its end or at its beginning, and an input is read-only:
 * an access outside, or a write to an input, ends the program.
 */
#ifndef HARNESS_H
#define HARNESS_H

#include "radar_archive.h"

#include <stddef.h>
#include <stdint.h>

/* Counts one comparison; one that fails is written to the standard error. */
void equal(uint64_t got, uint64_t wanted, const char *what, const char *file, int line);

#define EQUAL(got, wanted) equal((uint64_t)(got), (uint64_t)(wanted), #got, __FILE__, __LINE__)
#define HOLDS(what) equal((what) ? 1 : 0, 1, #what, __FILE__, __LINE__)

/* Prints the counts; gives the program's status. */
int report(void);

/* A lookup's answers; an empty cell's has the number of stored cells before it. */
static inline uint64_t given(uint32_t value) { return value; }
static inline uint64_t refused(uint32_t number) { return (uint64_t)number << 32; }
static inline uint64_t empty(uint32_t before) { return (uint64_t)RA_EMPTY << 32 | before; }

/* The side at which a buffer meets the page without access. */
enum side { AT_END, AT_START };

/* A buffer of so many bytes. */
void *lend(size_t size, enum side side);

/* A read-only copy of some bytes. */
const void *input(const void *bytes, size_t size, enum side side);

/* How many buffers are lent. */
size_t lent_count(void);

/* Takes back the buffers lent since there were so many. */
void release(size_t count);

#endif
