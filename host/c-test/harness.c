/* Counted comparisons, and buffers between pages without access. */
#define _DEFAULT_SOURCE
#include "harness.h"

#include <stdio.h>
#include <stdlib.h>
#include <string.h>
#include <sys/mman.h>
#include <unistd.h>

static unsigned long passed, failed;

void equal(uint64_t got, uint64_t wanted, const char *what, const char *file, int line)
{
    if (got == wanted) {
        passed++;
        return;
    }
    failed++;
    fprintf(stderr, "%s:%d: %s is %llu, not %llu\n", file, line, what, (unsigned long long)got, (unsigned long long)wanted);
}

int report(void)
{
    printf("%lu passed, %lu failed\n", passed, failed);
    return failed == 0 ? 0 : 1;
}

struct buffer {
    uint8_t *map;
    size_t map_size;
    size_t page;
    uint8_t *at;
};

static struct buffer buffers[64];
static size_t buffer_count;

void *lend(size_t size, enum side side)
{
    size_t page = (size_t)sysconf(_SC_PAGESIZE);
    size_t inside = (size / page + 1) * page;
    struct buffer *b = &buffers[buffer_count];
    if (buffer_count == sizeof buffers / sizeof *buffers) {
        fprintf(stderr, "too many buffers\n");
        exit(2);
    }
    b->page = page;
    b->map_size = inside + 2 * page;
    b->map = mmap(NULL, b->map_size, PROT_READ | PROT_WRITE, MAP_PRIVATE | MAP_ANONYMOUS, -1, 0);
    if (b->map == MAP_FAILED) {
        fprintf(stderr, "no memory\n");
        exit(2);
    }
    mprotect(b->map, page, PROT_NONE);
    mprotect(b->map + page + inside, page, PROT_NONE);
    b->at = side == AT_END ? b->map + page + inside - size : b->map + page;
    buffer_count++;
    return b->at;
}

/* Makes the last buffer lent read-only. */
static void lock_last(void)
{
    struct buffer *b = &buffers[buffer_count - 1];
    mprotect(b->map + b->page, b->map_size - 2 * b->page, PROT_READ);
}

const void *input(const void *bytes, size_t size, enum side side)
{
    void *copy = lend(size, side);
    if (size > 0)
        memcpy(copy, bytes, size);
    lock_last();
    return copy;
}

size_t lent_count(void)
{
    return buffer_count;
}

void release(size_t count)
{
    while (buffer_count > count) {
        buffer_count--;
        munmap(buffers[buffer_count].map, buffers[buffer_count].map_size);
    }
}
