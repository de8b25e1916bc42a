/* Destinations that are short, exact and larger, with what they held before. */
#include "files.h"
#include "harness.h"
#include "tests.h"

#include <string.h>

enum call { MAKE, WRITE, CHANGE };

/* A call whose result is the sample's file, which is lent; gives the number. */
static uint32_t put_out(enum call call, struct setting s, const uint32_t *words, const uint8_t *file, size_t len, uint8_t *dst,
                        size_t room)
{
    switch (call) {
    case MAKE: return make_line(s, words, 12, dst, room);
    case WRITE: return ra_write(file, len, 2, 7, dst, room);
    default: return ra_change(file, len, s.kind, s.width, s.step, dst, room);
    }
}

/* The destination after a call: the file at its beginning if there is room for it, and the rest as it was. */
static void holds_file(const uint8_t *dst, size_t room, const uint8_t *file, size_t len)
{
    size_t put = room < len ? 0 : len;
    HOLDS(memcmp(dst, file, put) == 0);
    size_t kept = put;
    while (kept < room && dst[kept] == 0xa5)
        kept++;
    EQUAL(kept, room);
}

/* Every call with a destination of so many bytes. */
static void destinations_of(size_t room, struct setting s, const uint8_t *file, size_t len)
{
    size_t count = lent_count();
    const uint32_t *words = input(SAMPLE, sizeof SAMPLE, AT_END);
    const uint8_t *lent = input(file, len, AT_START);
    for (int call = MAKE; call <= CHANGE; call++) {
        for (int side = AT_END; side <= AT_START; side++) {
            uint8_t *dst = lend(room, (enum side)side);
            memset(dst, 0xa5, room);
            EQUAL(put_out((enum call)call, s, words, lent, len, dst, room), room < len ? 10 : 0);
            holds_file(dst, room, file, len);
        }
    }
    release(count);
}

void destinations(void)
{
    for (int i = 0; i < KINDS; i++) {
        uint8_t file[200];
        size_t len = sample(i, file);
        for (size_t room = 0; room <= len + 9; room++)
            destinations_of(room, SETTINGS[i], file, len);
    }
}
