/* A list of writes and changes, each held to the words and to the file that make gives of them. */
#include "files.h"
#include "harness.h"
#include "tests.h"

#include <stdbool.h>
#include <string.h>

enum { CELLS = 300, ROOM = 8192 };

/* A line with E = 0, its setting and its file. */
static uint32_t words[CELLS];
static struct setting setting;
static uint8_t file[ROOM];

/* Where the next file is put out. */
static uint8_t next[ROOM];

static uint32_t seed = 2002;

/* A number below `end`, from the seed. */
static uint32_t below(uint32_t end)
{
    seed = seed * 1664525u + 1013904223u;
    return (seed >> 8) % end;
}

/* Holds a call's number and what it put out to the file of the words in a setting. An accepted one becomes the file. */
static bool accepted(uint32_t number, struct setting wanted, size_t room)
{
    static uint8_t made[ROOM];
    uint32_t result = make_line(wanted, words, CELLS, made, ROOM);
    size_t len = field(made, 48);
    if (result == 0 && len > room)
        result = 10;
    EQUAL(number, result);
    if (result != 0) {
        EQUAL(next[0], 0xa5);
        return false;
    }
    HOLDS(memcmp(next, made, len) == 0);
    HOLDS(len == ROOM || next[len] == 0xa5);
    memcpy(file, next, len);
    return true;
}

/* Writes a cell. */
static void write_cell(uint32_t p, uint32_t word, size_t room)
{
    uint32_t number = ra_write(file, field(file, 48), p, word, next, room);
    if (p >= CELLS) {
        EQUAL(number, 8);
        return;
    }
    uint32_t before = words[p];
    words[p] = word;
    if (!accepted(number, setting, room))
        words[p] = before;
}

/* Changes the setting. */
static void change_setting(struct setting wanted, size_t room)
{
    uint32_t number = ra_change(file, field(file, 48), wanted.kind, wanted.width, wanted.step, next, room);
    if (accepted(number, wanted, room))
        setting = wanted;
}

void writes_and_changes(void)
{
    static const struct setting more[6] = {{3, 2, 255}, {5, 0, 64}, {4, 2, 0}, {3, 1, 1}, {6, 1, 1}, {6, 2, 255}};
    setting = SETTINGS[0];
    EQUAL(make_line(setting, words, CELLS, file, ROOM), 0);
    for (int step = 0; step < 3000; step++) {
        size_t room = below(4) == 0 ? below(field(file, 48) + 12) : ROOM;
        uint32_t p = below(CELLS + 2);
        bool writes = below(6) != 0;
        uint32_t word = below(3) == 0 ? 0 : 1 + below(400);
        memset(next, 0xa5, ROOM);
        if (writes) {
            write_cell(p, word, room);
        } else {
            uint32_t which = below(KINDS + 6);
            change_setting(which < KINDS ? SETTINGS[which] : more[which - KINDS], room);
        }
    }
    reads_as(file, field(file, 48), words, CELLS);
}
