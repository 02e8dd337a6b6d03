/* What the C tests share: a claim, what a call said beside its answer, patterns in buffers, cells, the order of records.
 * Every CHECK is one claim; a program prints how many hold, exit status 1 where one does not. */
#ifndef CLAIMS_H
#define CLAIMS_H

#include <stdio.h>

#include "../include/tishkolan.h"

static int passed, failed;

#define CHECK(claim)                                                        \
    do {                                                                    \
        if (claim) {                                                        \
            passed++;                                                       \
        } else {                                                            \
            failed++;                                                       \
            printf("%s:%d: does not hold: %s\n", __FILE__, __LINE__, #claim); \
        }                                                                   \
    } while (0)

/* ---- what a call says beside its answer */

static inline bool is(tishkolan_refusal said, uint32_t number, uint32_t room, int32_t x, int32_t y, int32_t z)
{
    return said.number == number && said.room == room && said.x == x && said.y == y && said.z == z;
}

static inline bool answered(tishkolan_refusal said)
{
    return is(said, TISHKOLAN_ANSWERED, 0, 0, 0, 0);
}

/* Refused with a number that carries nothing. */
static inline bool refused(tishkolan_refusal said, uint32_t number)
{
    return is(said, number, 0, 0, 0, 0);
}

static inline bool mixed(tishkolan_refusal said, int32_t x, int32_t y, int32_t z)
{
    return is(said, TISHKOLAN_INVALID_PARITY, 0, x, y, z);
}

/* The output's room is room 3, the layer's room 4. */
static inline bool no_room(tishkolan_refusal said)
{
    return is(said, TISHKOLAN_NO_ROOM, 3, 0, 0, 0);
}

static inline bool no_layer_room(tishkolan_refusal said)
{
    return is(said, TISHKOLAN_NO_ROOM, 4, 0, 0, 0);
}

/* ---- buffers: filled with a pattern first, so that an untouched byte can be told */

enum { PATTERN = 0xA5 };

static inline bool untouched(const void *from, size_t bytes)
{
    const uint8_t *byte = from;

    while (bytes > 0 && *byte == PATTERN)
        byte++, bytes--;
    return bytes == 0;
}

static inline void fill(void *buffer, size_t bytes)
{
    memset(buffer, PATTERN, bytes);
}

/* ---- cells used below. Each is z, y, x, then reserved, flags, exponent, resolution, frame. */

#define CELL TISHKOLAN_CELL_BYTES

typedef struct {
    uint8_t bytes[CELL];
} cell;

/* A plain cell of frame 7. */
static inline cell at(uint8_t resolution, int32_t x, int32_t y, int32_t z)
{
    cell made;
    const int32_t word[3] = {z, y, x};

    for (int place = 0; place < 12; place++)
        made.bytes[place] = (uint8_t)((uint32_t)word[place / 4] >> (24 - 8 * (place % 4)));
    made.bytes[12] = 0;
    made.bytes[13] = 0;
    made.bytes[14] = resolution;
    made.bytes[15] = 7;
    return made;
}

/* ---- records, each a cell's 16 bytes and what is kept of it */

/* The first of so many records that is not above the one before it by its cell's bytes; their number where there is none. */
static inline size_t first_fall(const uint8_t *records, size_t record, size_t count)
{
    for (size_t row = 1; row < count; row++)
        if (memcmp(records + (row - 1) * record, records + row * record, CELL) >= 0)
            return row;
    return count;
}

#endif
