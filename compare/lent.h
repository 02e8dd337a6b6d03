/* What layers.c, routes.c, paths.c and searches.c share: they make the calls that a comparison asks for, and hand back
 * all that these say and everything that they were lent.
 *
 * As answer.c, such a program is linked with the library and talks through pipes. Numbers are
 * little-endian. A batch is its length in bytes (4) and its requests:
 *
 *   call (1), number of buffers (1), 1 for NULL where a length is 0 (1), 0 (5),
 *   six numbers (8 each), the lengths of BUFFERS buffers (8 each), their bytes
 *
 * Its answer is a length in bytes (4) and for each request:
 *
 *   the refusal (20), 0 (4), eight values (8 each),
 *   and for each buffer, const or not, 16 bytes, the buffer, 16 bytes
 *
 * The program names BUFFERS and LARGEST_BUFFER before it includes this, and has make_call.
 */
#include <stdio.h>
#include <stdlib.h>

#include "../include/tishkolan.h"
#include "../tests/memcheck.h"

enum { SIDE = 16, VALUES = 8, HEAD = 8 + 6 * 8 + BUFFERS * 8, SAYS = 24 + VALUES * 8 };

static uint64_t number[6], value[VALUES], length[BUFFERS];
static tishkolan_refusal refusal;

/* Makes the call on `number` and the buffers, and puts what it says into `refusal` and `value`. */
static void make_call(int call, uint8_t *buffer[BUFFERS]);

static bool read_all(void *to, size_t bytes)
{
    return fread(to, 1, bytes, stdin) == bytes;
}

/* Reads the request at `from`, writes what the call says at `to`; moves both on. */
static void answer_one(const uint8_t **from, uint8_t **to)
{
    static uint8_t lent[BUFFERS][SIDE + LARGEST_BUFFER + SIDE];
    uint8_t *buffer[BUFFERS];
    const int call = (*from)[0], buffers = (*from)[1];
    const bool null = (*from)[2] == 1;

    memcpy(number, *from + 8, sizeof number);
    memcpy(length, *from + 8 + sizeof number, sizeof length);
    *from += HEAD;
    for (int place = 0; place < BUFFERS; place++) {
        const size_t whole = SIDE + length[place] + SIDE;

        if (length[place] > LARGEST_BUFFER)
            exit(2);
        for (size_t side = 0; side < SIDE; side++) {
            lent[place][side] = (uint8_t)(0xC3 + side * 37);
            lent[place][whole - SIDE + side] = (uint8_t)(0xC3 + (whole - SIDE + side) * 37);
        }
        memcpy(lent[place] + SIDE, *from, length[place]);
        *from += length[place];
        buffer[place] = null && length[place] == 0 ? NULL : lent[place] + SIDE;
        FORBIDDEN(lent[place], SIDE);
        FORBIDDEN(lent[place] + whole - SIDE, SIDE);
    }

    memset(&refusal, 0, sizeof refusal);
    memset(value, 0, sizeof value);
    make_call(call, buffer);
    for (int place = 0; place < BUFFERS; place++) {
        DEFINED(lent[place], SIDE);
        DEFINED(lent[place] + SIDE + length[place], SIDE);
    }

    memset(*to, 0, SAYS);
    memcpy(*to, &refusal, 20);
    memcpy(*to + 24, value, sizeof value);
    *to += SAYS;
    for (int place = 0; place < buffers; place++) {
        memcpy(*to, lent[place], SIDE + length[place] + SIDE);
        *to += SIDE + length[place] + SIDE;
    }
}

int main(void)
{
    uint32_t bytes;

    while (read_all(&bytes, sizeof bytes)) {
        uint8_t *batch = malloc(bytes);
        /* A request is HEAD bytes and its buffers; its answer is SAYS bytes, the buffers and their sides. */
        uint8_t *says = malloc(4 + (size_t)bytes + (size_t)bytes / HEAD * (SAYS + BUFFERS * 2 * SIDE));
        const uint8_t *from = batch;
        uint8_t *to = says + 4;
        uint32_t written;

        if (batch == NULL || says == NULL || !read_all(batch, bytes))
            return 2;
        while (from < batch + bytes)
            answer_one(&from, &to);
        written = (uint32_t)(to - (says + 4));
        memcpy(says, &written, 4);
        if (fwrite(says, 1, 4 + (size_t)written, stdout) != 4 + (size_t)written
            || fflush(stdout) != 0)
            return 2;
        free(batch);
        free(says);
    }
    return 0;
}
