/* Makes the calls that the program compare asks for, and hands back all that they say.
 *
 * compare is Rust on this machine; the library may be the other machine's, in an emulator. So the
 * library is linked here, in C and through its own header, and the two talk through pipes. Numbers are little-endian. A batch is its length in bytes (4) and its requests:
 *
 *   call (1), length of the first cell or of the label (1), of the second cell (1), fill (1),
 *   length of the buffer in elements (2), 1 for NULL where a length is 0 (1), 0 (1),
 *   seven numbers (8 each), the bytes of the first cell or of the label, of the second cell
 *
 * Its answer is a length in bytes (4) and for each request:
 *
 *   the refusal (20), 1 where a lent cell was changed (4), eight values (8 each),
 *   and, where the call has a buffer, 16 bytes, the buffer, 16 bytes
 */
#include <stdio.h>
#include <stdlib.h>

#include "../include/tishkolan.h"

enum { SIDE = 16, HEAD = 64, SAYS = 88, LARGEST_BUFFER = 1024 };

static int64_t number[7], value[8];
static tishkolan_refusal refusal;

static bool read_all(void *to, size_t length)
{
    return fread(to, 1, length, stdin) == length;
}

static void say_number(tishkolan_number_answer answer)
{
    refusal = answer.refusal;
    value[0] = answer.value;
}

static void say_bits(tishkolan_bits_answer answer)
{
    refusal = answer.refusal;
    value[0] = (int64_t)answer.bits;
}

static void say_coord(tishkolan_coord_answer answer)
{
    refusal = answer.refusal;
    value[0] = answer.x;
    value[1] = answer.y;
    value[2] = answer.z;
}

static void say_point(tishkolan_point_answer answer)
{
    refusal = answer.refusal;
    value[0] = (int64_t)answer.x;
    value[1] = (int64_t)answer.y;
    value[2] = (int64_t)answer.z;
}

static void say_fields(tishkolan_fields_answer answer)
{
    refusal = answer.refusal;
    value[0] = answer.frame;
    value[1] = answer.resolution;
    value[2] = answer.exponent;
    value[3] = answer.flags;
    value[4] = answer.reserved;
    value[5] = answer.x;
    value[6] = answer.y;
    value[7] = answer.z;
}

static void say_place(tishkolan_place_answer answer)
{
    refusal = answer.refusal;
    value[0] = (int64_t)answer.place;
}

/* The bytes of an element of the call's buffer; 0 where it has none. */
static size_t element(int call)
{
    switch (call) {
    case 5: case 6:
        return 4;
    case 12: case 13: case 18: case 19: case 20: case 21: case 25: case 26:
        return 1;
    default:
        return 0;
    }
}

static void make_call(int call, const uint8_t *first, size_t first_length,
                      const uint8_t *second, size_t second_length, void *out, size_t out_length)
{
    const int32_t x = (int32_t)number[0], y = (int32_t)number[1], z = (int32_t)number[2];
    const int32_t bx = (int32_t)number[3], by = (int32_t)number[4], bz = (int32_t)number[5];

    switch (call) {
    case 1: say_bits(tishkolan_square_root((uint64_t)number[0])); break;
    case 2: say_number(tishkolan_parity(x, y, z)); break;
    case 3: say_number(tishkolan_opposite((uint32_t)number[0])); break;
    case 4: value[0] = tishkolan_is_valid_lattice_point(x, y, z); break;
    case 5: refusal = tishkolan_lattice_neighbors(x, y, z, out, out_length); break;
    case 6: refusal = tishkolan_lattice_children(x, y, z, out, out_length); break;
    case 7: say_coord(tishkolan_lattice_parent(x, y, z)); break;
    case 8:
        say_coord(tishkolan_physical_to_lattice((uint64_t)number[0], (uint64_t)number[1],
                                                (uint64_t)number[2], (uint8_t)number[3]));
        break;
    case 9: say_point(tishkolan_to_physical(x, y, z)); break;
    case 10: say_bits(tishkolan_lattice_distance(x, y, z, bx, by, bz)); break;
    case 11: say_number(tishkolan_lattice_manhattan_distance(x, y, z, bx, by, bz)); break;
    case 12:
        refusal = tishkolan_cell_new((uint8_t)number[0], (uint8_t)number[1], (int32_t)number[2],
                                     (int32_t)number[3], (int32_t)number[4], (uint8_t)number[5],
                                     (uint8_t)number[6], out, out_length);
        break;
    case 13:
        refusal = tishkolan_cell_from_coords((uint8_t)number[0], (uint8_t)number[1],
                                             (int32_t)number[2], (int32_t)number[3],
                                             (int32_t)number[4], out, out_length);
        break;
    case 14: say_fields(tishkolan_cell_fields(first, first_length)); break;
    case 15: say_coord(tishkolan_cell_lattice_coord(first, first_length)); break;
    case 16: say_number(tishkolan_cell_compare(first, first_length, second, second_length)); break;
    case 17: say_number(tishkolan_cell_is_plain(first, first_length)); break;
    case 18: refusal = tishkolan_cell_neighbors(first, first_length, out, out_length); break;
    case 19: refusal = tishkolan_cell_children(first, first_length, out, out_length); break;
    case 20: refusal = tishkolan_cell_parent(first, first_length, out, out_length); break;
    case 21:
        refusal = tishkolan_cell_ancestor(first, first_length, (uint8_t)number[0], out, out_length);
        break;
    case 22: refusal = tishkolan_cell_between(first, first_length, second, second_length); break;
    case 23: say_bits(tishkolan_cell_distance(first, first_length, second, second_length)); break;
    case 24:
        say_number(tishkolan_cell_manhattan_distance(first, first_length, second, second_length));
        break;
    case 25: refusal = tishkolan_cell_to_bech32m(first, first_length, out, out_length); break;
    case 26: say_place(tishkolan_cell_from_bech32m(first, first_length, out, out_length)); break;
    default:
        fprintf(stderr, "answer: there is no call %d\n", call);
        exit(2);
    }
}

/* Reads the request at `from`, writes what the call says at `to`; moves both on. */
static void answer_one(const uint8_t **from, uint8_t **to)
{
    static _Alignas(16) uint8_t lent[SIDE + LARGEST_BUFFER + SIDE];
    static uint8_t cells[2 * 256];
    const uint8_t *request = *from;
    const int call = request[0];
    const size_t first_length = request[1], second_length = request[2];
    const size_t out_length = request[4] | (size_t)request[5] << 8;
    const size_t size = element(call), whole = SIDE + out_length * size + SIDE;
    const bool null = request[6] == 1;
    uint32_t changed;

    if (whole > sizeof lent)
        exit(2);
    memcpy(number, request + 8, sizeof number);
    memcpy(cells, request + HEAD, first_length + second_length);
    if (size > 0)
        for (size_t place = 0; place < whole; place++)
            lent[place] = (uint8_t)(request[3] + place * 37);

    memset(&refusal, 0, sizeof refusal);
    memset(value, 0, sizeof value);
    make_call(call, null && first_length == 0 ? NULL : cells, first_length,
              null && second_length == 0 ? NULL : cells + first_length, second_length,
              null && out_length == 0 ? NULL : lent + SIDE, out_length);

    changed = memcmp(cells, request + HEAD, first_length + second_length) != 0;
    memcpy(*to, &refusal, 20);
    memcpy(*to + 20, &changed, 4);
    memcpy(*to + 24, value, sizeof value);
    *to += SAYS;
    if (size > 0) {
        memcpy(*to, lent, whole);
        *to += whole;
    }
    *from += HEAD + first_length + second_length;
}

int main(void)
{
    uint32_t length;

    while (read_all(&length, sizeof length)) {
        uint8_t *batch = malloc(length);
        /* A request of HEAD bytes or more is answered by at most this many. */
        uint8_t *says = malloc(4 + (length / HEAD) * (SAYS + SIDE + LARGEST_BUFFER + SIDE));
        const uint8_t *from = batch;
        uint8_t *to = says + 4;
        uint32_t written;

        if (batch == NULL || says == NULL || !read_all(batch, length))
            return 2;
        while (from < batch + length)
            answer_one(&from, &to);
        written = (uint32_t)(to - (says + 4));
        memcpy(says, &written, 4);
        if (fwrite(says, 1, 4 + (size_t)written, stdout) != 4 + (size_t)written
            || fflush(stdout) != 0)
            return 2;
        free(batch);
        free(says);
    }
    return 0;
}
