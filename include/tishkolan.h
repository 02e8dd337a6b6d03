/* Tishkolan: cells of a body-centred cubic lattice, each call proved.
 *
 * The library is for x86-64 and 64-bit Arm under Linux; MIT licence. This header is its manual. What is
 * proved and what is not, how fast the calls are, and the layout of the workspaces stand in the
 * repository: README.md, docs/PROMISES.md, docs/SPEED.md, docs/MEMORY.md.
 *
 * Every call takes all numbers, bytes and lengths, ends, and answers or refuses. It keeps nothing
 * between calls, allocates nothing and calls nothing but memcpy and memset; what it needs, you lend,
 * but for its stack.
 *
 * A double crosses as its 64 bits: see tishkolan_bits_of and tishkolan_double_of.
 * A buffer is a pointer and a length, in elements; NULL with length 0 is fine.
 * A call that answers into a buffer fills its front and leaves the rest as it was;
 * a call that refuses leaves all of it as it was. Buffers that are const are only read. Workspaces
 * are told of with rings and the search: they are left zero.
 *
 * What is assumed of you: a buffer is as long as you say, the buffers of one call do not overlap
 * (those that are const may), nobody changes a buffer while the call runs, and the thread has stack
 * enough for the call. Threads may call at the same time, each with its own buffers.
 *
 * Stack: beside a call that takes more than 1,000 bytes of it stands how much; every other call takes
 * less. Measured by tests/stack, with the caller's arguments and answer, the larger figure of both
 * machines, rounded up; no proof covers it.
 *
 * Time: that a call ends does not say that it ends soon. Beside each group of calls stands what its
 * time grows with, in the sizes of what you lend; it is read off the code, no proof covers it. Where
 * nothing is said it is constant.
 *
 * Refusals are named in the order in which they are tested: the first that fits is given.
 *
 * Lines that are indented by five are examples. One after the other they are the body of one main,
 * which the tests compile and run; what it prints stands behind //. It ends with 1 at a refusal that
 * it does not expect: an answer beside a refusal that nobody looked at is no answer.
 */
#ifndef TISHKOLAN_H
#define TISHKOLAN_H

#include <stdbool.h>
#include <stddef.h>
#include <stdint.h>
#include <string.h>

#ifdef __cplusplus
extern "C" {
#endif

/* ---- the version of this header */

#define TISHKOLAN_VERSION_MAJOR 0
#define TISHKOLAN_VERSION_MINOR 4
#define TISHKOLAN_VERSION_PATCH 1
#define TISHKOLAN_VERSION "0.4.1"
#define TISHKOLAN_VERSION_NUMBER \
    (TISHKOLAN_VERSION_MAJOR * 1000000 + TISHKOLAN_VERSION_MINOR * 1000 + TISHKOLAN_VERSION_PATCH)

/* The version of the archive: the TISHKOLAN_VERSION_NUMBER that it was made with. An archive and its
 * header belong together: compare the two when your program starts. Before 1.0 a minor version may
 * change structs and calls; a patch changes neither. Numbers, structs and calls cross as the C
 * compilers of x86-64 (System V) and 64-bit Arm (AAPCS64) pass them under Linux, both little-endian. */
uint32_t tishkolan_version(void);

/*     if (tishkolan_version() != TISHKOLAN_VERSION_NUMBER)
 *         return 1;
 *     puts(TISHKOLAN_VERSION); // 0.4.1 */

/* ---- what a call says */

/* The refusals' numbers. 0 says that the call answered. */
enum {
    TISHKOLAN_ANSWERED = 0,
    TISHKOLAN_INVALID_PARITY = 1,        /* carries x, y, z */
    TISHKOLAN_NO_PARENT = 2,
    TISHKOLAN_NO_CHILDREN = 3,
    TISHKOLAN_OUT_OF_RANGE = 4,
    TISHKOLAN_NO_VALUES = 5,
    TISHKOLAN_HAS_NAN = 6,
    TISHKOLAN_SEARCH_LIMIT_EXCEEDED = 7, /* carries expansions, limit */
    TISHKOLAN_NO_PATH_FOUND = 8,         /* carries start, goal */
    TISHKOLAN_COORD_OVERFLOW = 9,
    TISHKOLAN_NO_ROOM = 10,              /* carries the room, below */
    TISHKOLAN_BAD_WORKSPACE = 11,
    TISHKOLAN_BAD_FILE = 12,             /* carries the byte place */
    TISHKOLAN_BAD_LIST = 13,             /* a list whose length is no multiple of 16, or one cell of another length than 16 */
    TISHKOLAN_BAD_LAYER = 14,
    TISHKOLAN_BAD_RULE = 15,
    /* Of a label; each carries the place. */
    TISHKOLAN_LABEL_PREFIX = 30,
    TISHKOLAN_LABEL_MIXED_CASE = 31,
    TISHKOLAN_LABEL_CHARACTER = 32,
    TISHKOLAN_LABEL_LENGTH = 33,
    TISHKOLAN_LABEL_CHECKSUM = 34,
    TISHKOLAN_LABEL_PADDING = 35
};

enum { TISHKOLAN_CELL_BYTES = 16, TISHKOLAN_LABEL_BYTES = 37, TISHKOLAN_NEIGHBORS = 14, TISHKOLAN_CHILDREN = 8 };

static inline const char *tishkolan_refusal_name(uint32_t number)
{
    switch (number) {
    case TISHKOLAN_ANSWERED: return "answered";
    case TISHKOLAN_INVALID_PARITY: return "the coordinates are neither all even nor all odd";
    case TISHKOLAN_NO_PARENT: return "there is no parent";
    case TISHKOLAN_NO_CHILDREN: return "there are no children";
    case TISHKOLAN_OUT_OF_RANGE: return "out of range";
    case TISHKOLAN_NO_VALUES: return "no values";
    case TISHKOLAN_HAS_NAN: return "a value is not a number";
    case TISHKOLAN_SEARCH_LIMIT_EXCEEDED: return "the search went beyond its limit";
    case TISHKOLAN_NO_PATH_FOUND: return "there is no path";
    case TISHKOLAN_COORD_OVERFLOW: return "a coordinate or a difference leaves 32 bits";
    case TISHKOLAN_NO_ROOM: return "no room";
    case TISHKOLAN_BAD_WORKSPACE: return "a workspace is too small, or its room is none";
    case TISHKOLAN_BAD_FILE: return "the file is no survey file";
    case TISHKOLAN_BAD_LIST: return "the bytes are no list of cells";
    case TISHKOLAN_BAD_LAYER: return "the table is no layer";
    case TISHKOLAN_BAD_RULE: return "there is no such rule";
    case TISHKOLAN_LABEL_PREFIX: return "the label does not begin with cx3d1";
    case TISHKOLAN_LABEL_MIXED_CASE: return "the label has letters of both cases";
    case TISHKOLAN_LABEL_CHARACTER: return "no label has this character";
    case TISHKOLAN_LABEL_LENGTH: return "the label is not 37 characters long";
    case TISHKOLAN_LABEL_CHECKSUM: return "the label's checksum is wrong";
    case TISHKOLAN_LABEL_PADDING: return "the label's padding is not zero";
    default: return "no refusal has this number";
    }
}

/* The rooms of NO_ROOM. */
enum { TISHKOLAN_ROOM_KNOWN = 1, TISHKOLAN_ROOM_WAITING = 2, TISHKOLAN_ROOM_OUTPUT = 3, TISHKOLAN_ROOM_LAYER = 4 };

static inline const char *tishkolan_room_name(uint32_t room)
{
    switch (room) {
    case TISHKOLAN_ROOM_KNOWN: return "for known cells";
    case TISHKOLAN_ROOM_WAITING: return "for waiting entries";
    case TISHKOLAN_ROOM_OUTPUT: return "in the output";
    case TISHKOLAN_ROOM_LAYER: return "in the layer";
    default: return "no room has this number";
    }
}

/* What a call says beside its answer. A field that the refusal does not carry is 0. */
typedef struct {
    uint32_t number; /* 0, or the refusal's number */
    uint32_t room;   /* of NO_ROOM */
    int32_t x, y, z; /* of INVALID_PARITY */
} tishkolan_refusal;

/* An answer beside its refusal is 0 in every field where the call refuses, but for the counts of
 * layers (tishkolan_count_answer, tishkolan_kept_answer, tishkolan_load_answer) and for what a
 * refusal carries in a struct of its own (tishkolan_place_answer, tishkolan_load_answer,
 * tishkolan_search_answer).
 *
 * Yes and no come in three ways: a call that refuses nothing answers with a bool; one that may refuse
 * has 1 or 0 as the value of a tishkolan_number_answer; and tishkolan_kept_answer, which has more to
 * say, has found, 1 or 0. */
typedef struct {
    tishkolan_refusal refusal;
    int32_t value;
} tishkolan_number_answer;

typedef struct {
    tishkolan_refusal refusal;
    uint64_t bits; /* of a double */
} tishkolan_bits_answer;

typedef struct {
    tishkolan_refusal refusal;
    int32_t x, y, z;
} tishkolan_coord_answer;

typedef struct {
    tishkolan_refusal refusal;
    uint64_t x, y, z; /* bits of doubles */
} tishkolan_point_answer;

typedef struct {
    tishkolan_refusal refusal;
    uint8_t frame, resolution, exponent, flags, reserved;
    int32_t x, y, z;
} tishkolan_fields_answer;

typedef struct {
    tishkolan_refusal refusal;
    uint64_t place; /* of a refusal that carries one, from 0; else 0 */
} tishkolan_place_answer;

static inline uint64_t tishkolan_bits_of(double value)
{
    uint64_t bits;
    memcpy(&bits, &value, sizeof bits);
    return bits;
}

static inline double tishkolan_double_of(uint64_t bits)
{
    double value;
    memcpy(&value, &bits, sizeof value);
    return value;
}

/* ---- square root */

/* The double nearest to the square root, for +0.0 and for whole values from 1 to 2^64.
 * Anything else (-0.0, fractions, infinities, NaN) is OUT_OF_RANGE. */
tishkolan_bits_answer tishkolan_square_root(uint64_t bits);

/*     tishkolan_bits_answer root = tishkolan_square_root(tishkolan_bits_of(2.0));
 *     if (root.refusal.number != TISHKOLAN_ANSWERED)
 *         return 1;
 *     printf("%.17g\n", tishkolan_double_of(root.bits)); // 1.4142135623730951 */

/* ---- lattice: points by their coordinates.
 * A point of the lattice has coordinates that are all even or all odd; a call on
 * another point is INVALID_PARITY, with that point, before anything else.
 *
 * Units: a lattice unit is 2^-resolution of yours: at resolution 3 an eighth of a metre, if you measure
 * in metres. tishkolan_physical_to_lattice multiplies by 2^resolution, and nothing divides by it again:
 * coordinates, distances and costs of routes are in lattice units, of points and of cells, whatever
 * their resolution. To have metres back, divide by 2^resolution yourself. */

/* 0 even, 1 odd. INVALID_PARITY where the coordinates are mixed. */
tishkolan_number_answer tishkolan_parity(int32_t x, int32_t y, int32_t z);

/* 1 for 0, and 0 for 1. OUT_OF_RANGE for any other number. */
tishkolan_number_answer tishkolan_opposite(uint32_t parity);

/* Whether the coordinates are all even or all odd. Refuses nothing. */
bool tishkolan_is_valid_lattice_point(int32_t x, int32_t y, int32_t z);

/* The 14 neighbours as 42 numbers x, y, z. To the point are added, in this order,
 *   (1,1,1) (1,1,-1) (1,-1,1) (1,-1,-1) (-1,1,1) (-1,1,-1) (-1,-1,1) (-1,-1,-1), root of 3 away and of
 *   the other parity, then
 *   (2,0,0) (-2,0,0) (0,2,0) (0,-2,0) (0,0,2) (0,0,-2), 2 away and of the same parity.
 * INVALID_PARITY; COORD_OVERFLOW unless each coordinate is in -2147483646..=2147483645;
 * NO_ROOM 3 where out is shorter than 42 numbers. */
tishkolan_refusal tishkolan_lattice_neighbors(int32_t x, int32_t y, int32_t z,
                                              int32_t *out, size_t out_length);

/* The 8 children, one resolution finer, as 24 numbers x, y, z. To the doubled point are added, in this
 * order,
 *   (0,0,0) (2,0,0) (0,2,0) (0,0,2) (1,1,1) (1,1,-1) (1,-1,1) (1,-1,-1).
 * INVALID_PARITY; COORD_OVERFLOW unless x is in -1073741824..=1073741822 and y, z in
 * -1073741823..=1073741822; NO_ROOM 3 where out is shorter than 24 numbers. */
tishkolan_refusal tishkolan_lattice_children(int32_t x, int32_t y, int32_t z,
                                             int32_t *out, size_t out_length);

/* The parent, one resolution coarser: the one point that has this one among its 8 children. Each
 * coordinate is halved, rounded down; of an even point, 1 is taken off the half whose parity differs from
 * the other two, if there is one; of an odd point, the halves of y and z that differ in parity from the
 * half of x are raised by 1: (4, 2, 2) has (1, 1, 1), (-3, 1, -1) has (-2, 0, 0). INVALID_PARITY. */
tishkolan_coord_answer tishkolan_lattice_parent(int32_t x, int32_t y, int32_t z);

/* The lattice point nearest to a physical point, given by the bits of its coordinates,
 * which are multiplied by 2^resolution first. A tie goes to the even point; within a hair of a tie the
 * rounding of doubles decides. OUT_OF_RANGE where a product is a NaN, infinite, or above 2147483646 in
 * magnitude. */
tishkolan_coord_answer tishkolan_physical_to_lattice(uint64_t x, uint64_t y, uint64_t z,
                                                     uint8_t resolution);

/* The coordinates as doubles, in lattice units: (0.125, 0.125, 0.125) at resolution 3 is snapped to
 * (1, 1, 1), and that comes back as (1.0, 1.0, 1.0). INVALID_PARITY. */
tishkolan_point_answer tishkolan_to_physical(int32_t x, int32_t y, int32_t z);

/* The Euclidean distance from a to b. INVALID_PARITY of a, then of b; COORD_OVERFLOW
 * where a difference a - b leaves the 32-bit numbers. */
tishkolan_bits_answer tishkolan_lattice_distance(int32_t ax, int32_t ay, int32_t az,
                                                 int32_t bx, int32_t by, int32_t bz);

/* The Manhattan distance. INVALID_PARITY of a, then of b; COORD_OVERFLOW where it
 * passes 2147483647. */
tishkolan_number_answer tishkolan_lattice_manhattan_distance(int32_t ax, int32_t ay, int32_t az,
                                                             int32_t bx, int32_t by, int32_t bz);

/*     tishkolan_coord_answer at = tishkolan_physical_to_lattice( // in metres, at resolution 3
 *         tishkolan_bits_of(0.11), tishkolan_bits_of(0.15), tishkolan_bits_of(0.10), 3);
 *     if (at.refusal.number != TISHKOLAN_ANSWERED)
 *         return 1;
 *     printf("(%d, %d, %d)\n", at.x, at.y, at.z); // (1, 1, 1)
 *     tishkolan_point_answer point = tishkolan_to_physical(at.x, at.y, at.z);
 *     if (point.refusal.number != TISHKOLAN_ANSWERED)
 *         return 1;
 *     printf("%.3f m\n", tishkolan_double_of(point.x) / (1 << 3)); // 0.125 m */

/* ---- cells: 16 bytes, big-endian.
 *   bytes  0 to 3   z, two's complement
 *   bytes  4 to 7   y
 *   bytes  8 to 11  x
 *   byte   12       reserved (the high 4 bits), and the high half of the flags
 *   byte   13       the low half of the flags, and the exponent (the low 4 bits)
 *   byte   14       resolution
 *   byte   15       frame
 * The frame is a number of yours for the coordinate system, such as one for each tank. The resolution
 * says how fine the lattice is: parents have one less, children one more, neighbours the same. Exponent
 * and flags are yours to mark a cell with; no call reckons with them, nor with the reserved bits, which
 * only bytes that you make by hand have.
 * But all 128 bits say which cell it is. A cell with marks and its plain twin, whose exponent, flags and
 * reserved are 0, are two cells: what a layer keeps of the one it does not keep of the other.
 * A cell's flags are not a layer's flags: TISHKOLAN_BLOCKED among the former blocks nothing.
 *
 * A call that takes a cell of another length is BAD_LIST before anything else; one that
 * answers with cells is NO_ROOM 3, last of all, where out is shorter than its answer.
 * The cells of an answer are plain, but for three: the cell that tishkolan_cell_new makes has the exponent
 * and flags that it was given, the ancestor at a cell's own resolution is that cell, unchanged, and the
 * cell that is read from a label has all bits of the one that was written. */

/* The cell of these fields, the exponent taken modulo 16, reserved 0. INVALID_PARITY. */
tishkolan_refusal tishkolan_cell_new(uint8_t frame, uint8_t resolution,
                                     int32_t x, int32_t y, int32_t z,
                                     uint8_t exponent, uint8_t flags,
                                     uint8_t *out, size_t out_length);

/* The plain cell at a lattice point. INVALID_PARITY. */
tishkolan_refusal tishkolan_cell_from_coords(uint8_t frame, uint8_t resolution,
                                             int32_t x, int32_t y, int32_t z,
                                             uint8_t *out, size_t out_length);

/* The fields as they were packed; every 16 bytes have them. */
tishkolan_fields_answer tishkolan_cell_fields(const uint8_t *cell, size_t cell_length);

/* The coordinates, tested: INVALID_PARITY where they are mixed. */
tishkolan_coord_answer tishkolan_cell_lattice_coord(const uint8_t *cell, size_t cell_length);

/* -1, 0 or 1 as the first is below, equal to or above the second, over all 128 bits.
 * BAD_LIST where either has another length than 16. */
tishkolan_number_answer tishkolan_cell_compare(const uint8_t *first, size_t first_length,
                                               const uint8_t *second, size_t second_length);

/* 1 where the cell is plain, else 0. */
tishkolan_number_answer tishkolan_cell_is_plain(const uint8_t *cell, size_t cell_length);

/* The 14 neighbours, 224 bytes, in the order of tishkolan_lattice_neighbors. INVALID_PARITY;
 * COORD_OVERFLOW as of tishkolan_lattice_neighbors; NO_ROOM 3. */
tishkolan_refusal tishkolan_cell_neighbors(const uint8_t *cell, size_t cell_length,
                                           uint8_t *out, size_t out_length);

/* The 8 children, 128 bytes, in the order of tishkolan_lattice_children. NO_CHILDREN at resolution 255;
 * INVALID_PARITY; COORD_OVERFLOW as of tishkolan_lattice_children; NO_ROOM 3. */
tishkolan_refusal tishkolan_cell_children(const uint8_t *cell, size_t cell_length,
                                          uint8_t *out, size_t out_length);

/* The parent. NO_PARENT at resolution 0; INVALID_PARITY; NO_ROOM 3. */
tishkolan_refusal tishkolan_cell_parent(const uint8_t *cell, size_t cell_length,
                                        uint8_t *out, size_t out_length);

/* The ancestor at a resolution: NO_PARENT where that is finer than the cell's; the cell
 * itself, unchanged, at its own; else INVALID_PARITY, or the parent of the parent, as
 * often as it takes; NO_ROOM 3.
 * Time: so much for each resolution in between. */
tishkolan_refusal tishkolan_cell_ancestor(const uint8_t *cell, size_t cell_length,
                                          uint8_t resolution,
                                          uint8_t *out, size_t out_length);

/* Asks for the cell between two; there never is one, so an answer (number 0) says "nothing".
 * Nothing where the resolutions differ; INVALID_PARITY of the first, then of the second;
 * nothing where the parities differ; COORD_OVERFLOW as of the Manhattan distance; nothing. */
tishkolan_refusal tishkolan_cell_between(const uint8_t *first, size_t first_length,
                                         const uint8_t *second, size_t second_length);

/* The distances of two cells, by their coordinates alone, though their frames or resolutions differ:
 * as of tishkolan_lattice_distance and tishkolan_lattice_manhattan_distance. */
tishkolan_bits_answer tishkolan_cell_distance(const uint8_t *first, size_t first_length,
                                              const uint8_t *second, size_t second_length);
tishkolan_number_answer tishkolan_cell_manhattan_distance(const uint8_t *first, size_t first_length,
                                                          const uint8_t *second, size_t second_length);

/*     uint8_t struck[16], from[16], to[16], above[16]; // in frame 0, at resolution 3
 *     if (tishkolan_cell_from_coords(0, 3, at.x, at.y, at.z, struck, 16).number != TISHKOLAN_ANSWERED
 *         || tishkolan_cell_from_coords(0, 3, 0, 0, 0, from, 16).number != TISHKOLAN_ANSWERED
 *         || tishkolan_cell_from_coords(0, 3, 2, 2, 0, to, 16).number != TISHKOLAN_ANSWERED
 *         || tishkolan_cell_from_coords(0, 3, 2, 2, 2, above, 16).number != TISHKOLAN_ANSWERED)
 *         return 1;
 *     tishkolan_bits_answer apart = tishkolan_cell_distance(from, 16, struck, 16);
 *     if (apart.refusal.number != TISHKOLAN_ANSWERED)
 *         return 1;
 *     printf("%.3f units\n", tishkolan_double_of(apart.bits)); // 1.732 units */

/* ---- labels: a cell's name on paper, as on a plate drawing.
 * A label is a Bech32m string of BIP 350, 37 characters: cx3d, the separator 1, 26 characters of the
 * cell's 16 bytes, 5 bits each, the first bit first and two zero bits behind the last, and 6 of checksum.
 * Every cell has one, whatever its 16 bytes are. The characters behind the separator are, from 0 to 31,
 * qpzry9x8gf2tvdw0s3jn54khce6mua7l: no 1, b, i or o. A label is written in lower case and read in either,
 * but not in both at once. There is no zero byte behind it, and none is taken for its end.
 * A character mistyped for another of the 32 is a wrong checksum, whose place is the string's length:
 * where it stands is not told. That up to four such characters are always seen is BIP 173's word; no
 * proof covers it. */

/* The label of a cell, 37 bytes. BAD_LIST; NO_ROOM 3. */
tishkolan_refusal tishkolan_cell_to_bech32m(const uint8_t *cell, size_t cell_length,
                                            uint8_t *out, size_t out_length);

/* The cell that a label names, 16 bytes. The label may be any bytes; where it is none, the refusal says
 * why, and the answer the place, from 0, of the first character at fault:
 * LABEL_PREFIX, the first that is not as in cx3d1, case aside, or the length of a string that ends there;
 * LABEL_MIXED_CASE, the first letter that is not of the case of those before it, wherever it stands;
 * LABEL_CHARACTER, the first behind cx3d1 that is none of the 32, wherever it stands;
 * LABEL_LENGTH, a string that is not 37 long, and LABEL_CHECKSUM, each with the string's length;
 * LABEL_PADDING, the two bits behind the cell's are not zero, with the place 30, where they stand.
 * Then NO_ROOM 3, which has no place. Time: the characters. */
tishkolan_place_answer tishkolan_cell_from_bech32m(const uint8_t *label, size_t label_length,
                                                   uint8_t *out, size_t out_length);

/*     char label[TISHKOLAN_LABEL_BYTES + 1] = ""; // one byte more, for the zero
 *     if (tishkolan_cell_to_bech32m(struck, 16, (uint8_t *)label, TISHKOLAN_LABEL_BYTES).number != TISHKOLAN_ANSWERED)
 *         return 1;
 *     puts(label); // cx3d1qqqqqqgqqqqqzqqqqqqsqqqrqquc76rm
 *     uint8_t named[16];
 *     tishkolan_place_answer read = tishkolan_cell_from_bech32m((const uint8_t *)label, strlen(label), named, 16);
 *     if (read.refusal.number != TISHKOLAN_ANSWERED || memcmp(named, struck, 16) != 0)
 *         return 1;
 *     label[9] = 'o'; // a letter that no label has,
 *     read = tishkolan_cell_from_bech32m((const uint8_t *)label, strlen(label), named, 16);
 *     printf("at %u: %s\n", (unsigned)read.place, tishkolan_refusal_name(read.refusal.number)); // at 9: no label has this character
 *     label[9] = '0'; // and one that labels have
 *     read = tishkolan_cell_from_bech32m((const uint8_t *)label, strlen(label), named, 16);
 *     printf("at %u: %s\n", (unsigned)read.place, tishkolan_refusal_name(read.refusal.number)); // at 37: the label's checksum is wrong */

/* ---- layers: a table of records that you lend, and how many of them are in use.
 * A flag record has 20 bytes: a cell (0 to 15) and 32 bits (16 to 19). A value record has 24: a cell and
 * the 64 bits of a double (16 to 23). Both are big-endian. Records stand one behind the other from the
 * table's first byte, strictly ascending by their cells' bytes. A table holds at most 1,024 records,
 * fewer where it is shorter; bytes behind those in use may hold anything.
 * A call that takes a cell is BAD_LIST where that has not 16 bytes; then every call but
 * clear is BAD_LAYER where count or order are not those of a layer.
 *
 * TAKE THE COUNT BACK AFTER EVERY SET, REMOVE, ROLLUP AND LOAD, WHATEVER THEY SAID. A COUNT THAT IS NOT
 * TAKEN BACK JUDGES A PART OF THE NEW SURVEY, AND NOTHING REFUSES: the first records of a longer layer
 * are a sound layer, so a route into a cell behind them is accepted. Keep table and count in one struct,
 * and write both in one place.
 *
 * Time: every call but clear goes over all records in use, to test their order, and then halves its way
 * to the cell; a new cell and a removal also move the records behind it, a list copies all, and clear
 * zeroes all that the table holds. */

enum { TISHKOLAN_FLAG_RECORD = 20, TISHKOLAN_VALUE_RECORD = 24, TISHKOLAN_MOST_CELLS = 1024 };

/* The flags that have a name. A cell is blocked by bit 0 and by nothing else. */
enum {
    TISHKOLAN_NONE = 0,
    TISHKOLAN_BLOCKED = 1,
    TISHKOLAN_NO_FLY = 2,
    TISHKOLAN_WATER = 4,
    TISHKOLAN_BOUNDARY = 8
};

/* Of a call on a layer, tishkolan_flags_list and tishkolan_values_list too: the layer's count after the
 * call; where it refuses, the count that was given, though nothing was listed. Of lines, rings and
 * shells: how many cells were listed, and 0 where the call refuses. */
typedef struct {
    tishkolan_refusal refusal;
    uint64_t count;
} tishkolan_count_answer;

/* What is kept of a cell, and the layer's count after the call. One struct is for both layers: kept has
 * the 64 bits of a value, or 32 flags, and then its high half is 0. */
typedef struct {
    tishkolan_refusal refusal;
    uint32_t found; /* 1, or 0 where nothing is kept of the cell */
    uint64_t kept;  /* 0 where nothing is */
    uint64_t count;
} tishkolan_kept_answer;

/* Whether any bit of flag is set; flags with all its bits set, and with none; whether bit 0 is set. */
bool tishkolan_has_flag(uint32_t flags, uint32_t flag);
uint32_t tishkolan_set_flag(uint32_t flags, uint32_t flag);
uint32_t tishkolan_clear_flag(uint32_t flags, uint32_t flag);
bool tishkolan_is_blocked(uint32_t flags);

/* Record number place of a table: its cell's 16 bytes, where they stand, and what is kept of it. These
 * are C, and test nothing: place has to be below the count, and the table to be a layer. */
static inline const uint8_t *tishkolan_flags_cell_at(const uint8_t *table, size_t place)
{
    return table + place * TISHKOLAN_FLAG_RECORD;
}

static inline uint32_t tishkolan_flags_at(const uint8_t *table, size_t place)
{
    const uint8_t *record = tishkolan_flags_cell_at(table, place);
    uint32_t flags = 0;
    int byte;

    for (byte = TISHKOLAN_CELL_BYTES; byte < TISHKOLAN_FLAG_RECORD; byte++)
        flags = flags << 8 | record[byte];
    return flags;
}

static inline const uint8_t *tishkolan_values_cell_at(const uint8_t *table, size_t place)
{
    return table + place * TISHKOLAN_VALUE_RECORD;
}

/* The bits of a double. */
static inline uint64_t tishkolan_values_at(const uint8_t *table, size_t place)
{
    const uint8_t *record = tishkolan_values_cell_at(table, place);
    uint64_t bits = 0;
    int byte;

    for (byte = TISHKOLAN_CELL_BYTES; byte < TISHKOLAN_VALUE_RECORD; byte++)
        bits = bits << 8 | record[byte];
    return bits;
}

/* Keeps flags of a cell, in place of those kept before. NO_ROOM 4 for a new cell in a full table. */
tishkolan_count_answer tishkolan_flags_set(uint8_t *table, size_t table_length, size_t count,
                                           const uint8_t *cell, size_t cell_length, uint32_t flags);

/* What is kept of a cell; found is 0 where nothing is. */
tishkolan_kept_answer tishkolan_flags_get(const uint8_t *table, size_t table_length, size_t count,
                                          const uint8_t *cell, size_t cell_length);

/* Forgets a cell, says what was kept of it, and zeroes the record that is free now. */
tishkolan_kept_answer tishkolan_flags_remove(uint8_t *table, size_t table_length, size_t count,
                                             const uint8_t *cell, size_t cell_length);

/* 1 where something is kept of a cell, flags 0 too, else 0. */
tishkolan_number_answer tishkolan_flags_contains(const uint8_t *table, size_t table_length, size_t count,
                                                 const uint8_t *cell, size_t cell_length);

/* The count, once the table was tested. */
tishkolan_count_answer tishkolan_flags_count(const uint8_t *table, size_t table_length, size_t count);

/* 1 where the count is 0, else 0. */
tishkolan_number_answer tishkolan_flags_is_empty(const uint8_t *table, size_t table_length, size_t count);

/* Zeroes all records that the table holds, 1,024 at most; the count is 0 from now on. Tests nothing. */
void tishkolan_flags_clear(uint8_t *table, size_t table_length);

/* The bytes of the records in use, 20 each, in a value layer 24. NO_ROOM 3. */
tishkolan_count_answer tishkolan_flags_list(const uint8_t *table, size_t table_length, size_t count,
                                            uint8_t *out, size_t out_length);

/* The same of a value layer. */
tishkolan_count_answer tishkolan_values_set(uint8_t *table, size_t table_length, size_t count,
                                            const uint8_t *cell, size_t cell_length, uint64_t bits);
tishkolan_kept_answer tishkolan_values_get(const uint8_t *table, size_t table_length, size_t count,
                                           const uint8_t *cell, size_t cell_length);
tishkolan_kept_answer tishkolan_values_remove(uint8_t *table, size_t table_length, size_t count,
                                              const uint8_t *cell, size_t cell_length);
tishkolan_number_answer tishkolan_values_contains(const uint8_t *table, size_t table_length, size_t count,
                                                  const uint8_t *cell, size_t cell_length);
tishkolan_count_answer tishkolan_values_count(const uint8_t *table, size_t table_length, size_t count);
tishkolan_number_answer tishkolan_values_is_empty(const uint8_t *table, size_t table_length, size_t count);
void tishkolan_values_clear(uint8_t *table, size_t table_length);
tishkolan_count_answer tishkolan_values_list(const uint8_t *table, size_t table_length, size_t count,
                                             uint8_t *out, size_t out_length);

/*     static uint8_t flags[TISHKOLAN_MOST_CELLS * TISHKOLAN_FLAG_RECORD];
 *     static uint8_t values[TISHKOLAN_MOST_CELLS * TISHKOLAN_VALUE_RECORD];
 *     size_t flags_count = 0, values_count = 0;
 *     tishkolan_count_answer set = tishkolan_flags_set(flags, sizeof flags, flags_count, struck, 16, TISHKOLAN_BLOCKED);
 *     flags_count = set.count; // right also where it refused
 *     if (set.refusal.number != TISHKOLAN_ANSWERED)
 *         return 1;
 *     set = tishkolan_values_set(values, sizeof values, values_count, struck, 16, tishkolan_bits_of(8.5));
 *     values_count = set.count;
 *     if (set.refusal.number != TISHKOLAN_ANSWERED)
 *         return 1;
 *     tishkolan_kept_answer got = tishkolan_flags_get(flags, sizeof flags, flags_count, struck, 16);
 *     if (got.refusal.number != TISHKOLAN_ANSWERED)
 *         return 1;
 *     puts(got.found && tishkolan_is_blocked((uint32_t)got.kept) ? "blocked" : "free"); // blocked
 *     for (size_t i = 0; i < values_count; i++)
 *         printf("%.1f mm\n", tishkolan_double_of(tishkolan_values_at(values, i))); // 8.5 mm */

/* ---- aggregates of a value layer */

enum {
    TISHKOLAN_COUNT = 0,
    TISHKOLAN_SUM = 1,
    TISHKOLAN_MEAN = 2,
    TISHKOLAN_MIN = 3,
    TISHKOLAN_MAX = 4,
    TISHKOLAN_MEDIAN = 5
};

/* The aggregate of what is kept of the cells of a list, repeats counted, in list order; a cell of which
 * nothing is kept is passed over. The median of an even number of values is half the sum of the two in
 * the middle. BAD_LIST; BAD_LAYER; OUT_OF_RANGE where how is none of the six; NO_VALUES; HAS_NAN, but
 * not of COUNT. A NaN that the operation made is 0x7FF8000000000000.
 * Time: the records, and cells times the logarithm of the records. A median takes the list twice, and
 * then up to 64 passes over its values, twice as many where their number is even; of more than 1,024
 * values each of these passes looks up the whole list again.
 * Stack: 9,000 bytes, for a median. */
tishkolan_bits_answer tishkolan_values_aggregate(const uint8_t *table, size_t table_length, size_t count,
                                                 const uint8_t *cells, size_t cells_length, uint32_t how);

/* Rolls a layer up to the parents of its cells, into the table coarse, whose contents it
 * replaces; cells of resolution 0 or of mixed parity are left out. A coarse cell is made of those of its
 * 8 children (see tishkolan_lattice_children) that the fine layer has, their twins with marks too, so of
 * n plain cells come n/8 to n coarse ones. BAD_LAYER of the fine layer; OUT_OF_RANGE; HAS_NAN;
 * NO_ROOM 4. The answer's count is that of coarse: the new one, or where the call refuses coarse_count,
 * which is handed back and used for nothing else. coarse is not tested.
 * Time: the records of fine times their logarithm, and the zeroing of its arrays and of coarse.
 * Stack: 94,000 bytes. */
tishkolan_count_answer tishkolan_values_rollup(const uint8_t *fine, size_t fine_length, size_t fine_count,
                                               uint32_t how,
                                               uint8_t *coarse, size_t coarse_length, size_t coarse_count);

/*     tishkolan_bits_answer least = tishkolan_values_aggregate(
 *         values, sizeof values, values_count, struck, 16, TISHKOLAN_MIN); // of a list of one cell
 *     if (least.refusal.number != TISHKOLAN_ANSWERED)
 *         return 1;
 *     printf("%.1f mm\n", tishkolan_double_of(least.bits)); // 8.5 mm
 *     static uint8_t plates[TISHKOLAN_MOST_CELLS * TISHKOLAN_VALUE_RECORD];
 *     size_t plates_count = 0;
 *     tishkolan_count_answer rolled = tishkolan_values_rollup(
 *         values, sizeof values, values_count, TISHKOLAN_MIN, plates, sizeof plates, plates_count);
 *     plates_count = rolled.count;
 *     if (rolled.refusal.number != TISHKOLAN_ANSWERED)
 *         return 1;
 *     printf("%zu plate\n", plates_count); // 1 plate */

/* ---- survey files: both layers in one file of f flag records and v value records.
 * All numbers are big-endian.
 *   byte  0          2 bytes  the version, 1
 *   byte  2          2 bytes  f, at most 1,024
 *   byte  4          2 bytes  v, at most 1,024
 *   byte  6          2 bytes  0
 *   byte  8          4 bytes  where the flag records begin: 16
 *   byte  12         4 bytes  where the value records begin: 16 + 20 f
 *   byte  16         20 f     the flag records, as in a layer
 *   byte  16 + 20 f  24 v     the value records, as in a layer; the file ends with the last
 * The records of each section are strictly ascending by their cells' bytes, so no cell stands twice in
 * one; a cell may stand in both. Older files could have their records in any order, and a cell more than
 * once: such a file is refused. The repository's program rewrite makes of it the ascending file with the
 * same layers, a later record of a cell in place of the earlier. */

enum { TISHKOLAN_FILE_BYTES = 16 + TISHKOLAN_MOST_CELLS * (TISHKOLAN_FLAG_RECORD + TISHKOLAN_VALUE_RECORD) }; /* of the longest */

/* The counts of both layers after the call, to be taken back: where it refuses, those that were given. */
typedef struct {
    tishkolan_refusal refusal;
    uint64_t place; /* of BAD_FILE */
    uint64_t flags;
    uint64_t values;
} tishkolan_load_answer;

typedef struct {
    tishkolan_refusal refusal;
    uint64_t length;
} tishkolan_length_answer;

/* Replaces both layers by a file's, or neither. The tables are not tested, and the counts that you give
 * are only handed back where it refuses.
 * BAD_FILE, with the place in the file: shorter than 16 bytes (place: its length); the version (0); f (2)
 * or v (4) above 1,024; bytes 6 and 7 (6); where the records begin (8, 12); a file that is too short for
 * its records (its length) or too long (where it should end); then records that do not ascend (where the
 * first record begins that is not above the one before it), of the flags, then of the values. Then
 * NO_ROOM 4, by f and v: of the flags, then of the values.
 * TAKE BOTH COUNTS BACK, or the next verdict judges a part of the new survey: see layers.
 * Time: the records, and the zeroing of the rest of both tables. */
tishkolan_load_answer tishkolan_survey_load(const uint8_t *file, size_t file_length,
                                            uint8_t *flags, size_t flags_length, size_t flags_count,
                                            uint8_t *values, size_t values_length, size_t values_count);

/* Writes both layers as a file. BAD_LAYER; NO_ROOM 3. Time: the records. */
tishkolan_length_answer tishkolan_survey_write(const uint8_t *flags, size_t flags_length, size_t flags_count,
                                               const uint8_t *values, size_t values_length, size_t values_count,
                                               uint8_t *out, size_t out_length);

/*     // At the scanner: a survey of two blocked cells.
 *     static uint8_t scan[2 * TISHKOLAN_FLAG_RECORD], file[TISHKOLAN_FILE_BYTES];
 *     size_t scanned = 0;
 *     for (int i = 0; i < 2; i++) {
 *         set = tishkolan_flags_set(scan, sizeof scan, scanned, i == 0 ? struck : above, 16, TISHKOLAN_BLOCKED);
 *         scanned = set.count;
 *         if (set.refusal.number != TISHKOLAN_ANSWERED)
 *             return 1;
 *     }
 *     tishkolan_length_answer written = tishkolan_survey_write(
 *         scan, sizeof scan, scanned, values, sizeof values, values_count, file, sizeof file);
 *     if (written.refusal.number != TISHKOLAN_ANSWERED)
 *         return 1;
 *     // In the loop: it is longer than what was held, and both counts are taken back.
 *     size_t old_count = flags_count; // for an example below of what must not be done
 *     tishkolan_load_answer load = tishkolan_survey_load(
 *         file, written.length, flags, sizeof flags, flags_count, values, sizeof values, values_count);
 *     flags_count = load.flags, values_count = load.values; // right also where it refused
 *     if (load.refusal.number != TISHKOLAN_ANSWERED)
 *         return 1;
 *     printf("%zu cells, before %zu\n", flags_count, old_count); // 2 cells, before 1
 *     file[5] = 2; // a count of values that is not the file's
 *     load = tishkolan_survey_load(
 *         file, written.length, flags, sizeof flags, flags_count, values, sizeof values, values_count);
 *     flags_count = load.flags, values_count = load.values;
 *     if (load.refusal.number != TISHKOLAN_BAD_FILE)
 *         return 1;
 *     printf("byte %u: %s\n", (unsigned)load.place, tishkolan_refusal_name(load.refusal.number)); // byte 80: the file is no survey file
 *     file[5] = 1; // the right count again,
 *     memcpy(file + 36, file + 16, 16); // and the first flag record's cell in the second too
 *     load = tishkolan_survey_load(
 *         file, written.length, flags, sizeof flags, flags_count, values, sizeof values, values_count);
 *     flags_count = load.flags, values_count = load.values;
 *     if (load.refusal.number != TISHKOLAN_BAD_FILE)
 *         return 1;
 *     printf("byte %u\n", (unsigned)load.place); // byte 36 */

/* ---- lists of cells, 16 bytes each, at the front of a buffer. The count is how many they are, and 0
 * where the call refuses. */

/* No line has more cells than this, given the largest difference of a coordinate between its ends. As
 * many it has between ends with marks, for their twins, where the difference is 0 or 1; between plain
 * cells of one frame and resolution about one and a half for each unit was the most that was seen. */
#define TISHKOLAN_LINE_CELLS(difference) (2 * (size_t)(difference) + 2)

/* The cells along the line from start to end, both listed; equal ends are one cell, whatever their
 * parity. Those sampled between have the start's frame and resolution and are plain. BAD_LIST;
 * INVALID_PARITY of start, then of end; COORD_OVERFLOW where a coordinate of end less that of start
 * leaves int32_t; NO_ROOM 3.
 * There are two samples for each unit of the largest difference of a coordinate. One that would be above
 * 2147483646 in magnitude is skipped.
 * Time: all samples; where the output has less room than TISHKOLAN_LINE_CELLS all of them once more, to
 * see whether the line fits, which ends early only where a cell finds no room. Along the edge of the
 * 32-bit numbers every sample is skipped, so the small output stops nothing: from (2147483647, -1073741823,
 * 1) to (2147483647, 1073741823, 1) two cells took 40 seconds in one call (Neoverse V1). Bound the
 * difference before you call. */
tishkolan_count_answer tishkolan_trace_line(const uint8_t *start, size_t start_length,
                                            const uint8_t *end, size_t end_length,
                                            uint8_t *output, size_t output_length);

/*     uint8_t line[TISHKOLAN_LINE_CELLS(2) * 16];
 *     tishkolan_count_answer traced = tishkolan_trace_line(from, 16, to, 16, line, sizeof line);
 *     if (traced.refusal.number != TISHKOLAN_ANSWERED)
 *         return 1;
 *     printf("%u cells\n", (unsigned)traced.count); // 3 cells */

/* ---- rings: the cells around a cell, breadth first, from neighbour to neighbour.
 * The walk takes place in a workspace that you lend, which may hold anything. You name the room for
 * known cells, which are all that it has seen, and for waiting cells, which it has seen and not
 * expanded; a cell that is expanded waits no more. Each is from 1 to 65,536.
 * BAD_WORKSPACE, before anything else, where a room is another number or the workspace is shorter
 * than TISHKOLAN_RING_BYTES(known); it leaves the workspace as it was. Every other answer or refusal
 * leaves all of the workspace zero, also behind those bytes.
 * Time: 14 looks among the known cells, each along a chain that is short as a rule, for each cell that
 * is expanded, those at fewer than k steps; and the zeroing of the whole workspace, however long you say
 * that it is: lend what fits. */

/* Waiting cells take no bytes of their own. */
#define TISHKOLAN_RING_BYTES(known) ((size_t)44 * (known))

/* The rooms that k steps take, exactly: known cells, which are also those that a ring lists; waiting
 * cells; the cells that a shell lists. A centre that is not plain takes one more of each, for its twin
 * (from k = 2 on; waiting and in the shell for k = 2 alone). The last k whose known cells are within
 * 65,536 is 24; up to a million nothing overflows. k is evaluated more than once. */
#define TISHKOLAN_RING_KNOWN(k) (((4 * (size_t)(k) + 6) * (size_t)(k) + 4) * (size_t)(k) + 1)
#define TISHKOLAN_RING_WAITING(k) TISHKOLAN_SHELL_CELLS(k)
#define TISHKOLAN_SHELL_CELLS(k) ((k) == 0 ? (size_t)1 : 12 * (size_t)(k) * (size_t)(k) + 2)

/* The cells within k steps of a centre, the centre first, in the order of first sight; the answer's
 * count says how many, and is 0 where the call refuses. BAD_LIST; then, as the walk meets them,
 * INVALID_PARITY and COORD_OVERFLOW (as of tishkolan_cell_neighbors) of cells at fewer than k steps,
 * NO_ROOM 3 for a cell to be listed, NO_ROOM 1 and then 2 for a cell not seen before. */
tishkolan_count_answer tishkolan_k_ring(const uint8_t *center, size_t center_length, uint64_t k,
                                        size_t known, size_t waiting,
                                        uint8_t *workspace, size_t workspace_length,
                                        uint8_t *out, size_t out_length);

/* The same of the cells at exactly k steps; only they are listed. */
tishkolan_count_answer tishkolan_k_shell(const uint8_t *center, size_t center_length, uint64_t k,
                                         size_t known, size_t waiting,
                                         uint8_t *workspace, size_t workspace_length,
                                         uint8_t *out, size_t out_length);

/*     static uint8_t workspace[TISHKOLAN_RING_BYTES(TISHKOLAN_RING_KNOWN(2))], ring[TISHKOLAN_RING_KNOWN(2) * 16];
 *     tishkolan_count_answer around = tishkolan_k_ring(
 *         from, 16, 2, TISHKOLAN_RING_KNOWN(2), TISHKOLAN_RING_WAITING(2), workspace, sizeof workspace, ring, sizeof ring);
 *     if (around.refusal.number != TISHKOLAN_ANSWERED)
 *         return 1;
 *     printf("%u cells\n", (unsigned)around.count); // 65 cells */

/* ---- the route checker.
 * A route is a list of cells, 16 bytes each; its cost is the sum of its steps as doubles, from 0.0,
 * in route order, and is claimed by its 64 bits: 2.0 for a step that keeps the parity, 1.7320508075688772
 * for one that changes it, which are their lengths as tishkolan_cell_distance has them. Where you add
 * them up, let no compiler change the order (-ffast-math). The verdict depends on what is handed to this
 * very call and on nothing else.
 *
 * A WALL OF ONE PARITY CAN BE LEAPT: six of the 14 neighbours are two units away. With all cells of the
 * plane x = 10 blocked, which are all even, the step from (9, 1, 1) to (11, 1, 1) is accepted. Block two
 * planes beside each other, x = 10 and x = 11, one of each parity.
 *
 * Time: the records in use, and the cells of the route times the logarithm of the records; of the choice
 * twice that. */

/* The rule: whether blocked cells are avoided. Another number is BAD_RULE. */
enum { TISHKOLAN_FREE = 0, TISHKOLAN_AVOIDING = 1 };

/* The verdicts: 0, or BAD_LIST, BAD_LAYER, BAD_RULE, or one of these; the first that fits. */
enum {
    TISHKOLAN_ACCEPTED = 0,
    TISHKOLAN_EMPTY_ROUTE = 20,
    TISHKOLAN_WRONG_START = 21,
    TISHKOLAN_NOT_A_NEIGHBOR = 22, /* a step to a cell that is not one of the 14 around the last one, plain as they are */
    TISHKOLAN_BLOCKED_CELL = 23,   /* a step into a blocked cell; the start itself is not tested */
    TISHKOLAN_WRONG_GOAL = 24,
    TISHKOLAN_WRONG_COST = 25
};

static inline const char *tishkolan_verdict_name(uint32_t verdict)
{
    switch (verdict) {
    case TISHKOLAN_ACCEPTED: return "accepted";
    case TISHKOLAN_EMPTY_ROUTE: return "the route is empty";
    case TISHKOLAN_WRONG_START: return "the route does not begin at the start";
    case TISHKOLAN_NOT_A_NEIGHBOR: return "a step does not go to a neighbour";
    case TISHKOLAN_BLOCKED_CELL: return "a step enters a blocked cell";
    case TISHKOLAN_WRONG_GOAL: return "the route does not end at the goal";
    case TISHKOLAN_WRONG_COST: return "the route costs something else";
    case TISHKOLAN_BAD_LIST:
    case TISHKOLAN_BAD_LAYER:
    case TISHKOLAN_BAD_RULE: return tishkolan_refusal_name(verdict);
    default: return "no verdict has this number";
    }
}

/* The verdict on a route from start to goal, under a rule and a flag layer. */
uint32_t tishkolan_route_verdict(const uint8_t *route, size_t route_length,
                                 const uint8_t *start, size_t start_length,
                                 const uint8_t *goal, size_t goal_length, uint64_t cost,
                                 const uint8_t *flags, size_t flags_length, size_t flags_count,
                                 uint32_t rule);

/* What the loop flies: the sent route, the homing route, or neither. */
enum { TISHKOLAN_NEITHER = 0, TISHKOLAN_SENT = 1, TISHKOLAN_HOMING = 2 };

/* SENT if the sent route is accepted, else HOMING if that one is, else NEITHER. Each is judged with
 * its own ends and claimed cost, both under one rule and layer. */
uint32_t tishkolan_route_choice(const uint8_t *sent, size_t sent_length,
                                const uint8_t *sent_start, size_t sent_start_length,
                                const uint8_t *sent_goal, size_t sent_goal_length, uint64_t sent_cost,
                                const uint8_t *homing, size_t homing_length,
                                const uint8_t *homing_start, size_t homing_start_length,
                                const uint8_t *homing_goal, size_t homing_goal_length, uint64_t homing_cost,
                                const uint8_t *flags, size_t flags_length, size_t flags_count,
                                uint32_t rule);

/*     uint64_t cost = tishkolan_bits_of(1.7320508075688772 + 1.7320508075688772);
 *     uint32_t verdict = tishkolan_route_verdict(line, 3 * 16, from, 16, to, 16, cost,
 *                                                flags, sizeof flags, flags_count, TISHKOLAN_AVOIDING);
 *     puts(tishkolan_verdict_name(verdict)); // accepted
 *     uint32_t choice = tishkolan_route_choice(line, 2 * 16, from, 16, to, 16, cost,       // cut short, and
 *                                              line, 3 * 16, from, 16, to, 16, cost,       // whole
 *                                              flags, sizeof flags, flags_count, TISHKOLAN_AVOIDING);
 *     puts(choice == TISHKOLAN_HOMING ? "homing" : "not homing"); // homing
 *     uint8_t up[2 * 16]; // a step into a cell that is blocked since the load
 *     memcpy(up, to, 16), memcpy(up + 16, above, 16);
 *     cost = tishkolan_bits_of(2.0);
 *     verdict = tishkolan_route_verdict(up, sizeof up, to, 16, above, 16, cost, flags, sizeof flags, flags_count, TISHKOLAN_AVOIDING);
 *     puts(tishkolan_verdict_name(verdict)); // a step enters a blocked cell
 *     verdict = tishkolan_route_verdict(up, sizeof up, to, 16, above, 16, cost, flags, sizeof flags, old_count, TISHKOLAN_AVOIDING);
 *     puts(tishkolan_verdict_name(verdict)); // accepted
 *     // The last verdict is the mistake: the count of before the load, and a route into a blocked cell. */

/* ---- the search.
 * A* from start to goal, by the Euclidean distance to the goal; of equal sums the cell whose bytes are
 * smaller comes first. Under the rule FREE it goes over all cells, under AVOIDING over those that are
 * not blocked in the flag layer (the start itself is not tested). Its route is one that
 * tishkolan_route_verdict accepts with the cost it names. That no route is shorter is not claimed.
 * It steps to plain cells of the start's frame and resolution alone, so another goal is never reached,
 * unless it is the start.
 *
 * It takes place in two workspaces that you lend, which may hold anything. You name the room for
 * known cells, which are all that it has seen and not found blocked, and for waiting entries; a cell
 * that is reached again at a lower cost waits once more. Each room is from 1 to 65,536.
 * BAD_WORKSPACE, before anything else, where a room is another number or a workspace is shorter than
 * its macro says; it leaves both as they were. Every other answer or refusal leaves all of both
 * zero, also behind those bytes.
 *
 * How much room: where e cells are closed, no more than 1 + 14 e are known, nor wait. Measured in the
 * open and around walls: 71 known cells for e = 10, 857 for 392, 4,690 for 3,134, 16,923 for 13,059, and
 * always fewer waiting entries than that; 2.5 e + 100 of each was enough. A search that is refused for
 * NO_ROOM leaves out as it was: ask again with more.
 *
 * Time: the records in use, to test the layer; for each cell that is closed 14 looks among the known
 * cells, as in rings, and for each neighbour that is new or reached at a lower cost a look in the flag
 * layer, a root, and a place in the heap of those that wait, both by their logarithms; the zeroing of
 * both workspaces whole, however long you say that they are: lend what fits.
 * Stack: 1,300 bytes. */

#define TISHKOLAN_SEARCH_KNOWN_BYTES(known) ((size_t)44 * (known) + 64)
#define TISHKOLAN_SEARCH_WAITING_BYTES(waiting) ((size_t)32 * (waiting))

/* A field that neither the answer nor the refusal has is 0. A cell of NO_PATH_FOUND is its 16 bytes
 * as two big-endian numbers, high for the first eight. */
typedef struct {
    tishkolan_refusal refusal;
    uint64_t cells;      /* of the route, 16 bytes each at the front of out */
    uint64_t cost;       /* the route's, bits of a double */
    uint64_t expansions; /* cells that were closed; also of SEARCH_LIMIT_EXCEEDED */
    uint64_t limit;      /* of SEARCH_LIMIT_EXCEEDED */
    uint64_t start_high, start_low, goal_high, goal_low; /* of NO_PATH_FOUND */
} tishkolan_search_answer;

/* A route that closes no more cells than limit. BAD_WORKSPACE; BAD_LIST of start, then of goal;
 * BAD_LAYER; BAD_RULE. Equal ends are a route of that one cell, cost 0, though mixed or blocked.
 * Then INVALID_PARITY of start, then of goal; COORD_OVERFLOW where start and goal are too far
 * apart; and as the search meets them SEARCH_LIMIT_EXCEEDED with limit + 1 and limit, COORD_OVERFLOW
 * (as of tishkolan_cell_neighbors, or of the distance of a neighbour to the goal), NO_ROOM 1 and 2;
 * NO_PATH_FOUND once no cell waits; NO_ROOM 3 for a route that does not fit into out. */
tishkolan_search_answer tishkolan_astar_with_limit(const uint8_t *start, size_t start_length,
                                                   const uint8_t *goal, size_t goal_length,
                                                   const uint8_t *flags, size_t flags_length, size_t flags_count,
                                                   uint32_t rule, uint64_t limit, size_t known, size_t waiting,
                                                   uint8_t *known_workspace, size_t known_workspace_length,
                                                   uint8_t *waiting_workspace, size_t waiting_workspace_length,
                                                   uint8_t *out, size_t out_length);

/* The same with the limit 100,000. Closed cells are known cells, and of those there is room for 65,536
 * at most, so this limit is never met: NO_ROOM comes first. */
tishkolan_search_answer tishkolan_astar(const uint8_t *start, size_t start_length,
                                        const uint8_t *goal, size_t goal_length,
                                        const uint8_t *flags, size_t flags_length, size_t flags_count,
                                        uint32_t rule, size_t known, size_t waiting,
                                        uint8_t *known_workspace, size_t known_workspace_length,
                                        uint8_t *waiting_workspace, size_t waiting_workspace_length,
                                        uint8_t *out, size_t out_length);

/*     enum { ROOM = 256 };
 *     static uint8_t known[TISHKOLAN_SEARCH_KNOWN_BYTES(ROOM)], waiting[TISHKOLAN_SEARCH_WAITING_BYTES(ROOM)], route[ROOM * 16];
 *     tishkolan_search_answer found = tishkolan_astar(from, 16, to, 16, flags, sizeof flags, flags_count,
 *         TISHKOLAN_AVOIDING, ROOM, ROOM, known, sizeof known, waiting, sizeof waiting, route, sizeof route);
 *     if (found.refusal.number != TISHKOLAN_ANSWERED)
 *         return 1;
 *     printf("%u cells, cost %.3f\n", (unsigned)found.cells, tishkolan_double_of(found.cost)); // 3 cells, cost 3.464 */

/* ---- the structs as the library was compiled for; a compiler that lays them out otherwise is told here. */

#ifdef __cplusplus
#if __cplusplus >= 201103L
#define TISHKOLAN_HOLDS(claim) static_assert(claim, #claim)
#endif
#elif __STDC_VERSION__ >= 201112L
#define TISHKOLAN_HOLDS(claim) _Static_assert(claim, #claim)
#endif
#ifdef TISHKOLAN_HOLDS
TISHKOLAN_HOLDS(sizeof(size_t) == 8 && sizeof(void *) == 8 && sizeof(double) == 8 && sizeof(bool) == 1);
TISHKOLAN_HOLDS(sizeof(tishkolan_refusal) == 20 && offsetof(tishkolan_refusal, room) == 4);
TISHKOLAN_HOLDS(offsetof(tishkolan_refusal, x) == 8 && offsetof(tishkolan_refusal, y) == 12 && offsetof(tishkolan_refusal, z) == 16);
TISHKOLAN_HOLDS(sizeof(tishkolan_number_answer) == 24 && offsetof(tishkolan_number_answer, value) == 20);
TISHKOLAN_HOLDS(sizeof(tishkolan_bits_answer) == 32 && offsetof(tishkolan_bits_answer, bits) == 24);
TISHKOLAN_HOLDS(sizeof(tishkolan_coord_answer) == 32 && offsetof(tishkolan_coord_answer, x) == 20);
TISHKOLAN_HOLDS(offsetof(tishkolan_coord_answer, y) == 24 && offsetof(tishkolan_coord_answer, z) == 28);
TISHKOLAN_HOLDS(sizeof(tishkolan_point_answer) == 48 && offsetof(tishkolan_point_answer, x) == 24);
TISHKOLAN_HOLDS(offsetof(tishkolan_point_answer, y) == 32 && offsetof(tishkolan_point_answer, z) == 40);
TISHKOLAN_HOLDS(sizeof(tishkolan_fields_answer) == 40 && offsetof(tishkolan_fields_answer, frame) == 20);
TISHKOLAN_HOLDS(offsetof(tishkolan_fields_answer, resolution) == 21 && offsetof(tishkolan_fields_answer, exponent) == 22);
TISHKOLAN_HOLDS(offsetof(tishkolan_fields_answer, flags) == 23 && offsetof(tishkolan_fields_answer, reserved) == 24);
TISHKOLAN_HOLDS(offsetof(tishkolan_fields_answer, x) == 28 && offsetof(tishkolan_fields_answer, y) == 32);
TISHKOLAN_HOLDS(offsetof(tishkolan_fields_answer, z) == 36);
TISHKOLAN_HOLDS(sizeof(tishkolan_place_answer) == 32 && offsetof(tishkolan_place_answer, place) == 24);
TISHKOLAN_HOLDS(sizeof(tishkolan_count_answer) == 32 && offsetof(tishkolan_count_answer, count) == 24);
TISHKOLAN_HOLDS(sizeof(tishkolan_kept_answer) == 40 && offsetof(tishkolan_kept_answer, found) == 20);
TISHKOLAN_HOLDS(offsetof(tishkolan_kept_answer, kept) == 24 && offsetof(tishkolan_kept_answer, count) == 32);
TISHKOLAN_HOLDS(sizeof(tishkolan_load_answer) == 48 && offsetof(tishkolan_load_answer, place) == 24);
TISHKOLAN_HOLDS(offsetof(tishkolan_load_answer, flags) == 32 && offsetof(tishkolan_load_answer, values) == 40);
TISHKOLAN_HOLDS(sizeof(tishkolan_length_answer) == 32 && offsetof(tishkolan_length_answer, length) == 24);
TISHKOLAN_HOLDS(sizeof(tishkolan_search_answer) == 88 && offsetof(tishkolan_search_answer, cells) == 24);
TISHKOLAN_HOLDS(offsetof(tishkolan_search_answer, cost) == 32 && offsetof(tishkolan_search_answer, expansions) == 40);
TISHKOLAN_HOLDS(offsetof(tishkolan_search_answer, limit) == 48 && offsetof(tishkolan_search_answer, start_high) == 56);
TISHKOLAN_HOLDS(offsetof(tishkolan_search_answer, start_low) == 64 && offsetof(tishkolan_search_answer, goal_high) == 72);
TISHKOLAN_HOLDS(offsetof(tishkolan_search_answer, goal_low) == 80);
#undef TISHKOLAN_HOLDS
#endif

#ifdef __cplusplus
}
#endif

#endif
