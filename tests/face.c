/* The C face, call by call: what each answers and what each refuses. */
#include "claims.h"

/* The same with reserved, flags and exponent set. */
static cell marked(cell plain)
{
    plain.bytes[12] = 0x3A;
    plain.bytes[13] = 0x5C;
    return plain;
}

static bool same(const uint8_t *bytes, cell expected)
{
    return memcmp(bytes, expected.bytes, CELL) == 0;
}

/* ---- the version */

static void version(void)
{
    char words[40];

    snprintf(words, sizeof words, "%d.%d.%d", TISHKOLAN_VERSION_MAJOR, TISHKOLAN_VERSION_MINOR, TISHKOLAN_VERSION_PATCH);
    CHECK(strcmp(words, TISHKOLAN_VERSION) == 0);
    CHECK(tishkolan_version() == TISHKOLAN_VERSION_NUMBER);
}

/* ---- square root */

static void square_root(void)
{
    tishkolan_bits_answer root = tishkolan_square_root(tishkolan_bits_of(3.0));
    CHECK(answered(root.refusal) && root.bits == 0x3FFBB67AE8584CAA);
    root = tishkolan_square_root(tishkolan_bits_of(0.0));
    CHECK(answered(root.refusal) && root.bits == 0);
    root = tishkolan_square_root(tishkolan_bits_of(18446744073709551616.0)); /* 2^64 */
    CHECK(answered(root.refusal) && tishkolan_double_of(root.bits) == 4294967296.0);

    root = tishkolan_square_root(tishkolan_bits_of(-0.0));
    CHECK(refused(root.refusal, TISHKOLAN_OUT_OF_RANGE) && root.bits == 0);
    root = tishkolan_square_root(tishkolan_bits_of(2.5));
    CHECK(refused(root.refusal, TISHKOLAN_OUT_OF_RANGE) && root.bits == 0);
    root = tishkolan_square_root(tishkolan_bits_of(18446744073709555712.0)); /* the next double */
    CHECK(refused(root.refusal, TISHKOLAN_OUT_OF_RANGE) && root.bits == 0);
    root = tishkolan_square_root(0x7FF8000000000001); /* a NaN */
    CHECK(refused(root.refusal, TISHKOLAN_OUT_OF_RANGE) && root.bits == 0);
}

/* ---- lattice */

static void parity(void)
{
    tishkolan_number_answer parity = tishkolan_parity(4, -2, 0);
    CHECK(answered(parity.refusal) && parity.value == 0);
    parity = tishkolan_parity(INT32_MAX, -1, 1);
    CHECK(answered(parity.refusal) && parity.value == 1);
    parity = tishkolan_parity(0, 1, 0);
    CHECK(mixed(parity.refusal, 0, 1, 0) && parity.value == 0);

    parity = tishkolan_opposite(0);
    CHECK(answered(parity.refusal) && parity.value == 1);
    parity = tishkolan_opposite(1);
    CHECK(answered(parity.refusal) && parity.value == 0);
    parity = tishkolan_opposite(2);
    CHECK(refused(parity.refusal, TISHKOLAN_OUT_OF_RANGE) && parity.value == 0);
    parity = tishkolan_opposite(UINT32_MAX);
    CHECK(refused(parity.refusal, TISHKOLAN_OUT_OF_RANGE) && parity.value == 0);

    CHECK(tishkolan_is_valid_lattice_point(-3, 1, -1));
    CHECK(!tishkolan_is_valid_lattice_point(-3, 1, -2));
}

static void lattice_neighbors(void)
{
    static const int32_t expected[3 * TISHKOLAN_NEIGHBORS] = {
        5, 3, 3,  5, 3, 1,  5, 1, 3,  5, 1, 1,  3, 3, 3,  3, 3, 1,  3, 1, 3,  3, 1, 1,
        6, 2, 2,  2, 2, 2,  4, 4, 2,  4, 0, 2,  4, 2, 4,  4, 2, 0};
    int32_t out[50];

    fill(out, sizeof out);
    CHECK(answered(tishkolan_lattice_neighbors(4, 2, 2, out, 42)));
    CHECK(memcmp(out, expected, sizeof expected) == 0);
    CHECK(untouched(out + 42, 8 * sizeof *out));

    /* A longer buffer: its rest stays as it was. */
    fill(out, sizeof out);
    CHECK(answered(tishkolan_lattice_neighbors(4, 2, 2, out, 50)));
    CHECK(memcmp(out, expected, sizeof expected) == 0);
    CHECK(untouched(out + 42, 8 * sizeof *out));

    fill(out, sizeof out);
    CHECK(mixed(tishkolan_lattice_neighbors(4, 2, 1, out, 42), 4, 2, 1));
    CHECK(refused(tishkolan_lattice_neighbors(2147483646, 0, 0, out, 42), TISHKOLAN_COORD_OVERFLOW));
    CHECK(refused(tishkolan_lattice_neighbors(1, -2147483647, 1, out, 42), TISHKOLAN_COORD_OVERFLOW));
    CHECK(no_room(tishkolan_lattice_neighbors(4, 2, 2, out, 41)));
    CHECK(no_room(tishkolan_lattice_neighbors(4, 2, 2, NULL, 0)));
    CHECK(untouched(out, sizeof out));
}

static void lattice_children(void)
{
    static const int32_t expected[3 * TISHKOLAN_CHILDREN] = {
        2, 2, -2,  4, 2, -2,  2, 4, -2,  2, 2, 0,  3, 3, -1,  3, 3, -3,  3, 1, -1,  3, 1, -3};
    int32_t out[30];

    fill(out, sizeof out);
    CHECK(answered(tishkolan_lattice_children(1, 1, -1, out, 30)));
    CHECK(memcmp(out, expected, sizeof expected) == 0);
    CHECK(untouched(out + 24, 6 * sizeof *out));
    /* The least x has children; the least y and z are one above it. */
    CHECK(answered(tishkolan_lattice_children(-1073741824, 0, 0, out, 24)));
    CHECK(out[0] == INT32_MIN && out[3] == INT32_MIN + 2);

    fill(out, sizeof out);
    CHECK(mixed(tishkolan_lattice_children(1, 1, 0, out, 24), 1, 1, 0));
    CHECK(refused(tishkolan_lattice_children(0, -1073741824, 0, out, 24), TISHKOLAN_COORD_OVERFLOW));
    CHECK(refused(tishkolan_lattice_children(1073741823, 1, 1, out, 24), TISHKOLAN_COORD_OVERFLOW));
    CHECK(no_room(tishkolan_lattice_children(1, 1, -1, out, 23)));
    CHECK(no_room(tishkolan_lattice_children(1, 1, -1, NULL, 0)));
    CHECK(untouched(out, sizeof out));
}

static void lattice_parent(void)
{
    /* A point and its parent; the last two are odd. */
    static const int32_t known[][6] = {
        {2, 2, 2, 1, 1, 1}, {2, 0, 0, 0, 0, 0}, {2, 2, 0, 1, 1, -1}, {0, 2, 2, -1, 1, 1}, {-2, 0, 0, -2, 0, 0}, {4, 2, 2, 1, 1, 1},
        {0, 2, 0, 0, 0, 0}, {2, 0, 2, 1, -1, 1}, {-2, -2, 0, -1, -1, -1},
        {2147483646, 0, 0, 1073741822, 0, 0},
        {2147483646, 2147483646, INT32_MIN, 1073741823, 1073741823, -1073741825},
        {INT32_MIN, INT32_MIN, INT32_MIN, -1073741824, -1073741824, -1073741824},
        {-3, 1, -1, -2, 0, 0}, {1, 1, 3, 0, 0, 2}};
    for (size_t i = 0; i < sizeof known / sizeof *known; i++) {
        const int32_t *point = known[i];
        const tishkolan_coord_answer parent = tishkolan_lattice_parent(point[0], point[1], point[2]);
        CHECK(answered(parent.refusal) && parent.x == point[3] && parent.y == point[4] && parent.z == point[5]);
    }

    const tishkolan_coord_answer parent = tishkolan_lattice_parent(0, 1, 0);
    CHECK(mixed(parent.refusal, 0, 1, 0) && parent.x == 0 && parent.y == 0 && parent.z == 0);
}

/* Rounded down, of negatives too. */
static int32_t half(int32_t number)
{
    return (number - (number & 1)) / 2;
}

static bool alone(int32_t one, int32_t other, int32_t third)
{
    return (one & 1) != (other & 1) && (other & 1) == (third & 1);
}

/* The header's rule for the parent, and its lists of neighbours and children, over all points near zero. */
static void families(void)
{
    static const int32_t around[TISHKOLAN_NEIGHBORS][3] = {
        {1, 1, 1}, {1, 1, -1}, {1, -1, 1}, {1, -1, -1}, {-1, 1, 1}, {-1, 1, -1}, {-1, -1, 1}, {-1, -1, -1},
        {2, 0, 0}, {-2, 0, 0}, {0, 2, 0}, {0, -2, 0}, {0, 0, 2}, {0, 0, -2}};
    static const int32_t below[TISHKOLAN_CHILDREN][3] = {
        {0, 0, 0}, {2, 0, 0}, {0, 2, 0}, {0, 0, 2}, {1, 1, 1}, {1, 1, -1}, {1, -1, 1}, {1, -1, -1}};
    int32_t near[42], children[24];
    bool holds = true;

    for (int32_t x = -9; x <= 9; x++)
        for (int32_t y = -9; y <= 9; y++)
            for (int32_t z = -9; z <= 9; z++) {
                if ((x & 1) != (y & 1) || (x & 1) != (z & 1))
                    continue;
                holds &= answered(tishkolan_lattice_neighbors(x, y, z, near, 42));
                for (int i = 0; i < TISHKOLAN_NEIGHBORS; i++)
                    holds &= near[3 * i] == x + around[i][0] && near[3 * i + 1] == y + around[i][1] && near[3 * i + 2] == z + around[i][2];
                holds &= answered(tishkolan_lattice_children(x, y, z, children, 24));
                for (int i = 0; i < TISHKOLAN_CHILDREN; i++) {
                    const int32_t *child = children + 3 * i;
                    const tishkolan_coord_answer up = tishkolan_lattice_parent(child[0], child[1], child[2]);
                    holds &= child[0] == 2 * x + below[i][0] && child[1] == 2 * y + below[i][1] && child[2] == 2 * z + below[i][2];
                    holds &= answered(up.refusal) && up.x == x && up.y == y && up.z == z;
                }
                const int32_t a = half(x), b = half(y), c = half(z);
                const tishkolan_coord_answer up = tishkolan_lattice_parent(x, y, z);
                if ((x & 1) == 0)
                    holds &= up.x == a - alone(a, b, c) && up.y == b - alone(b, a, c) && up.z == c - alone(c, a, b);
                else
                    holds &= up.x == a && up.y == b + ((b & 1) != (a & 1)) && up.z == c + ((c & 1) != (a & 1));
            }
    CHECK(holds);
}

static tishkolan_coord_answer snap(double x, double y, double z, uint8_t resolution)
{
    return tishkolan_physical_to_lattice(tishkolan_bits_of(x), tishkolan_bits_of(y),
                                         tishkolan_bits_of(z), resolution);
}

static void physical(void)
{
    tishkolan_coord_answer point = snap(0.5, 0.5, 0.5, 0); /* a tie: the even point wins */
    CHECK(answered(point.refusal) && point.x == 0 && point.y == 0 && point.z == 0);
    point = snap(-1.0, 0.0, 0.0, 0); /* a half goes away from zero */
    CHECK(answered(point.refusal) && point.x == -2 && point.y == 0 && point.z == 0);
    point = snap(0.0, 1.0, 1.0, 0); /* as far from x = 1 as from x = -1: away from zero again */
    CHECK(answered(point.refusal) && point.x == -1 && point.y == 1 && point.z == 1);
    point = snap(0.125, 0.125, 0.125, 3); /* the way back does not divide */
    CHECK(answered(point.refusal) && point.x == 1 && point.y == 1 && point.z == 1);
    CHECK(tishkolan_to_physical(point.x, point.y, point.z).x == tishkolan_bits_of(1.0));
    point = snap(0.75, 0.75, 0.75, 2); /* (3, 3, 3) once multiplied by 4 */
    CHECK(answered(point.refusal) && point.x == 3 && point.y == 3 && point.z == 3);
    point = snap(2147483646.0, 0.0, 0.0, 0);
    CHECK(answered(point.refusal) && point.x == 2147483646 && point.y == 0 && point.z == 0);

    point = snap(2147483646.5, 0.0, 0.0, 0);
    CHECK(refused(point.refusal, TISHKOLAN_OUT_OF_RANGE) && point.x == 0 && point.y == 0 && point.z == 0);
    point = snap(0.0, 1.0, 0.0, 31);
    CHECK(refused(point.refusal, TISHKOLAN_OUT_OF_RANGE));
    point = tishkolan_physical_to_lattice(0, 0, 0xFFF8000000000000, 0); /* a NaN */
    CHECK(refused(point.refusal, TISHKOLAN_OUT_OF_RANGE));

    tishkolan_point_answer back = tishkolan_to_physical(-3, 1, INT32_MAX);
    CHECK(answered(back.refusal));
    CHECK(back.x == tishkolan_bits_of(-3.0) && back.y == tishkolan_bits_of(1.0));
    CHECK(back.z == tishkolan_bits_of(2147483647.0));
    back = tishkolan_to_physical(-3, 1, 2);
    CHECK(mixed(back.refusal, -3, 1, 2) && back.x == 0 && back.y == 0 && back.z == 0);
}

static void lattice_distances(void)
{
    tishkolan_bits_answer distance = tishkolan_lattice_distance(0, 0, 0, 1, 1, 1);
    CHECK(answered(distance.refusal) && distance.bits == 0x3FFBB67AE8584CAA);
    /* The difference is a - b: -2147483648 is a 32-bit number, 2147483648 is none. */
    distance = tishkolan_lattice_distance(INT32_MIN, 0, 0, 0, 0, 0);
    CHECK(answered(distance.refusal) && tishkolan_double_of(distance.bits) == 2147483648.0);
    distance = tishkolan_lattice_distance(0, 0, 0, INT32_MIN, 0, 0);
    CHECK(refused(distance.refusal, TISHKOLAN_COORD_OVERFLOW) && distance.bits == 0);
    distance = tishkolan_lattice_distance(0, 1, 0, 0, 0, 3);
    CHECK(mixed(distance.refusal, 0, 1, 0) && distance.bits == 0);
    distance = tishkolan_lattice_distance(0, 0, 0, 0, 0, 3);
    CHECK(mixed(distance.refusal, 0, 0, 3) && distance.bits == 0);

    tishkolan_number_answer steps = tishkolan_lattice_manhattan_distance(1, -1, 1, 0, 0, -2);
    CHECK(answered(steps.refusal) && steps.value == 5);
    steps = tishkolan_lattice_manhattan_distance(2147483646, 0, 0, 0, 0, 0);
    CHECK(answered(steps.refusal) && steps.value == 2147483646);
    steps = tishkolan_lattice_manhattan_distance(2147483646, 0, 0, 0, 2, 0);
    CHECK(refused(steps.refusal, TISHKOLAN_COORD_OVERFLOW) && steps.value == 0);
    steps = tishkolan_lattice_manhattan_distance(0, 1, 0, 0, 0, 3);
    CHECK(mixed(steps.refusal, 0, 1, 0) && steps.value == 0);
    steps = tishkolan_lattice_manhattan_distance(0, 0, 0, 0, 0, 3);
    CHECK(mixed(steps.refusal, 0, 0, 3) && steps.value == 0);
}

/* ---- cells */

static void cell_made(void)
{
    static const uint8_t expected[CELL] = {0x00, 0x00, 0x00, 0x01, 0xFF, 0xFF, 0xFF, 0xFF,
                                           0x00, 0x00, 0x00, 0x01, 0x0A, 0x5C, 0x03, 0x00};
    uint8_t out[20];

    /* Exponent 28 is kept as 12. */
    fill(out, sizeof out);
    CHECK(answered(tishkolan_cell_new(0, 3, 1, -1, 1, 28, 165, out, 20)));
    CHECK(memcmp(out, expected, CELL) == 0 && untouched(out + CELL, 4));
    CHECK(answered(tishkolan_cell_new(7, 3, 1, -1, 1, 16, 0, out, 20))); /* and 16 as 0 */
    CHECK(same(out, at(3, 1, -1, 1)));
    fill(out, sizeof out);
    CHECK(answered(tishkolan_cell_from_coords(7, 3, 1, -1, 1, out, CELL)));
    CHECK(same(out, at(3, 1, -1, 1)) && untouched(out + CELL, 4));

    fill(out, sizeof out);
    CHECK(mixed(tishkolan_cell_new(0, 3, 1, -1, 2, 0, 0, out, 20), 1, -1, 2));
    CHECK(mixed(tishkolan_cell_from_coords(0, 3, 1, -1, 2, out, 20), 1, -1, 2));
    CHECK(no_room(tishkolan_cell_new(0, 3, 1, -1, 1, 28, 165, out, 15)));
    CHECK(no_room(tishkolan_cell_from_coords(0, 3, 1, -1, 1, out, 15)));
    CHECK(no_room(tishkolan_cell_new(0, 3, 1, -1, 1, 28, 165, NULL, 0)));
    CHECK(no_room(tishkolan_cell_from_coords(0, 3, 1, -1, 1, NULL, 0)));
    CHECK(untouched(out, sizeof out));
}

static void cell_read(void)
{
    const cell plain = at(3, 1, -1, 1), some = marked(plain), broken = at(3, 0, 1, 0);
    const cell below = at(3, 0, 0, -2), above = at(3, 0, 0, 2);
    cell reserved = plain;

    tishkolan_fields_answer fields = tishkolan_cell_fields(some.bytes, CELL);
    CHECK(answered(fields.refusal));
    CHECK(fields.frame == 7 && fields.resolution == 3 && fields.exponent == 12);
    CHECK(fields.flags == 165 && fields.reserved == 3);
    CHECK(fields.x == 1 && fields.y == -1 && fields.z == 1);
    fields = tishkolan_cell_fields(broken.bytes, CELL); /* every 16 bytes have fields */
    CHECK(answered(fields.refusal) && fields.y == 1);
    fields = tishkolan_cell_fields(some.bytes, 15);
    CHECK(refused(fields.refusal, TISHKOLAN_BAD_LIST));
    CHECK(fields.frame == 0 && fields.resolution == 0 && fields.exponent == 0 && fields.flags == 0
          && fields.reserved == 0 && fields.x == 0 && fields.y == 0 && fields.z == 0);
    CHECK(refused(tishkolan_cell_fields(NULL, 0).refusal, TISHKOLAN_BAD_LIST));

    tishkolan_coord_answer coord = tishkolan_cell_lattice_coord(some.bytes, CELL);
    CHECK(answered(coord.refusal) && coord.x == 1 && coord.y == -1 && coord.z == 1);
    coord = tishkolan_cell_lattice_coord(broken.bytes, CELL);
    CHECK(mixed(coord.refusal, 0, 1, 0) && coord.x == 0 && coord.y == 0 && coord.z == 0);
    coord = tishkolan_cell_lattice_coord(NULL, 0);
    CHECK(refused(coord.refusal, TISHKOLAN_BAD_LIST));

    tishkolan_number_answer number = tishkolan_cell_is_plain(plain.bytes, CELL);
    CHECK(answered(number.refusal) && number.value == 1);
    number = tishkolan_cell_is_plain(some.bytes, CELL);
    CHECK(answered(number.refusal) && number.value == 0);
    reserved.bytes[12] = 0x10;
    number = tishkolan_cell_is_plain(reserved.bytes, CELL);
    CHECK(answered(number.refusal) && number.value == 0);
    number = tishkolan_cell_is_plain(plain.bytes, 0);
    CHECK(refused(number.refusal, TISHKOLAN_BAD_LIST) && number.value == 0);

    number = tishkolan_cell_compare(plain.bytes, CELL, some.bytes, CELL);
    CHECK(answered(number.refusal) && number.value == -1);
    number = tishkolan_cell_compare(some.bytes, CELL, some.bytes, CELL);
    CHECK(answered(number.refusal) && number.value == 0);
    number = tishkolan_cell_compare(some.bytes, CELL, plain.bytes, CELL);
    CHECK(answered(number.refusal) && number.value == 1);
    /* By the bits: a negative z is above all others. */
    number = tishkolan_cell_compare(below.bytes, CELL, above.bytes, CELL);
    CHECK(answered(number.refusal) && number.value == 1);
    number = tishkolan_cell_compare(some.bytes, 15, plain.bytes, CELL);
    CHECK(refused(number.refusal, TISHKOLAN_BAD_LIST) && number.value == 0);
    number = tishkolan_cell_compare(some.bytes, CELL, NULL, 0);
    CHECK(refused(number.refusal, TISHKOLAN_BAD_LIST) && number.value == 0);
}

static void cell_neighbors(void)
{
    const cell from = marked(at(9, 4, 2, 2)), broken = at(9, 0, 1, 0), edge = at(9, 2147483646, 0, 0);
    uint8_t out[TISHKOLAN_NEIGHBORS * CELL + 8];
    const size_t exact = TISHKOLAN_NEIGHBORS * CELL;

    /* The neighbours are plain, though the cell is not. */
    fill(out, sizeof out);
    CHECK(answered(tishkolan_cell_neighbors(from.bytes, CELL, out, sizeof out)));
    CHECK(same(out, at(9, 5, 3, 3)));
    CHECK(same(out + 8 * CELL, at(9, 6, 2, 2)));
    CHECK(same(out + 13 * CELL, at(9, 4, 2, 0)));
    CHECK(untouched(out + exact, 8));

    fill(out, sizeof out);
    CHECK(refused(tishkolan_cell_neighbors(broken.bytes, 17, out, 0), TISHKOLAN_BAD_LIST));
    CHECK(mixed(tishkolan_cell_neighbors(broken.bytes, CELL, out, exact), 0, 1, 0));
    CHECK(refused(tishkolan_cell_neighbors(edge.bytes, CELL, out, exact), TISHKOLAN_COORD_OVERFLOW));
    CHECK(no_room(tishkolan_cell_neighbors(from.bytes, CELL, out, exact - 1)));
    CHECK(no_room(tishkolan_cell_neighbors(from.bytes, CELL, NULL, 0)));
    CHECK(untouched(out, sizeof out));
}

static void cell_children(void)
{
    const cell from = marked(at(9, 1, 1, -1)), finest = at(255, 0, 1, 0);
    const cell broken = at(9, 0, 1, 0), edge = at(9, 1073741824, 0, 0);
    uint8_t out[TISHKOLAN_CHILDREN * CELL + 8];
    const size_t exact = TISHKOLAN_CHILDREN * CELL;

    fill(out, sizeof out);
    CHECK(answered(tishkolan_cell_children(from.bytes, CELL, out, exact)));
    CHECK(same(out, at(10, 2, 2, -2)));
    CHECK(same(out + 7 * CELL, at(10, 3, 1, -3)));
    CHECK(untouched(out + exact, 8));

    /* The finest resolution is refused before the parity. */
    fill(out, sizeof out);
    CHECK(refused(tishkolan_cell_children(NULL, 0, out, exact), TISHKOLAN_BAD_LIST));
    CHECK(refused(tishkolan_cell_children(finest.bytes, CELL, out, exact), TISHKOLAN_NO_CHILDREN));
    CHECK(mixed(tishkolan_cell_children(broken.bytes, CELL, out, exact), 0, 1, 0));
    CHECK(refused(tishkolan_cell_children(edge.bytes, CELL, out, exact), TISHKOLAN_COORD_OVERFLOW));
    CHECK(refused(tishkolan_cell_children(edge.bytes, CELL, out, 0), TISHKOLAN_COORD_OVERFLOW));
    CHECK(no_room(tishkolan_cell_children(from.bytes, CELL, out, exact - 1)));
    CHECK(no_room(tishkolan_cell_children(from.bytes, CELL, NULL, 0)));
    CHECK(untouched(out, sizeof out));
}

static void cell_parent(void)
{
    const cell from = marked(at(9, 4, 2, 2)), coarsest = at(0, 0, 1, 0), broken = at(9, 0, 1, 0);
    uint8_t out[20];

    fill(out, sizeof out);
    CHECK(answered(tishkolan_cell_parent(from.bytes, CELL, out, 20)));
    CHECK(same(out, at(8, 1, 1, 1)) && untouched(out + CELL, 4));

    /* The coarsest resolution is refused before the parity. */
    fill(out, sizeof out);
    CHECK(refused(tishkolan_cell_parent(from.bytes, 15, out, 20), TISHKOLAN_BAD_LIST));
    CHECK(refused(tishkolan_cell_parent(coarsest.bytes, CELL, out, 20), TISHKOLAN_NO_PARENT));
    CHECK(mixed(tishkolan_cell_parent(broken.bytes, CELL, out, 20), 0, 1, 0));
    CHECK(no_room(tishkolan_cell_parent(from.bytes, CELL, out, 15)));
    CHECK(no_room(tishkolan_cell_parent(from.bytes, CELL, NULL, 0)));
    CHECK(untouched(out, sizeof out));
}

static void cell_ancestor(void)
{
    const cell from = marked(at(9, 4, 2, 2)), broken = marked(at(9, 0, 1, 0));
    uint8_t out[20];

    fill(out, sizeof out);
    CHECK(answered(tishkolan_cell_ancestor(from.bytes, CELL, 8, out, 20)));
    CHECK(same(out, at(8, 1, 1, 1)) && untouched(out + CELL, 4));
    CHECK(answered(tishkolan_cell_ancestor(from.bytes, CELL, 0, out, 20)));
    CHECK(same(out, at(0, 0, 0, 0)));
    /* At its own resolution a cell is handed back as it is, even one that is off the lattice. */
    CHECK(answered(tishkolan_cell_ancestor(broken.bytes, CELL, 9, out, CELL)));
    CHECK(same(out, broken));

    fill(out, sizeof out);
    CHECK(refused(tishkolan_cell_ancestor(from.bytes, 32, 8, out, 20), TISHKOLAN_BAD_LIST));
    CHECK(refused(tishkolan_cell_ancestor(broken.bytes, CELL, 10, out, 20), TISHKOLAN_NO_PARENT));
    CHECK(mixed(tishkolan_cell_ancestor(broken.bytes, CELL, 8, out, 20), 0, 1, 0));
    CHECK(no_room(tishkolan_cell_ancestor(from.bytes, CELL, 8, out, 15)));
    CHECK(no_room(tishkolan_cell_ancestor(from.bytes, CELL, 9, NULL, 0)));
    CHECK(untouched(out, sizeof out));
}

static void cell_between(void)
{
    const cell here = at(9, 0, 0, 0), beside = at(9, 2, 0, 0), diagonal = at(9, 1, 1, 1);
    const cell finer = at(10, 0, 1, 0), broken = at(9, 0, 1, 0), other = at(9, 0, 0, 3);
    const cell far = at(9, INT32_MIN, 0, 0);

    /* The middle of two such cells is no lattice point: there is never a cell between. */
    CHECK(answered(tishkolan_cell_between(here.bytes, CELL, beside.bytes, CELL)));
    CHECK(answered(tishkolan_cell_between(here.bytes, CELL, diagonal.bytes, CELL)));
    CHECK(answered(tishkolan_cell_between(broken.bytes, CELL, finer.bytes, CELL)));

    CHECK(refused(tishkolan_cell_between(here.bytes, 15, beside.bytes, CELL), TISHKOLAN_BAD_LIST));
    CHECK(refused(tishkolan_cell_between(here.bytes, CELL, NULL, 0), TISHKOLAN_BAD_LIST));
    CHECK(mixed(tishkolan_cell_between(broken.bytes, CELL, other.bytes, CELL), 0, 1, 0));
    CHECK(mixed(tishkolan_cell_between(here.bytes, CELL, other.bytes, CELL), 0, 0, 3));
    CHECK(refused(tishkolan_cell_between(here.bytes, CELL, far.bytes, CELL), TISHKOLAN_COORD_OVERFLOW));
}

static void cell_distances(void)
{
    const cell here = at(9, 0, 0, 0), there = marked(at(3, 1, 1, 1)), broken = at(9, 0, 1, 0);
    const cell other = at(9, 0, 0, 3), far = at(9, INT32_MIN, 0, 0);

    tishkolan_bits_answer distance = tishkolan_cell_distance(here.bytes, CELL, there.bytes, CELL);
    CHECK(answered(distance.refusal) && distance.bits == 0x3FFBB67AE8584CAA);
    distance = tishkolan_cell_distance(far.bytes, CELL, here.bytes, CELL);
    CHECK(answered(distance.refusal) && tishkolan_double_of(distance.bits) == 2147483648.0);
    distance = tishkolan_cell_distance(here.bytes, CELL, far.bytes, CELL);
    CHECK(refused(distance.refusal, TISHKOLAN_COORD_OVERFLOW) && distance.bits == 0);
    distance = tishkolan_cell_distance(broken.bytes, CELL, other.bytes, CELL);
    CHECK(mixed(distance.refusal, 0, 1, 0) && distance.bits == 0);
    distance = tishkolan_cell_distance(here.bytes, CELL, other.bytes, CELL);
    CHECK(mixed(distance.refusal, 0, 0, 3) && distance.bits == 0);
    distance = tishkolan_cell_distance(NULL, 0, other.bytes, CELL);
    CHECK(refused(distance.refusal, TISHKOLAN_BAD_LIST) && distance.bits == 0);
    distance = tishkolan_cell_distance(here.bytes, CELL, other.bytes, 17);
    CHECK(refused(distance.refusal, TISHKOLAN_BAD_LIST) && distance.bits == 0);

    tishkolan_number_answer steps =
        tishkolan_cell_manhattan_distance(here.bytes, CELL, there.bytes, CELL);
    CHECK(answered(steps.refusal) && steps.value == 3);
    steps = tishkolan_cell_manhattan_distance(here.bytes, CELL, here.bytes, CELL);
    CHECK(answered(steps.refusal) && steps.value == 0);
    steps = tishkolan_cell_manhattan_distance(far.bytes, CELL, here.bytes, CELL);
    CHECK(refused(steps.refusal, TISHKOLAN_COORD_OVERFLOW) && steps.value == 0);
    steps = tishkolan_cell_manhattan_distance(broken.bytes, CELL, other.bytes, CELL);
    CHECK(mixed(steps.refusal, 0, 1, 0) && steps.value == 0);
    steps = tishkolan_cell_manhattan_distance(here.bytes, CELL, other.bytes, CELL);
    CHECK(mixed(steps.refusal, 0, 0, 3) && steps.value == 0);
    steps = tishkolan_cell_manhattan_distance(here.bytes, 15, other.bytes, CELL);
    CHECK(refused(steps.refusal, TISHKOLAN_BAD_LIST) && steps.value == 0);
    steps = tishkolan_cell_manhattan_distance(here.bytes, CELL, NULL, 0);
    CHECK(refused(steps.refusal, TISHKOLAN_BAD_LIST) && steps.value == 0);
}

/* ---- labels */

#define LABEL TISHKOLAN_LABEL_BYTES

/* The label of the zero cell. */
static const char zero_label[] = "cx3d1qqqqqqqqqqqqqqqqqqqqqqqqqqchrr7t";

static void label_written(void)
{
    static const struct {
        uint8_t cell[CELL];
        const char *label;
    } known[] = {
        {{0}, zero_label},
        {{0xFF, 0xFF, 0xFF, 0xFF, 0xFF, 0xFF, 0xFF, 0xFF, 0xFF, 0xFF, 0xFF, 0xFF, 0xFF, 0xFF, 0xFF, 0xFF},
         "cx3d1llllllllllllllllllllllllluzkm08t"},
        {{0x00, 0x00, 0x00, 0x01, 0xFF, 0xFF, 0xFF, 0xFF, 0x00, 0x00, 0x00, 0x01, 0x0A, 0x5C, 0x03, 0x00},
         "cx3d1qqqqqq0lllll7qqqqqqs5hqrqq75s4gn"},
        {{0, 0, 0, 0, 0, 0, 0, 0, 0, 0, 0, 0, 0, 0, 0x03, 0x00}, "cx3d1qqqqqqqqqqqqqqqqqqqqqqqrqq73cnu2"}};
    uint8_t out[LABEL + 4], upper[LABEL], read[CELL + 4];

    for (size_t place = 0; place < sizeof known / sizeof known[0]; place++) {
        const uint8_t *from = known[place].cell;
        const char *label = known[place].label;

        fill(out, sizeof out);
        CHECK(answered(tishkolan_cell_to_bech32m(from, CELL, out, sizeof out)));
        CHECK(memcmp(out, label, LABEL) == 0 && untouched(out + LABEL, 4));
        fill(out, sizeof out);
        CHECK(answered(tishkolan_cell_to_bech32m(from, CELL, out, LABEL)));
        CHECK(memcmp(out, label, LABEL) == 0 && untouched(out + LABEL, 4));

        /* Read back as it was written, and in upper case. */
        for (int byte = 0; byte < LABEL; byte++)
            upper[byte] = (uint8_t)(label[byte] - ('a' <= label[byte] && label[byte] <= 'z' ? 'a' - 'A' : 0));
        for (int turn = 0; turn < 2; turn++) {
            fill(read, sizeof read);
            const tishkolan_place_answer answer = tishkolan_cell_from_bech32m(turn == 0 ? out : upper, LABEL, read, turn == 0 ? CELL : sizeof read);
            CHECK(answered(answer.refusal) && answer.place == 0);
            CHECK(memcmp(read, from, CELL) == 0 && untouched(read + CELL, 4));
        }
    }

    fill(out, sizeof out);
    CHECK(refused(tishkolan_cell_to_bech32m(known[0].cell, 15, out, sizeof out), TISHKOLAN_BAD_LIST));
    CHECK(refused(tishkolan_cell_to_bech32m(known[0].cell, 15, out, 0), TISHKOLAN_BAD_LIST));
    CHECK(refused(tishkolan_cell_to_bech32m(NULL, 0, out, sizeof out), TISHKOLAN_BAD_LIST));
    CHECK(refused(tishkolan_cell_to_bech32m(NULL, 0, NULL, 0), TISHKOLAN_BAD_LIST));
    CHECK(no_room(tishkolan_cell_to_bech32m(known[0].cell, CELL, out, LABEL - 1)));
    CHECK(no_room(tishkolan_cell_to_bech32m(known[0].cell, CELL, NULL, 0)));
    CHECK(untouched(out, sizeof out));
}

/* Whether so many bytes are refused with this number and place, though there is room, and where there is none. */
static bool mistyped(const void *label, size_t length, uint32_t number, uint64_t place)
{
    uint8_t out[CELL];
    bool holds = true;

    fill(out, sizeof out);
    for (size_t room = 0; room <= CELL; room += CELL) {
        const tishkolan_place_answer answer = tishkolan_cell_from_bech32m(label, length, room == 0 ? NULL : out, room);
        holds &= refused(answer.refusal, number) && answer.place == place && untouched(out, sizeof out);
    }
    return holds;
}

/* The zero cell's label with another character at a place; at 37 behind it. */
static bool mistyped_at(size_t at, char character, uint32_t number, uint64_t place)
{
    char label[LABEL + 1];

    memcpy(label, zero_label, LABEL);
    label[at] = character;
    return mistyped(label, at < LABEL ? LABEL : LABEL + 1, number, place);
}

static void label_read(void)
{
    static const struct {
        const char *label;
        uint32_t number;
        uint64_t place;
    } wrong[] = {
        {"", TISHKOLAN_LABEL_PREFIX, 0},
        {"c", TISHKOLAN_LABEL_PREFIX, 1},
        {"cx", TISHKOLAN_LABEL_PREFIX, 2},
        {"cx3d", TISHKOLAN_LABEL_PREFIX, 4},
        {"cy", TISHKOLAN_LABEL_PREFIX, 1},
        {"dx3d1", TISHKOLAN_LABEL_PREFIX, 0},
        {"cx3d2", TISHKOLAN_LABEL_PREFIX, 4},
        {" cx3d1qqqqqqqqqqqqqqqqqqqqqqqqqqchrr7t", TISHKOLAN_LABEL_PREFIX, 0},
        {"cX4d1", TISHKOLAN_LABEL_PREFIX, 2}, /* before the mixed case at 1 */
        {"A1LQFN3A", TISHKOLAN_LABEL_PREFIX, 0}, /* a string of BIP 350 */
        {"cX3d1", TISHKOLAN_LABEL_MIXED_CASE, 1},
        {"cx3d1B", TISHKOLAN_LABEL_MIXED_CASE, 5}, /* before the character */
        {"CX3D1qb", TISHKOLAN_LABEL_MIXED_CASE, 5},
        {"cx3d1b", TISHKOLAN_LABEL_CHARACTER, 5},
        {"cx3d1\x80", TISHKOLAN_LABEL_CHARACTER, 5},
        {"cx3d11qqqqqqqqqqqqqqqqqqqqqqqqqyssm7c", TISHKOLAN_LABEL_CHARACTER, 5}, /* valid by BIP 350, with the prefix cx3d1 */
        {"cx3d1qqqqqqqqqqqqqqqqqqqqqqqqq1xq64ja", TISHKOLAN_LABEL_CHARACTER, 30},
        {"cx3d1", TISHKOLAN_LABEL_LENGTH, 5},
        {"CX3D1", TISHKOLAN_LABEL_LENGTH, 5},
        {"cx3d1qqqqqqqqqqqqqqqqqqqqqqqqqqchrr7", TISHKOLAN_LABEL_LENGTH, 36},
        {"cx3d1qqqqqqqqqqqqqqqqqqqqqqqqqqqj8dgpk", TISHKOLAN_LABEL_LENGTH, 38}, /* of 27 values, its checksum right */
        {"cx3d1qqqqqqqqqqqqqqqqqqqqqqqqqqdtn0mf", TISHKOLAN_LABEL_CHECKSUM, 37}, /* that of Bech32 */
        {"cx3d1qqqqqqqqqqqqqqqqqqqqqqqqqp9phkrq", TISHKOLAN_LABEL_CHECKSUM, 37}, /* before the padding */
        {"cx3d1qqqqqqqqqqqqqqqqqqqqqqqqqp9phkre", TISHKOLAN_LABEL_PADDING, 30},
        {"cx3d1qqqqqqqqqqqqqqqqqqqqqqqqqztjzqdx", TISHKOLAN_LABEL_PADDING, 30},
        {"CX3D1QQQQQQQQQQQQQQQQQQQQQQQQQRKYK4S5", TISHKOLAN_LABEL_PADDING, 30}};
    static char longer[100000];
    uint8_t out[CELL];

    for (size_t place = 0; place < sizeof wrong / sizeof wrong[0]; place++)
        CHECK(mistyped(wrong[place].label, strlen(wrong[place].label), wrong[place].number, wrong[place].place));
    CHECK(mistyped(NULL, 0, TISHKOLAN_LABEL_PREFIX, 0));
    CHECK(mistyped_at(20, 'B', TISHKOLAN_LABEL_MIXED_CASE, 20));
    CHECK(mistyped_at(20, 'b', TISHKOLAN_LABEL_CHARACTER, 20));
    CHECK(mistyped_at(20, '1', TISHKOLAN_LABEL_CHARACTER, 20));
    CHECK(mistyped_at(20, '\0', TISHKOLAN_LABEL_CHARACTER, 20));
    CHECK(mistyped_at(20, (char)('q' + 128), TISHKOLAN_LABEL_CHARACTER, 20));
    CHECK(mistyped_at(20, 'p', TISHKOLAN_LABEL_CHECKSUM, 37));
    CHECK(mistyped_at(36, 'T', TISHKOLAN_LABEL_MIXED_CASE, 36));
    /* Behind the 37th character. */
    CHECK(mistyped_at(37, 'Q', TISHKOLAN_LABEL_MIXED_CASE, 37));
    CHECK(mistyped_at(37, '!', TISHKOLAN_LABEL_CHARACTER, 37));
    CHECK(mistyped_at(37, '\n', TISHKOLAN_LABEL_CHARACTER, 37));
    CHECK(mistyped_at(37, '\0', TISHKOLAN_LABEL_CHARACTER, 37));
    CHECK(mistyped_at(37, 'q', TISHKOLAN_LABEL_LENGTH, 38));

    /* In a long string all places are told, and all characters come before the length. */
    memset(longer, 'q', sizeof longer);
    memcpy(longer, zero_label, LABEL);
    CHECK(mistyped(longer, sizeof longer, TISHKOLAN_LABEL_LENGTH, sizeof longer));
    longer[sizeof longer - 1] = '1';
    CHECK(mistyped(longer, sizeof longer, TISHKOLAN_LABEL_CHARACTER, sizeof longer - 1));
    longer[sizeof longer - 2] = 'I';
    CHECK(mistyped(longer, sizeof longer, TISHKOLAN_LABEL_MIXED_CASE, sizeof longer - 2));

    /* NO_ROOM is the last, and has no place. */
    fill(out, sizeof out);
    for (size_t room = 0; room < CELL; room += CELL - 1) {
        const tishkolan_place_answer answer = tishkolan_cell_from_bech32m((const uint8_t *)zero_label, LABEL, room == 0 ? NULL : out, room);
        CHECK(no_room(answer.refusal) && answer.place == 0);
    }
    CHECK(untouched(out, sizeof out));

    /* Each refusal has a name of its own. */
    for (uint32_t number = TISHKOLAN_LABEL_PREFIX; number <= TISHKOLAN_LABEL_PADDING; number++)
        for (uint32_t other = number + 1; other <= TISHKOLAN_LABEL_PADDING + 1; other++)
            CHECK(strcmp(tishkolan_refusal_name(number), tishkolan_refusal_name(other)) != 0);
}

int main(void)
{
    version();
    square_root();
    parity();
    lattice_neighbors();
    lattice_children();
    lattice_parent();
    families();
    physical();
    lattice_distances();
    cell_made();
    cell_read();
    cell_neighbors();
    cell_children();
    cell_parent();
    cell_ancestor();
    cell_between();
    cell_distances();
    label_written();
    label_read();
    printf("face: %d claims hold, %d do not\n", passed, failed);
    return failed != 0;
}
