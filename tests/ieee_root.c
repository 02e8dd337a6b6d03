/* The square root beside one that is worked out in whole numbers, from IEEE 754 alone: no root and no
 * rounding of the machine is used. That one is held to the machine's sqrt too, on every exponent, so
 * that it is known to be right where the library refuses. Exit status 1 where anything differs. */
#include <inttypes.h>
#include <math.h>
#include <stdio.h>

#include "../include/tishkolan.h"

typedef unsigned __int128 wide;

enum { BITS = 53, BIAS = 1023, INPUTS = 3000000 };

static long with_library, with_machine, differences;

/* The largest number whose square is not above `of`, which has 105 or 106 bits: by bisection. */
static uint64_t floor_root(wide of)
{
    uint64_t low = (uint64_t)1 << (BITS - 1), high = (uint64_t)1 << BITS; /* low^2 <= of < high^2 */

    while (high - low > 1) {
        const uint64_t middle = low + (high - low) / 2;

        if ((wide)middle * middle <= of)
            low = middle;
        else
            high = middle;
    }
    return low;
}

/* The bits of the double nearest to the root of a positive finite double.
 * The value is significand * 2^power. Its root is that of significand * 2^shift, which is whole, times
 * a power of two, where shift gives the product 105 or 106 bits and leaves an even power: so the root's
 * whole part has the 53 bits of a double. It is rounded up where the rest is above a half, that is where
 * the product is above (n + 1/2)^2 = n^2 + n + 1/4; being whole it is never equal, and no tie arises. */
static uint64_t whole_root(uint64_t bits)
{
    uint64_t significand = bits & (((uint64_t)1 << 52) - 1), root;
    int power = (int)(bits >> 52), shift = 52;
    wide product;

    if (power == 0)
        power = 1; /* subnormal */
    else
        significand |= (uint64_t)1 << 52;
    power -= BIAS + 52;
    for (; significand >> 52 == 0; power--)
        significand <<= 1;
    if ((power - shift) % 2 != 0)
        shift++;
    product = (wide)significand << shift;
    root = floor_root(product);
    if (product - (wide)root * root > root)
        root++;
    power = (power - shift) / 2 + 52; /* the root is root / 2^52 * 2^power */
    if (root >> BITS != 0) {
        root >>= 1;
        power++;
    }
    return (uint64_t)(power + BIAS) << 52 | (root & (((uint64_t)1 << 52) - 1));
}

static void tell(const char *side, uint64_t bits, uint64_t said, uint64_t root)
{
    if (differences++ < 10)
        printf("root of 0x%016" PRIX64 ": %s 0x%016" PRIX64 ", in whole numbers 0x%016" PRIX64 "\n", bits, side, said, root);
}

/* A positive finite double. */
static void beside_machine(uint64_t bits)
{
    const uint64_t root = whole_root(bits), said = tishkolan_bits_of(sqrt(tishkolan_double_of(bits)));

    with_machine++;
    if (said != root)
        tell("machine", bits, said, root);
}

/* A whole value from 1 to 2^64. */
static void beside_library(uint64_t bits)
{
    const uint64_t root = whole_root(bits);
    const tishkolan_bits_answer said = tishkolan_square_root(bits);

    with_library++;
    if (said.refusal.number != TISHKOLAN_ANSWERED || said.bits != root)
        tell("library", bits, said.bits, root);
    beside_machine(bits);
}

static bool is_covered(uint64_t bits)
{
    const double value = tishkolan_double_of(bits);

    return value >= 1.0 && value <= 18446744073709551616.0 && floor(value) == value;
}

static void compare(uint64_t bits)
{
    if (is_covered(bits))
        beside_library(bits);
    else
        beside_machine(bits);
}

/* The double of a 53-bit significand: significand * 2^power. */
static uint64_t double_of(uint64_t significand, int power)
{
    return (uint64_t)(power + 52 + BIAS) << 52 | (significand & (((uint64_t)1 << 52) - 1));
}

/* Values whose root lies as near to the middle between two doubles as `off` says: significand * 2^shift
 * is (odd^2 - off) / 4, the middle being odd / 2. So odd^2 = off modulo 2^(shift + 2), which has four
 * solutions where off is 1 modulo 8, found bit by bit. */
static void near_the_middle(int64_t off, int shift)
{
    const int width = shift + 2;
    const uint64_t modulus = (uint64_t)1 << width;
    uint64_t odd = 1;

    /* odd^2 = off modulo 2^(bit + 1) before each turn, and modulo 2^(bit + 2) after it. */
    for (int bit = 2; bit + 1 < width; bit++)
        if (((odd * odd - (uint64_t)off) >> (bit + 1) & 1) != 0)
            odd += (uint64_t)1 << bit;
    for (int which = 0; which < 4; which++) {
        const uint64_t solution = ((which & 1 ? modulus - odd : odd) + (which & 2 ? modulus / 2 : 0)) % modulus;

        /* The root's bits and half a bit: odd in 2^53 .. 2^54. */
        for (uint64_t number = solution; number >> 54 == 0; number += modulus) {
            const wide square = (wide)number * number;
            const uint64_t significand = (uint64_t)((square - (wide)(__int128)off) >> width);

            if (number >> 53 == 0 || significand >> 52 != 1)
                continue;
            /* The significand as the product's shift wants it: 52 for even powers, 53 for odd ones. */
            for (int power = shift - 52; power <= 11; power += 2)
                beside_library(double_of(significand, power));
        }
    }
}

/* Numbers that look random and are the same each time (splitmix64). */
static uint64_t next(void)
{
    static uint64_t state = 2;
    uint64_t word = state += 0x9E3779B97F4A7C15u;

    word = (word ^ (word >> 30)) * 0xBF58476D1CE4E5B9u;
    word = (word ^ (word >> 27)) * 0x94D049BB133111EBu;
    return word ^ (word >> 31);
}

int main(void)
{
    /* Every exponent: the least, the largest and other significands, and subnormals of every size. */
    for (uint64_t exponent = 0; exponent < 2047; exponent++) {
        const uint64_t from = exponent << 52, last = ((uint64_t)1 << 52) - 1;

        for (uint64_t step = exponent == 0; step < 20; step++) {
            compare(from | step);
            compare(from | (last - step));
        }
        for (int bit = 0; bit < 52; bit++)
            compare(from | (uint64_t)1 << bit);
        for (int turn = 0; turn < 50; turn++)
            compare(from | next() >> 12);
    }
    /* Every power of two that is covered, and what lies beside it. */
    for (int power = 0; power <= 64; power++)
        for (int64_t step = power < 52 ? 0 : -100; step <= (power == 64 ? 0 : 100); step++)
            compare(double_of((uint64_t)1 << 52, power - 52) + (uint64_t)step);
    /* Small values, squares, and what lies beside them. */
    for (uint64_t number = 2; number < 200000; number++) {
        const uint64_t large = ((uint64_t)1 << 32) - number;

        beside_library(tishkolan_bits_of((double)number));
        for (uint64_t off = 0; off < 3; off++) {
            beside_library(tishkolan_bits_of((double)(number * number - 1 + off)));
            beside_library(tishkolan_bits_of((double)(large * large - 1 + off)));
        }
    }
    const long middles = with_library;
    for (int64_t off = 1; off < 40000; off += 8)
        for (int shift = 52; shift <= 53; shift++) {
            near_the_middle(off, shift);
            near_the_middle(-off - 6, shift);
        }
    const long near = with_library - middles;
    while (with_library < INPUTS) {
        const int power = (int)(next() % 64);
        /* A whole value of every size, with all the bits that a double of that size has. */
        const double value = floor(tishkolan_double_of((uint64_t)(BIAS + power) << 52 | next() >> 12));

        beside_library(tishkolan_bits_of(value));
        beside_library(tishkolan_bits_of((double)((next() >> next() % 64) | 1)));
    }
    printf("ieee_root: %ld roots worked out in whole numbers, %ld of them beside the library (%ld nearest to the middle of two doubles), %ld differences\n",
           with_machine, with_library, near, differences);
    return differences != 0;
}
