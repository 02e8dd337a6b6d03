/* The square root beside C's sqrt, an independent IEEE 754 program, on 10,000,000 inputs:
 * whole values of every size, squares and what lies beside them, the edges of the range, and
 * everything that is refused. Exit status 1 where anything differs. */
#include <inttypes.h>
#include <math.h>
#include <stdio.h>

#include "../include/tishkolan.h"

enum { INPUTS = 10000000 };

static const double TWO_TO_64 = 18446744073709551616.0;

static long compared, refused, differences;

static bool is_covered(uint64_t bits)
{
    const double value = tishkolan_double_of(bits);

    return bits == 0 || (value >= 1.0 && value <= TWO_TO_64 && floor(value) == value);
}

static void compare(uint64_t bits)
{
    const tishkolan_bits_answer said = tishkolan_square_root(bits);
    const bool covered = is_covered(bits);
    const uint32_t number = covered ? TISHKOLAN_ANSWERED : TISHKOLAN_OUT_OF_RANGE;
    const uint64_t root = covered ? tishkolan_bits_of(sqrt(tishkolan_double_of(bits))) : 0;

    compared++;
    refused += !covered;
    if (said.refusal.number == number && said.refusal.room == 0 && said.refusal.x == 0
        && said.refusal.y == 0 && said.refusal.z == 0 && said.bits == root)
        return;
    if (differences++ < 10)
        printf("root of 0x%016" PRIX64 ": refusal %" PRIu32 ", 0x%016" PRIX64
               "; sqrt: refusal %" PRIu32 ", 0x%016" PRIX64 "\n",
               bits, said.refusal.number, said.bits, number, root);
}

static void compare_value(double value)
{
    compare(tishkolan_bits_of(value));
}

/* The value, the doubles beside it and the whole numbers beside it, of both signs. */
static void compare_around(double value)
{
    const double near[] = {value,       nextafter(value, 0.0), nextafter(value, INFINITY),
                           value - 1.0, value + 1.0,           value + 0.5};

    for (size_t place = 0; place < sizeof near / sizeof near[0]; place++) {
        compare_value(near[place]);
        compare_value(-near[place]);
    }
}

/* Numbers that look random and are the same each time (splitmix64). */
static uint64_t next(void)
{
    static uint64_t state = 1;
    uint64_t word = state += 0x9E3779B97F4A7C15u;

    word = (word ^ (word >> 30)) * 0xBF58476D1CE4E5B9u;
    word = (word ^ (word >> 27)) * 0x94D049BB133111EBu;
    return word ^ (word >> 31);
}

/* A double in 2^power .. 2^(power + 1). */
static double of_size(unsigned power)
{
    return tishkolan_double_of((uint64_t)(1023 + power) << 52 | next() >> 12);
}

int main(void)
{
    /* Infinities, NaN of both kinds with least, other and full payloads, zeros, subnormals. */
    static const uint64_t odd[] = {
        0x7FF0000000000000, 0x7FF0000000000001, 0x7FF7FFFFFFFFFFFF, 0x7FF8000000000000,
        0x7FF80000DEADBEEF, 0x7FFFFFFFFFFFFFFF, 0x0000000000000000, 0x0000000000000001,
        0x000FFFFFFFFFFFFF, 0x0010000000000000, 0x7FEFFFFFFFFFFFFF};

    for (size_t place = 0; place < sizeof odd / sizeof odd[0]; place++) {
        compare(odd[place]);
        compare(odd[place] | (uint64_t)1 << 63);
    }
    for (int power = -2; power <= 70; power++)
        compare_around(ldexp(1.0, power));
    for (uint64_t number = 0; number < 1000000; number++)
        compare_value((double)number);
    for (uint64_t number = 1; number < 300000; number++) {
        const uint64_t large = ((uint64_t)1 << 32) - number;

        for (int off = -1; off <= 1; off++) {
            compare_value((double)(number * number + (uint64_t)off));
            compare_value((double)(large * large + (uint64_t)off));
        }
    }
    while (compared < INPUTS) {
        const uint64_t number = next() >> (32 + next() % 32);
        const double low = of_size(26 + next() % 6);

        compare_value((double)(next() >> next() % 64));       /* whole, of every size */
        compare_value(floor(of_size(next() % 64)));           /* the same, all 53 bits used */
        compare_value((double)(number * number - 1));         /* beside a square */
        compare_value((double)(number * number + 1));
        compare_value(rint(low * nextafter(low, INFINITY)));  /* between two roots */
        compare_value(of_size(52 + next() % 12));
        compare_value(of_size(next() % 80));                  /* fractions, too large */
        compare(next());                                      /* any bits */
    }
    printf("root: %ld inputs compared with sqrt, %ld of them refused, %ld differences\n",
           compared, refused, differences);
    return differences != 0;
}
