/* Lines from C: the known points, what each call refuses, and every byte that it leaves. */
#include "claims.h"

enum { DIFFERENCE = 9, MOST = TISHKOLAN_LINE_CELLS(DIFFERENCE) };

static uint8_t out[MOST * CELL];

static tishkolan_count_answer traced(cell start, cell end, size_t listed)
{
    fill(out, sizeof out);
    return tishkolan_trace_line(start.bytes, CELL, end.bytes, CELL, out, listed * CELL);
}

/* The answer is these cells at the front of the output, and nothing behind them changed. */
static bool lists(tishkolan_count_answer said, const cell *cells, size_t count)
{
    for (size_t i = 0; i < count; i++)
        if (memcmp(out + i * CELL, cells[i].bytes, CELL) != 0)
            return false;
    return answered(said.refusal) && said.count == count && untouched(out + count * CELL, sizeof out - count * CELL);
}

static bool stops(tishkolan_count_answer said, uint32_t number, uint32_t room)
{
    return is(said.refusal, number, room, 0, 0, 0) && said.count == 0 && untouched(out, sizeof out);
}

static void answers(void)
{
    const cell zero = at(3, 0, 0, 0), two = at(3, 2, 2, 0), odd = at(3, 0, 1, 0);
    cell flagged = zero, foreign = two;

    flagged.bytes[13] |= 0x10;
    foreign.bytes[15] ^= 1;
    CHECK(lists(traced(zero, two, 3), (cell[]){zero, at(3, 1, 1, -1), two}, 3));
    CHECK(lists(traced(zero, two, MOST), (cell[]){zero, at(3, 1, 1, -1), two}, 3));
    CHECK(lists(traced(zero, zero, 1), (cell[]){zero}, 1));
    CHECK(lists(traced(odd, odd, 1), (cell[]){odd}, 1));
    CHECK(lists(traced(zero, flagged, 2), (cell[]){zero, flagged}, 2));
    /* The cells between have the start's frame, so an end of another frame stands behind its twin. */
    CHECK(lists(traced(zero, foreign, MOST), (cell[]){zero, at(3, 1, 1, -1), two, foreign}, 4));
}

static void refusals(void)
{
    const cell zero = at(3, 0, 0, 0), two = at(3, 2, 2, 0), odd = at(3, 0, 1, 0), lowest = at(3, INT32_MIN, 0, 0);

    CHECK(stops(traced(zero, two, 2), TISHKOLAN_NO_ROOM, 3));
    CHECK(stops(traced(zero, zero, 0), TISHKOLAN_NO_ROOM, 3));
    CHECK(stops(traced(lowest, zero, MOST), TISHKOLAN_COORD_OVERFLOW, 0));
    CHECK(stops(traced(zero, lowest, 1), TISHKOLAN_NO_ROOM, 3));
    CHECK(mixed(traced(odd, at(3, 1, 0, 0), MOST).refusal, 0, 1, 0) && untouched(out, sizeof out));
    CHECK(mixed(traced(zero, odd, MOST).refusal, 0, 1, 0) && untouched(out, sizeof out));
    fill(out, sizeof out);
    CHECK(stops(tishkolan_trace_line(zero.bytes, CELL - 1, two.bytes, CELL, out, sizeof out), TISHKOLAN_BAD_LIST, 0));
    CHECK(stops(tishkolan_trace_line(zero.bytes, CELL, two.bytes, 0, out, sizeof out), TISHKOLAN_BAD_LIST, 0));
}

static int32_t larger(int32_t a, int32_t b)
{
    return a < b ? b : a;
}

/* How many cells a line has: the header's macro is enough for them, and with room for one less than they are it is refused.
 * 0 where that does not hold. */
static size_t takes(cell start, cell end, int32_t difference)
{
    const size_t most = TISHKOLAN_LINE_CELLS(difference);
    const tishkolan_count_answer said = traced(start, end, most);
    const size_t cells = (size_t)said.count;
    const bool fits = answered(said.refusal) && cells <= most && untouched(out + cells * CELL, sizeof out - cells * CELL);

    return fits && answered(traced(start, end, cells).refusal) && stops(traced(start, end, cells - 1), TISHKOLAN_NO_ROOM, 3) ? cells : 0;
}

static void macros(void)
{
    const cell zero = at(3, 0, 0, 0);
    cell start = zero, end = at(3, 1, 1, 1);
    bool fewer = true;

    start.bytes[13] |= 0x10;
    end.bytes[13] |= 0x20;
    CHECK(takes(zero, start, 0) == TISHKOLAN_LINE_CELLS(0));
    CHECK(takes(start, end, 1) == TISHKOLAN_LINE_CELLS(1));
    CHECK(takes(start, at(3, 2, 2, 0), 2) == 4);
    for (int32_t x = -DIFFERENCE; x <= DIFFERENCE; x++)
        for (int32_t y = -DIFFERENCE; y <= DIFFERENCE; y++)
            for (int32_t z = -DIFFERENCE; z <= DIFFERENCE; z++)
                if ((x & 1) == (y & 1) && (x & 1) == (z & 1)) {
                    const int32_t difference = larger(larger(x < 0 ? -x : x, y < 0 ? -y : y), z < 0 ? -z : z);

                    const size_t cells = takes(zero, at(3, x, y, z), difference);

                    fewer &= 0 < cells && cells <= (size_t)(1 + 3 * difference / 2);
                }
    CHECK(fewer); /* between plain cells of one frame and resolution */
}

int main(void)
{
    answers();
    refusals();
    macros();
    printf("lines: %d claims hold, %d do not\n", passed, failed);
    return failed != 0;
}
