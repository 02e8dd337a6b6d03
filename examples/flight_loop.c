/* A flight loop in C. Each pass judges what it is about to fly against the layer as it stands now. */
#include <stdio.h>

#include <tishkolan.h>

enum { CELL = TISHKOLAN_CELL_BYTES, STEPS = 3 };

int main(void)
{
    uint8_t flags[TISHKOLAN_MOST_CELLS * TISHKOLAN_FLAG_RECORD] = {0}, route[STEPS * CELL];
    size_t blocked = 0;
    double cost[STEPS] = {0}; /* of the rest of the route, from each cell on */

    for (int i = 0; i < STEPS; i++)
        if (tishkolan_cell_from_coords(0, 3, i, i, i % 2, route + CELL * i, CELL).number != TISHKOLAN_ANSWERED)
            return 1;
    for (int i = STEPS - 1; i-- > 0;)
        for (int j = i; j + 1 < STEPS; j++) {
            tishkolan_bits_answer step = tishkolan_cell_distance(route + CELL * j, CELL, route + CELL * (j + 1), CELL);
            if (step.refusal.number != TISHKOLAN_ANSWERED)
                return 1;
            cost[i] += tishkolan_double_of(step.bits);
        }

    for (int here = 0; here < STEPS; here++) {
        if (here == 1) { /* a laser point strikes the cell ahead */
            tishkolan_count_answer set = tishkolan_flags_set(flags, sizeof flags, blocked, route + CELL * 2, CELL, TISHKOLAN_BLOCKED);
            blocked = set.count; /* always taken back */
            if (set.refusal.number != TISHKOLAN_ANSWERED)
                break; /* hover: the layer does not know of the cell */
        }
        uint32_t verdict = tishkolan_route_verdict(
            route + CELL * here, (size_t)(STEPS - here) * CELL, route + CELL * here, CELL,
            route + CELL * (STEPS - 1), CELL, tishkolan_bits_of(cost[here]),
            flags, sizeof flags, blocked, TISHKOLAN_AVOIDING);
        printf("pass %d: %s\n", here, tishkolan_verdict_name(verdict));
        if (verdict != TISHKOLAN_ACCEPTED)
            break; /* hover */
    }
    return 0;
}
