/* A program that knows nothing of the repository: tests/install.sh builds it against the installed library, in another folder. */
#include <stdio.h>
#include <tishkolan.h>

enum { CELL = TISHKOLAN_CELL_BYTES, ROOM = 100 };

int main(void)
{
    static uint8_t known[TISHKOLAN_SEARCH_KNOWN_BYTES(ROOM)], waiting[TISHKOLAN_SEARCH_WAITING_BYTES(ROOM)];
    uint8_t start[CELL], goal[CELL], route[ROOM * CELL], flags[ROOM * TISHKOLAN_FLAG_RECORD];
    size_t count = 0;

    printf("root of 3: %.17g\n", tishkolan_double_of(tishkolan_square_root(tishkolan_bits_of(3.0)).bits));
    tishkolan_cell_from_coords(0, 3, 0, 0, 0, start, CELL);
    tishkolan_cell_from_coords(0, 3, 2, 2, 0, goal, CELL);
    for (int pass = 0; pass < 2; pass++) {
        tishkolan_search_answer found = tishkolan_astar(start, CELL, goal, CELL, flags, sizeof flags, count, TISHKOLAN_AVOIDING,
                                                        ROOM, ROOM, known, sizeof known, waiting, sizeof waiting, route, sizeof route);
        tishkolan_coord_answer through = tishkolan_cell_lattice_coord(route + CELL, CELL);
        printf("route: %d cells through (%d, %d, %d), cost %.17g, verdict %u\n", (int)found.cells, through.x, through.y, through.z,
               tishkolan_double_of(found.cost),
               tishkolan_route_verdict(route, (size_t)found.cells * CELL, start, CELL, goal, CELL, found.cost,
                                       flags, sizeof flags, count, TISHKOLAN_AVOIDING));
        count = tishkolan_flags_set(flags, sizeof flags, count, route + CELL, CELL, TISHKOLAN_BLOCKED).count;
    }
    return 0;
}
