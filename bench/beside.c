/* One search, or the parents of 4,096 points or cells, so many times, for bench/beside: WHAT ROUNDS. It prints the last refusal's number and a sum over
 * the answers. */
#include <stdio.h>
#include <stdlib.h>
#include <string.h>

#include <tishkolan.h>

enum { CELL = TISHKOLAN_CELL_BYTES };

static uint8_t flags[1024 * TISHKOLAN_FLAG_RECORD];
static size_t count;

static void at(int x, int y, int z, uint8_t *cell)
{
    tishkolan_cell_from_coords(1, 9, x, y, z, cell, CELL);
}

static void block(int x, int y, int z)
{
    uint8_t cell[CELL];
    at(x, y, z, cell);
    count = tishkolan_flags_set(flags, sizeof flags, count, cell, CELL, TISHKOLAN_BLOCKED).count;
}

/* The 14 neighbours of a cell. */
static void shut_in(int x, int y, int z)
{
    for (int i = 0; i < 8; i++)
        block(x + (i & 1 ? 1 : -1), y + (i & 2 ? 1 : -1), z + (i & 4 ? 1 : -1));
    for (int s = -2; s <= 2; s += 4) {
        block(x + s, y, z);
        block(x, y + s, z);
        block(x, y, z + s);
    }
}

static void wall(int x, int reach)
{
    for (int end = x + 2; x < end; x++)
        for (int y = -reach; y <= reach; y++)
            for (int z = -reach; z <= reach; z++)
                if ((x - y) % 2 == 0 && (x - z) % 2 == 0)
                    block(x, y, z);
}

enum { POINTS = 4096 };

/* A number of 30 bits and a sign, with the parity asked for. */
static int32_t some(uint64_t *state, uint32_t parity)
{
    *state = *state * 6364136223846793005u + 1442695040888963407u;
    return (int32_t)(((*state >> 33) & ~1u) | parity) - (1 << 30);
}

/* Points at random, every second one odd: their parents, or those of their cells. */
static int parents(const char *what, long rounds)
{
    static int32_t points[POINTS][3];
    static uint8_t cells[POINTS][CELL];
    const bool of_cells = strcmp(what, "cell_parent") == 0;
    uint64_t state = 1, sum = 0;
    unsigned number = 0;

    for (int i = 0; i < POINTS; i++) {
        for (int axis = 0; axis < 3; axis++)
            points[i][axis] = some(&state, i & 1);
        at(points[i][0], points[i][1], points[i][2], cells[i]);
    }
    for (long round = 0; round < rounds; round++)
        for (int i = 0; i < POINTS; i++)
            if (of_cells) {
                uint8_t out[CELL] = {0};
                number = tishkolan_cell_parent(cells[i], CELL, out, CELL).number;
                sum += out[3] + 256 * out[7] + 65536 * out[11];
            } else {
                const tishkolan_coord_answer parent = tishkolan_lattice_parent(points[i][0], points[i][1], points[i][2]);
                number = parent.refusal.number;
                sum += (uint64_t)parent.x + 3 * (uint64_t)parent.y + 7 * (uint64_t)parent.z;
            }
    printf("%s %u %llu\n", what, number, (unsigned long long)sum);
    return 0;
}

int main(int arguments, char **argument)
{
    if (arguments != 3)
        return 2;
    const char *map = argument[1];
    if (strstr(map, "parent"))
        return parents(map, atol(argument[2]));
    uint8_t start[CELL], goal[CELL];
    size_t rooms = 30000;
    uint64_t limit = 100000;
    uint32_t rule = TISHKOLAN_AVOIDING;

    at(0, 0, 0, start);
    if (strcmp(map, "small") == 0) {
        at(12, 6, 4, goal);
        shut_in(12, 6, 4);
        limit = 400;
        rooms = 3500;
    } else if (strcmp(map, "shut") == 0) {
        at(40, 20, 20, goal);
        shut_in(40, 20, 20);
        limit = 2500;
    } else if (strcmp(map, "open") == 0) {
        at(61, 33, 21, goal);
        rule = TISHKOLAN_FREE;
    } else {
        at(24, 0, 0, goal);
        wall(10, 20);
    }

    size_t known = TISHKOLAN_SEARCH_KNOWN_BYTES(rooms), waiting = TISHKOLAN_SEARCH_WAITING_BYTES(rooms), length = CELL * 2000;
    uint8_t *known_workspace = calloc(known, 1), *waiting_workspace = calloc(waiting, 1), *out = calloc(length, 1);
    if (!known_workspace || !waiting_workspace || !out)
        return 2;
    uint64_t sum = 0;
    unsigned number = 0;
    for (long i = 0; i < atol(argument[2]); i++) {
        tishkolan_search_answer answer = tishkolan_astar_with_limit(
            start, CELL, goal, CELL, flags, sizeof flags, count, rule, limit, rooms, rooms,
            known_workspace, known, waiting_workspace, waiting, out, length);
        number = answer.refusal.number;
        sum += answer.expansions + 1000003 * answer.cells + answer.cost;
    }
    printf("%s %u %llu\n", map, number, (unsigned long long)sum);
    return 0;
}
