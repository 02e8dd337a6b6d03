/* A planner in C: loads a survey, searches a route that avoids its blocked cells, and has the route judged as the flight
 * loop will judge it, before it is sent.
 *
 *   planner SURVEY    as examples/survey/morning.survey; examples/planner.txt is what it prints of that
 */
#include <stdio.h>

#include <tishkolan.h>

enum {
    CELL = TISHKOLAN_CELL_BYTES,
    FLAG_BYTES = TISHKOLAN_MOST_CELLS * TISHKOLAN_FLAG_RECORD,
    VALUE_BYTES = TISHKOLAN_MOST_CELLS * TISHKOLAN_VALUE_RECORD,
    KNOWN = 1024, /* the rooms that the search is given */
    WAITING = 4096,
    MOST_CELLS = 256 /* of a route */
};

static uint8_t flags[FLAG_BYTES], values[VALUE_BYTES], route[MOST_CELLS * CELL];
static uint8_t known[TISHKOLAN_SEARCH_KNOWN_BYTES(KNOWN)], waiting[TISHKOLAN_SEARCH_WAITING_BYTES(WAITING)];

static void print_refusal(const char *what, tishkolan_refusal why)
{
    printf("%s: refused (%u), %s", what, why.number, tishkolan_refusal_name(why.number));
    if (why.number == TISHKOLAN_NO_ROOM)
        printf(" %s", tishkolan_room_name(why.room));
    printf("\n");
}

int main(int argc, char **argv)
{
    static uint8_t file[TISHKOLAN_FILE_BYTES + 1]; /* one byte more: a file that is too long is refused, not cut */
    uint8_t start[CELL], goal[CELL];

    FILE *in = argc == 2 ? fopen(argv[1], "rb") : NULL;
    if (in == NULL) {
        fprintf(stderr, "usage: planner SURVEY (a file that can be read)\n");
        return 2;
    }
    size_t length = fread(file, 1, sizeof file, in);
    fclose(in);

    tishkolan_load_answer loaded = tishkolan_survey_load(file, length, flags, sizeof flags, 0, values, sizeof values, 0);
    if (loaded.refusal.number != TISHKOLAN_ANSWERED) {
        print_refusal("survey", loaded.refusal);
        printf("  at byte %zu\n", (size_t)loaded.place);
        return 1;
    }
    printf("survey: %zu cells with flags, %zu readings\n", (size_t)loaded.flags, (size_t)loaded.values);

    tishkolan_refusal made = tishkolan_cell_from_coords(0, 2, 4, 12, 8, start, CELL); /* below the hatch, in the aft bay */
    if (made.number == TISHKOLAN_ANSWERED)
        made = tishkolan_cell_from_coords(0, 2, 24, 4, 2, goal, CELL); /* at the end of the fore bay */
    if (made.number != TISHKOLAN_ANSWERED) {
        print_refusal("cell", made);
        return 1;
    }
    tishkolan_search_answer found = tishkolan_astar(
        start, CELL, goal, CELL, flags, sizeof flags, loaded.flags, TISHKOLAN_AVOIDING, KNOWN, WAITING,
        known, sizeof known, waiting, sizeof waiting, route, sizeof route);
    if (found.refusal.number != TISHKOLAN_ANSWERED) {
        print_refusal("search", found.refusal);
        return 1;
    }
    printf("route: %zu cells, cost %.3f, found after closing %zu cells\n", (size_t)found.cells, tishkolan_double_of(found.cost), (size_t)found.expansions);
    for (size_t i = 0; i < found.cells; i++) {
        tishkolan_coord_answer cell = tishkolan_cell_lattice_coord(route + CELL * i, CELL);
        if (cell.refusal.number != TISHKOLAN_ANSWERED) {
            print_refusal("route", cell.refusal);
            return 1;
        }
        printf("  (%d, %d, %d)\n", cell.x, cell.y, cell.z);
    }

    uint32_t verdict = tishkolan_route_verdict(
        route, (size_t)found.cells * CELL, start, CELL, goal, CELL, found.cost,
        flags, sizeof flags, loaded.flags, TISHKOLAN_AVOIDING);
    printf("verdict %u: %s\n", verdict, tishkolan_verdict_name(verdict));
    return verdict != TISHKOLAN_ACCEPTED;
}
