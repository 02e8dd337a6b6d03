/* The accident, played again. The flight loop reads an accepted route cell by cell and judges it at each pass; a survey is
 * loaded anew between any two passes, before the first and after the last. At each pass the verdict must be that of the
 * layer handed to that very call: never that of an earlier survey, and never that of cells of two. */
#include "claims.h"

enum {
    CELLS = 12,                       /* of the route */
    FLAGS = 16 * TISHKOLAN_FLAG_RECORD, /* room for 16 records */
    VALUES = 4 * TISHKOLAN_VALUE_RECORD,
    FILE_BYTES = 16 + FLAGS + VALUES,
    OPEN = CELLS                      /* no cell of the route is closed */
};

static uint8_t route[CELLS * CELL];
static uint64_t cost_from[CELLS]; /* of the rest of the route from a cell on */

/* The layers that the loop holds. */
static uint8_t flags[FLAGS], values[VALUES];
static size_t flag_count, value_count;

static cell along(int i)
{
    return at(3, i, i, i % 2 == 0 ? 0 : 1); /* (0,0,0), (1,1,1), (2,2,0), ..: each step changes the parity */
}

static void lay_route(void)
{
    for (int i = 0; i < CELLS; i++)
        memcpy(route + CELL * i, along(i).bytes, CELL);
    for (int from = 0; from < CELLS; from++) {
        double sum = 0.0;
        for (int i = from; i + 1 < CELLS; i++)
            sum += tishkolan_double_of(tishkolan_cell_distance(route + CELL * i, CELL, route + CELL * (i + 1), CELL).bits);
        cost_from[from] = tishkolan_bits_of(sum);
    }
}

/* A survey file that closes one cell of the route, or none, and has some cells beside the route, blocked and not. */
static size_t survey(uint8_t *file, int closed)
{
    uint8_t table[FLAGS] = {0}, readings[VALUES] = {0};
    size_t cells = 0, values_kept;

    for (int i = 0; i < 4; i++)
        cells = tishkolan_flags_set(table, sizeof table, cells, at(3, 2 * i, 0, 2).bytes, CELL, TISHKOLAN_BLOCKED).count;
    cells = tishkolan_flags_set(table, sizeof table, cells, along(2).bytes, CELL, TISHKOLAN_NO_FLY).count;
    if (closed != OPEN)
        cells = tishkolan_flags_set(table, sizeof table, cells, along(closed).bytes, CELL, TISHKOLAN_BLOCKED | TISHKOLAN_WATER).count;
    values_kept = tishkolan_values_set(readings, sizeof readings, 0, along(closed % CELLS).bytes, CELL, tishkolan_bits_of(9.75)).count;
    tishkolan_length_answer written = tishkolan_survey_write(table, sizeof table, cells, readings, sizeof readings, values_kept, file, FILE_BYTES);
    CHECK(answered(written.refusal));
    return (size_t)written.length;
}

static tishkolan_load_answer reload(const uint8_t *file, size_t length)
{
    tishkolan_load_answer load = tishkolan_survey_load(file, length, flags, sizeof flags, flag_count, values, sizeof values, value_count);
    flag_count = (size_t)load.flags;
    value_count = (size_t)load.values;
    return load;
}

/* The rest of the route, from the cell that the drone is in. */
static uint32_t judge_rest(int drone)
{
    return tishkolan_route_verdict(route + CELL * drone, (size_t)(CELLS - drone) * CELL, route + CELL * drone, CELL,
                                   route + CELL * (CELLS - 1), CELL, cost_from[drone], flags, sizeof flags, flag_count, TISHKOLAN_AVOIDING);
}

static uint32_t judge_whole(void)
{
    return judge_rest(0);
}

/* A cell that is closed ahead of the drone shuts the way; one behind it, or under it, does not. */
static uint32_t wanted(int closed, int drone)
{
    return closed != OPEN && closed > drone ? TISHKOLAN_BLOCKED_CELL : TISHKOLAN_ACCEPTED;
}

/* One flight: survey `first`, and survey `second` from pass `when` on; pass CELLS is after the last. */
static void fly(int first, int second, int when)
{
    uint8_t file[FILE_BYTES], again[FILE_BYTES], flags_alone[FLAGS] = {0}, values_alone[VALUES] = {0};
    size_t length = survey(file, first), length_again = survey(again, second);
    int now = first;

    CHECK(answered(reload(file, length).refusal));
    for (int pass = 0; pass <= CELLS; pass++) {
        if (pass == when) {
            CHECK(answered(reload(again, length_again).refusal));
            now = second;
        }
        if (pass < CELLS) {
            CHECK(judge_rest(pass) == wanted(now, pass));
            CHECK(judge_whole() == wanted(now, 0));
        }
    }
    /* The layers are those of the second survey, whole, as if nothing had stood there before. */
    tishkolan_load_answer alone = tishkolan_survey_load(again, length_again, flags_alone, sizeof flags_alone, 0, values_alone, sizeof values_alone, 0);
    CHECK(alone.flags == flag_count && alone.values == value_count);
    CHECK(memcmp(flags, flags_alone, sizeof flags) == 0 && memcmp(values, values_alone, sizeof values) == 0);
}

/* A reload that is refused half-way: the old layers stand, whole, and so does the verdict. */
static void fly_on(int closed, int when, size_t cut, size_t place, uint8_t byte)
{
    uint8_t file[FILE_BYTES], damaged[FILE_BYTES], flags_before[FLAGS], values_before[VALUES];
    size_t length = survey(file, closed);

    CHECK(answered(reload(file, length).refusal));
    length = survey(damaged, closed == OPEN ? 5 : OPEN);
    damaged[place] ^= byte;
    for (int pass = 0; pass < CELLS; pass++) {
        if (pass == when) {
            size_t flags_then = flag_count, values_then = value_count;
            memcpy(flags_before, flags, sizeof flags);
            memcpy(values_before, values, sizeof values);
            tishkolan_load_answer load = reload(damaged, length - cut);
            CHECK(load.refusal.number == TISHKOLAN_BAD_FILE);
            CHECK(flag_count == flags_then && value_count == values_then);
            CHECK(memcmp(flags, flags_before, sizeof flags) == 0 && memcmp(values, values_before, sizeof values) == 0);
        }
        CHECK(judge_rest(pass) == wanted(closed, pass));
    }
}

/* The layer has no room for the new survey: refused too, and nothing changes. */
static void no_room_for_a_survey(void)
{
    uint8_t file[FILE_BYTES], large[16 + 20 * 17] = {0, 1, 0, 17, 0, 0, 0, 0, 0, 0, 0, 16, 0, 0, 1, 100};
    uint8_t flags_before[FLAGS];

    for (int i = 0; i < 17; i++)
        memcpy(large + 16 + 20 * i, at(3, 2 * i, 0, 0).bytes, CELL);
    CHECK(answered(reload(file, survey(file, 4)).refusal));
    memcpy(flags_before, flags, sizeof flags);
    CHECK(no_layer_room(reload(large, sizeof large).refusal));
    CHECK(memcmp(flags, flags_before, sizeof flags) == 0 && judge_rest(0) == TISHKOLAN_BLOCKED_CELL && judge_rest(4) == TISHKOLAN_ACCEPTED);
}

/* Sent and homing: what the loop flies when a reload closes the one or both. */
static void choices(void)
{
    uint8_t file[FILE_BYTES], home[CELLS * CELL];
    double sum = 0.0;

    for (int i = 0; i < CELLS; i++)
        memcpy(home + CELL * i, route + CELL * (CELLS - 1 - i), CELL);
    for (int i = 0; i + 1 < CELLS; i++)
        sum += tishkolan_double_of(tishkolan_cell_distance(home + CELL * i, CELL, home + CELL * (i + 1), CELL).bits);
    for (int closed = 1; closed <= CELLS; closed++) {
        CHECK(answered(reload(file, survey(file, closed)).refusal));
        uint32_t choice = tishkolan_route_choice(
            route, sizeof route, route, CELL, route + sizeof route - CELL, CELL, cost_from[0],
            home, sizeof home, home, CELL, home + sizeof home - CELL, CELL, tishkolan_bits_of(sum),
            flags, sizeof flags, flag_count, TISHKOLAN_AVOIDING);
        /* The last cell of the route is the first of the way home, which is not entered. */
        CHECK(choice == (closed == OPEN ? TISHKOLAN_SENT : closed == CELLS - 1 ? TISHKOLAN_HOMING : TISHKOLAN_NEITHER));
        choice = tishkolan_route_choice(
            route, sizeof route - 1, route, CELL, route + sizeof route - CELL, CELL, cost_from[0],
            home, sizeof home, home, CELL, home + sizeof home - CELL, CELL, tishkolan_bits_of(sum),
            flags, sizeof flags, flag_count, TISHKOLAN_AVOIDING);
        CHECK(choice == (closed >= CELLS - 1 ? TISHKOLAN_HOMING : TISHKOLAN_NEITHER));
    }
}

/* Each verdict once. */
static void verdicts(void)
{
    uint8_t file[FILE_BYTES], bent[CELLS * CELL];
    const uint8_t *goal = route + sizeof route - CELL;

#define VERDICT(list, length, start, end, cost, count, rule) \
    tishkolan_route_verdict(list, length, start, CELL, end, CELL, cost, flags, sizeof flags, count, rule)
    CHECK(answered(reload(file, survey(file, 5)).refusal));
    CHECK(VERDICT(route, sizeof route, route, goal, cost_from[0], flag_count, TISHKOLAN_FREE) == TISHKOLAN_ACCEPTED);
    CHECK(VERDICT(route, sizeof route - 1, route, goal, cost_from[0], 17, 2) == TISHKOLAN_BAD_LIST);
    CHECK(VERDICT(route, sizeof route, route, goal, cost_from[0], 17, 2) == TISHKOLAN_BAD_LAYER);
    CHECK(VERDICT(route, sizeof route, route, goal, cost_from[0], flag_count, 2) == TISHKOLAN_BAD_RULE);
    CHECK(VERDICT(route, 0, route, goal, cost_from[0], flag_count, TISHKOLAN_AVOIDING) == TISHKOLAN_EMPTY_ROUTE);
    CHECK(VERDICT(route, sizeof route, goal, goal, cost_from[0], flag_count, TISHKOLAN_AVOIDING) == TISHKOLAN_WRONG_START);
    memcpy(bent, route, sizeof route);
    memcpy(bent + 3 * CELL, along(4).bytes, CELL); /* a jump before the blocked cell */
    CHECK(VERDICT(bent, sizeof bent, route, goal, cost_from[0], flag_count, TISHKOLAN_AVOIDING) == TISHKOLAN_NOT_A_NEIGHBOR);
    CHECK(VERDICT(route, sizeof route, route, goal, cost_from[0], flag_count, TISHKOLAN_AVOIDING) == TISHKOLAN_BLOCKED_CELL);
    CHECK(VERDICT(route, sizeof route - CELL, route, goal, cost_from[0], flag_count, TISHKOLAN_FREE) == TISHKOLAN_WRONG_GOAL);
    CHECK(VERDICT(route, sizeof route, route, goal, cost_from[0] ^ 1, flag_count, TISHKOLAN_FREE) == TISHKOLAN_WRONG_COST);
    CHECK(VERDICT(route, CELL, route, route, 0, flag_count, TISHKOLAN_AVOIDING) == TISHKOLAN_ACCEPTED);
    CHECK(VERDICT(route, CELL, route, route, tishkolan_bits_of(-0.0), flag_count, TISHKOLAN_AVOIDING) == TISHKOLAN_WRONG_COST);
    CHECK(tishkolan_route_verdict(route, CELL, route, 15, route, CELL, 0, flags, sizeof flags, flag_count, 0) == TISHKOLAN_BAD_LIST);
    CHECK(tishkolan_route_verdict(NULL, 0, route, CELL, route, CELL, 0, NULL, 0, 0, 0) == TISHKOLAN_EMPTY_ROUTE);
}

int main(void)
{
    lay_route();
    verdicts();
    for (int first = 1; first <= CELLS; first++)
        for (int second = 1; second <= CELLS; second++)
            for (int when = 0; when <= CELLS; when++)
                fly(first, second, when);
    for (int when = 0; when < CELLS; when++) {
        fly_on(OPEN, when, 1, 1, 0);   /* one byte short */
        fly_on(6, when, 1, 1, 0);
        fly_on(OPEN, when, 24, 1, 0);  /* a record short */
        fly_on(OPEN, when, 0, 1, 2);   /* another version */
        fly_on(6, when, 0, 15, 4);     /* a wrong offset */
        fly_on(OPEN, when, 0, 5, 1);   /* one value more or less than there is */
        fly_on(OPEN, when, 0, 16, 128); /* a first record that is above the second */
        fly_on(6, when, 0, 16, 128);
        fly_on(6, when, 0, 67, 2);     /* the second record's cell in the third too */
    }
    no_room_for_a_survey();
    choices();
    printf("flight: %d claims hold, %d do not\n", passed, failed);
    return failed != 0;
}
