/* Searches from C: the known points, each refusal with every field, and every byte that is left. */
#include "claims.h"

enum {
    ROOM = 400,
    CELLS = 8,
    RECORDS = 16,
    BEHIND = 7,
    KNOWN_BYTES = TISHKOLAN_SEARCH_KNOWN_BYTES(ROOM) + BEHIND,
    WAITING_BYTES = TISHKOLAN_SEARCH_WAITING_BYTES(ROOM) + BEHIND
};

static uint8_t known_workspace[KNOWN_BYTES], waiting_workspace[WAITING_BYTES], out[CELLS * CELL];

/* The flag layer of the searches below. */
static uint8_t flags[RECORDS * TISHKOLAN_FLAG_RECORD];
static size_t flag_count;

static void open_map(void)
{
    tishkolan_flags_clear(flags, sizeof flags);
    flag_count = 0;
}

static void lay(cell c, uint32_t bits)
{
    tishkolan_count_answer said = tishkolan_flags_set(flags, sizeof flags, flag_count, c.bytes, CELL, bits);

    CHECK(answered(said.refusal));
    flag_count = (size_t)said.count;
}

/* ---- asking */

/* What a search is given beside its ends. */
typedef struct {
    uint32_t rule;
    uint64_t limit;
    size_t known, waiting, cells;
} terms;

static const terms usual = {TISHKOLAN_AVOIDING, 100000, ROOM, ROOM, CELLS};

static void fill_all(void)
{
    fill(known_workspace, sizeof known_workspace);
    fill(waiting_workspace, sizeof waiting_workspace);
    fill(out, sizeof out);
}

static tishkolan_search_answer asked(cell start, cell goal, terms under)
{
    fill_all();
    return tishkolan_astar_with_limit(start.bytes, CELL, goal.bytes, CELL, flags, sizeof flags, flag_count, under.rule,
                                      under.limit, under.known, under.waiting, known_workspace, sizeof known_workspace,
                                      waiting_workspace, sizeof waiting_workspace, out, under.cells * CELL);
}

static tishkolan_search_answer limited(cell start, cell goal, uint64_t limit)
{
    terms under = usual;

    under.limit = limit;
    return asked(start, goal, under);
}

static tishkolan_search_answer within(cell start, cell goal, size_t known, size_t waiting, size_t cells)
{
    terms under = usual;

    under.known = known;
    under.waiting = waiting;
    under.cells = cells;
    return asked(start, goal, under);
}

static tishkolan_search_answer ruled(cell start, cell goal, uint32_t rule)
{
    terms under = usual;

    under.rule = rule;
    return asked(start, goal, under);
}

/* ---- what was said and left */

static bool zero(const uint8_t *from, size_t bytes)
{
    while (bytes > 0 && *from == 0)
        from++, bytes--;
    return bytes == 0;
}

/* Both workspaces are zero to the last byte. */
static bool wiped(void)
{
    return zero(known_workspace, sizeof known_workspace) && zero(waiting_workspace, sizeof waiting_workspace);
}

/* The fields beside the refusal. */
static bool says(tishkolan_search_answer said, uint64_t cells, uint64_t cost, uint64_t expansions, uint64_t limit)
{
    return said.cells == cells && said.cost == cost && said.expansions == expansions && said.limit == limit;
}

static bool no_ends(tishkolan_search_answer said)
{
    return said.start_high == 0 && said.start_low == 0 && said.goal_high == 0 && said.goal_low == 0;
}

/* The route is these cells at the front of the output, and nothing behind them changed. */
static bool finds(tishkolan_search_answer said, const cell *cells, size_t count, uint64_t cost, uint64_t expansions)
{
    for (size_t i = 0; i < count; i++)
        if (memcmp(out + i * CELL, cells[i].bytes, CELL) != 0)
            return false;
    return answered(said.refusal) && says(said, count, cost, expansions, 0) && no_ends(said)
        && untouched(out + count * CELL, sizeof out - count * CELL) && wiped();
}

/* A refusal that carries nothing but a room, and is not BAD_WORKSPACE. */
static bool stops(tishkolan_search_answer said, uint32_t number, uint32_t room)
{
    return is(said.refusal, number, room, 0, 0, 0) && says(said, 0, 0, 0, 0) && no_ends(said)
        && untouched(out, sizeof out) && wiped();
}

static bool exceeds(tishkolan_search_answer said, uint64_t limit)
{
    return refused(said.refusal, TISHKOLAN_SEARCH_LIMIT_EXCEEDED) && says(said, 0, 0, limit + 1, limit) && no_ends(said)
        && untouched(out, sizeof out) && wiped();
}

static bool odd_end(tishkolan_search_answer said, int32_t x, int32_t y, int32_t z)
{
    return mixed(said.refusal, x, y, z) && says(said, 0, 0, 0, 0) && no_ends(said) && untouched(out, sizeof out) && wiped();
}

/* Eight bytes, the first the highest. */
static uint64_t word(const uint8_t *from)
{
    uint64_t made = 0;

    for (int place = 0; place < 8; place++)
        made = made << 8 | from[place];
    return made;
}

static bool no_path(tishkolan_search_answer said, cell start, cell goal)
{
    return refused(said.refusal, TISHKOLAN_NO_PATH_FOUND) && says(said, 0, 0, 0, 0)
        && said.start_high == word(start.bytes) && said.start_low == word(start.bytes + 8)
        && said.goal_high == word(goal.bytes) && said.goal_low == word(goal.bytes + 8)
        && untouched(out, sizeof out) && wiped();
}

static cell flagged(cell c)
{
    c.bytes[13] |= 0x10;
    return c;
}

/* ---- claims */

static const uint64_t two_diagonals = 0x400BB67AE8584CAA; /* the root of 3, twice */

static void answers(void)
{
    const cell start = at(3, 0, 0, 0), goal = at(3, 2, 2, 0), odd = at(3, 0, 1, 0), edge = at(3, 2147483647, 1, 1);
    const cell route[3] = {start, at(3, 1, 1, 1), goal}, other[3] = {start, at(3, 1, 1, -1), goal};

    open_map();
    CHECK(finds(ruled(start, goal, TISHKOLAN_FREE), route, 3, two_diagonals, 3));
    CHECK(finds(ruled(start, goal, TISHKOLAN_AVOIDING), route, 3, two_diagonals, 3));
    CHECK(tishkolan_route_verdict(out, 3 * CELL, start.bytes, CELL, goal.bytes, CELL, two_diagonals, flags, sizeof flags,
                                  flag_count, TISHKOLAN_AVOIDING) == TISHKOLAN_ACCEPTED);
    CHECK(finds(limited(start, goal, 3), route, 3, two_diagonals, 3));
    CHECK(finds(limited(start, goal, UINT64_MAX), route, 3, two_diagonals, 3));

    /* Equal scores: the cell of the smaller number comes first. */
    const cell turn[3] = {start, at(3, 2, 0, 0), at(3, 3, 1, 1)};
    const uint64_t cost = tishkolan_bits_of(2.0 + tishkolan_double_of(0x3FFBB67AE8584CAA));
    tishkolan_search_answer said = limited(start, turn[2], 100000);
    CHECK(finds(said, turn, 3, cost, said.expansions));

    /* The call without a limit. */
    fill_all();
    CHECK(finds(tishkolan_astar(start.bytes, CELL, goal.bytes, CELL, flags, sizeof flags, flag_count, TISHKOLAN_FREE, ROOM,
                                ROOM, known_workspace, sizeof known_workspace, waiting_workspace,
                                sizeof waiting_workspace, out, sizeof out),
                route, 3, two_diagonals, 3));

    /* Only bit 0 blocks, and only under the rule that avoids; the start is not tested. */
    lay(route[1], TISHKOLAN_NO_FLY);
    lay(start, TISHKOLAN_BLOCKED);
    CHECK(finds(ruled(start, goal, TISHKOLAN_AVOIDING), route, 3, two_diagonals, 3));
    lay(route[1], TISHKOLAN_BLOCKED);
    CHECK(finds(ruled(start, goal, TISHKOLAN_AVOIDING), other, 3, two_diagonals, 3));
    CHECK(finds(ruled(start, goal, TISHKOLAN_FREE), route, 3, two_diagonals, 3));

    /* A record of a flagged cell blocks that one cell, not its plain twin. */
    open_map();
    lay(flagged(route[1]), TISHKOLAN_BLOCKED);
    CHECK(finds(ruled(start, goal, TISHKOLAN_AVOIDING), route, 3, two_diagonals, 3));

    /* Equal ends, though mixed, blocked or on the edge; no cell is closed, so the limit is none. */
    lay(odd, TISHKOLAN_BLOCKED);
    CHECK(finds(limited(odd, odd, 0), &odd, 1, 0, 0));
    CHECK(finds(limited(edge, edge, 0), &edge, 1, 0, 0));
    CHECK(finds(within(start, start, 1, 1, 1), &start, 1, 0, 0));
    CHECK(stops(within(start, start, 1, 1, 0), TISHKOLAN_NO_ROOM, 3));

    /* A goal on the edge is reached, since it is not expanded. */
    const cell onto[2] = {at(3, 2147483645, 1, 1), edge};
    CHECK(finds(limited(onto[0], onto[1], 2), onto, 2, tishkolan_bits_of(2.0), 2));
}

static void refusals(void)
{
    const cell start = at(3, 0, 0, 0), goal = at(3, 2, 2, 0), odd = at(3, 0, 1, 0), other_odd = at(3, -1, 0, 0);
    const cell lowest = at(3, INT32_MIN, 0, 0), edge = at(3, 2147483646, 0, 0);
    uint8_t near[TISHKOLAN_NEIGHBORS * CELL];

    open_map();
    CHECK(odd_end(limited(odd, other_odd, 9), 0, 1, 0));
    CHECK(odd_end(limited(start, other_odd, 9), -1, 0, 0));
    CHECK(exceeds(limited(start, goal, 2), 2));
    CHECK(exceeds(limited(start, goal, 0), 0));

    /* Overflow of the distance, before the limit; of the neighbours, behind it. */
    CHECK(stops(limited(start, lowest, 0), TISHKOLAN_COORD_OVERFLOW, 0));
    CHECK(exceeds(limited(lowest, start, 0), 0));
    CHECK(stops(limited(lowest, start, 1), TISHKOLAN_COORD_OVERFLOW, 0));
    CHECK(stops(limited(edge, at(3, 2147483640, 0, 0), 9), TISHKOLAN_COORD_OVERFLOW, 0));

    /* A flagged goal is never reached, whatever the limit. */
    CHECK(exceeds(limited(start, flagged(goal), 5), 5));
    CHECK(stops(limited(start, flagged(goal), UINT64_MAX), TISHKOLAN_NO_ROOM, 1));

    CHECK(stops(ruled(start, goal, 2), TISHKOLAN_BAD_RULE, 0));
    CHECK(stops(ruled(start, start, UINT32_MAX), TISHKOLAN_BAD_RULE, 0));
    flag_count = RECORDS + 1;
    CHECK(stops(ruled(start, goal, 2), TISHKOLAN_BAD_LAYER, 0));
    CHECK(stops(ruled(odd, odd, TISHKOLAN_FREE), TISHKOLAN_BAD_LAYER, 0));
    for (int end = 0; end < 2; end++) {
        fill_all();
        CHECK(stops(tishkolan_astar(start.bytes, CELL - (end == 0), goal.bytes, CELL + (end == 1), flags, sizeof flags,
                                    flag_count, 2, ROOM, ROOM, known_workspace, sizeof known_workspace,
                                    waiting_workspace, sizeof waiting_workspace, out, sizeof out),
                    TISHKOLAN_BAD_LIST, 0));
    }

    /* A start that is shut in, with its own bits; the goal may be blocked. */
    open_map();
    CHECK(answered(tishkolan_cell_neighbors(start.bytes, CELL, near, sizeof near)));
    for (int place = 0; place < TISHKOLAN_NEIGHBORS; place++) {
        cell shut;

        memcpy(shut.bytes, near + place * CELL, CELL);
        lay(shut, TISHKOLAN_BLOCKED);
    }
    CHECK(no_path(limited(start, goal, 1), start, goal));
    CHECK(no_path(limited(flagged(start), flagged(goal), 1), flagged(start), flagged(goal)));
    CHECK(no_path(limited(start, at(3, 1, 1, 1), 1), start, at(3, 1, 1, 1)));
    CHECK(exceeds(limited(start, goal, 0), 0));
}

/* The search of (2, 2, 0) from (0, 0, 0) comes to know 22 cells, at most 20 entries wait, and its route has 3 cells. */
static void rooms(void)
{
    const cell start = at(3, 0, 0, 0), goal = at(3, 2, 2, 0), route[3] = {start, at(3, 1, 1, 1), goal};

    open_map();
    CHECK(finds(within(start, goal, 22, 20, 3), route, 3, two_diagonals, 3));
    CHECK(stops(within(start, goal, 21, 20, 3), TISHKOLAN_NO_ROOM, 1));
    CHECK(stops(within(start, goal, 22, 19, 3), TISHKOLAN_NO_ROOM, 2));
    CHECK(stops(within(start, goal, 22, 20, 2), TISHKOLAN_NO_ROOM, 3));
    CHECK(stops(within(start, goal, 22, 20, 0), TISHKOLAN_NO_ROOM, 3));
    /* The rest of the output is none that a cell fits. */
    fill_all();
    CHECK(stops(tishkolan_astar(start.bytes, CELL, goal.bytes, CELL, NULL, 0, 0, TISHKOLAN_FREE, 22, 20, known_workspace,
                                sizeof known_workspace, waiting_workspace, sizeof waiting_workspace, out, 3 * CELL - 1),
                TISHKOLAN_NO_ROOM, 3));
    fill_all();
    CHECK(stops(tishkolan_astar(start.bytes, CELL, goal.bytes, CELL, NULL, 0, 0, TISHKOLAN_AVOIDING, 22, 20,
                                known_workspace, sizeof known_workspace, waiting_workspace, sizeof waiting_workspace,
                                NULL, 0),
                TISHKOLAN_NO_ROOM, 3));
    CHECK(stops(within(start, goal, 1, 1, 0), TISHKOLAN_NO_ROOM, 1));
    CHECK(stops(within(start, goal, 3, 1, 0), TISHKOLAN_NO_ROOM, 2));
}

/* BAD_WORKSPACE comes before every other fault, and leaves all as it was. */
static bool bad_workspace(size_t known, size_t waiting, size_t known_bytes, size_t waiting_bytes)
{
    const cell start = at(3, 0, 1, 0);

    fill_all();
    tishkolan_search_answer said = tishkolan_astar(start.bytes, CELL - 1, start.bytes, CELL + 1, flags, sizeof flags,
                                                   RECORDS + 1, 2, known, waiting, known_workspace, known_bytes,
                                                   waiting_workspace, waiting_bytes, out, sizeof out);
    return refused(said.refusal, TISHKOLAN_BAD_WORKSPACE) && says(said, 0, 0, 0, 0) && no_ends(said)
        && untouched(known_workspace, sizeof known_workspace) && untouched(waiting_workspace, sizeof waiting_workspace)
        && untouched(out, sizeof out);
}

static void workspaces(void)
{
    const size_t known = TISHKOLAN_SEARCH_KNOWN_BYTES(2), waiting = TISHKOLAN_SEARCH_WAITING_BYTES(3);
    const cell start = at(3, 0, 0, 0);

    CHECK(known == 152 && waiting == 96);
    CHECK(bad_workspace(0, 1, KNOWN_BYTES, WAITING_BYTES) && bad_workspace(65537, 1, KNOWN_BYTES, WAITING_BYTES));
    CHECK(bad_workspace(1, 0, KNOWN_BYTES, WAITING_BYTES) && bad_workspace(1, 65537, KNOWN_BYTES, WAITING_BYTES));
    CHECK(bad_workspace(2, 3, known - 1, waiting) && bad_workspace(2, 3, known, waiting - 1));
    CHECK(bad_workspace(SIZE_MAX, 1, KNOWN_BYTES, WAITING_BYTES) && bad_workspace(SIZE_MAX / 44 + 1, 1, KNOWN_BYTES, WAITING_BYTES));
    CHECK(bad_workspace(1, SIZE_MAX, KNOWN_BYTES, WAITING_BYTES) && bad_workspace(1, SIZE_MAX / 32 + 1, KNOWN_BYTES, WAITING_BYTES));
    CHECK(bad_workspace(1, 1, 0, WAITING_BYTES) && bad_workspace(1, 1, KNOWN_BYTES, 0));

    /* As long as they must be; what lies behind is not lent. */
    fill_all();
    CHECK(answered(tishkolan_astar(start.bytes, CELL, start.bytes, CELL, NULL, 0, 0, TISHKOLAN_FREE, 2, 3, known_workspace,
                                   known, waiting_workspace, waiting, out, CELL).refusal));
    CHECK(zero(known_workspace, known) && untouched(known_workspace + known, sizeof known_workspace - known));
    CHECK(zero(waiting_workspace, waiting) && untouched(waiting_workspace + waiting, sizeof waiting_workspace - waiting));
    CHECK(untouched(out + CELL, sizeof out - CELL));
}

int main(void)
{
    answers();
    refusals();
    rooms();
    workspaces();
    printf("search calls: %d claims hold, %d do not\n", passed, failed);
    return failed != 0;
}
