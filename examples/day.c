/* One inspection day in a tank, told in words. At each pass the flight loop judges what it is about to fly against the
 * layer as it stands then; in the middle of the flight a second survey lands, and closes the bay ahead.
 *
 *   day MORNING RELOAD    two survey files, as in examples/survey; examples/day.txt is what it prints of those
 */
#include <stdio.h>
#include <stdlib.h>

#include <tishkolan.h>

enum {
    CELL = TISHKOLAN_CELL_BYTES,
    FLAG_BYTES = TISHKOLAN_MOST_CELLS * TISHKOLAN_FLAG_RECORD,
    VALUE_BYTES = TISHKOLAN_MOST_CELLS * TISHKOLAN_VALUE_RECORD,
    RESOLUTION = 2,   /* a unit of the lattice is 25 cm */
    KNOWN = 1024,     /* the rooms that the search is given */
    WAITING = 4096,
    MOST_CELLS = 64,  /* of a route */
    RELOAD_PASS = 4   /* the second survey lands before this pass */
};

static const double renewal = 10.5; /* a plate that is thinner, in millimetres, is renewed */

/* What is held of the last survey: its two layers. */
typedef struct {
    uint8_t flags[FLAG_BYTES], values[VALUE_BYTES];
    size_t flag_count, value_count;
} survey;

/* A list of cells and the bits of what it claims to cost. */
typedef struct {
    uint8_t cells[MOST_CELLS * CELL];
    size_t count;
    uint64_t cost;
} route;

static uint8_t hatch[CELL], plate[CELL]; /* where the drone sets out, and the plate that it is to measure */

static void print_refusal(tishkolan_refusal why)
{
    printf("refused (%u), %s", why.number, tishkolan_refusal_name(why.number));
    if (why.number == TISHKOLAN_NO_ROOM)
        printf(" %s", tishkolan_room_name(why.room));
}

/* Of calls that have no reason to refuse here: one that does ends the day. */
static void must_answer(tishkolan_refusal said)
{
    if (said.number != TISHKOLAN_ANSWERED) {
        print_refusal(said);
        printf("\n");
        exit(1);
    }
}

/* ---- cells and routes */

static void print_cell(const uint8_t *cell)
{
    tishkolan_fields_answer at = tishkolan_cell_fields(cell, CELL);
    must_answer(at.refusal);
    printf("(%d, %d, %d)", at.x, at.y, at.z);
}

static const uint8_t *cell_of(const route *r, size_t i)
{
    return r->cells + CELL * i;
}

static double metres(uint64_t cost)
{
    return tishkolan_double_of(cost) / (1 << RESOLUTION);
}

/* Adds a cell to a route, and the step to it to the cost: in route order, from 0.0, as the checker adds. */
static void extend(route *r, const uint8_t *cell)
{
    double cost = tishkolan_double_of(r->cost);
    if (r->count > 0) {
        tishkolan_bits_answer step = tishkolan_cell_distance(cell_of(r, r->count - 1), CELL, cell, CELL);
        must_answer(step.refusal);
        cost += tishkolan_double_of(step.bits);
    }
    memcpy(r->cells + CELL * r->count, cell, CELL);
    r->count++;
    r->cost = tishkolan_bits_of(cost);
}

/* What is left of a route from its cell `here` on. */
static route rest_of(const route *r, size_t here)
{
    route rest = {.count = 0};
    for (size_t i = here; i < r->count; i++)
        extend(&rest, cell_of(r, i));
    return rest;
}

/* The way back from its cell `here` to its first. */
static route back_from(const route *r, size_t here)
{
    route back = {.count = 0};
    for (size_t i = here + 1; i-- > 0;)
        extend(&back, cell_of(r, i));
    return back;
}

/* ---- surveys */

/* What is kept of a cell; nothing is 0. */
static uint32_t flags_of(const survey *held, const uint8_t *cell)
{
    tishkolan_kept_answer got = tishkolan_flags_get(held->flags, sizeof held->flags, held->flag_count, cell, CELL);
    must_answer(got.refusal);
    return (uint32_t)got.kept;
}

static size_t count_blocked(const survey *held)
{
    size_t blocked = 0;
    for (size_t i = 0; i < held->flag_count; i++)
        blocked += tishkolan_is_blocked(tishkolan_flags_at(held->flags, i));
    return blocked;
}

/* Loads a survey in place of the one held. Where it is refused, that one stays, whole. */
static void load(survey *held, const char *path)
{
    static uint8_t file[TISHKOLAN_FILE_BYTES + 1]; /* a file that is too long is refused, not cut */
    FILE *in = fopen(path, "rb");
    if (in == NULL) {
        perror(path);
        exit(2);
    }
    size_t length = fread(file, 1, sizeof file, in);
    fclose(in);

    tishkolan_load_answer loaded = tishkolan_survey_load(
        file, length, held->flags, sizeof held->flags, held->flag_count, held->values, sizeof held->values, held->value_count);
    held->flag_count = (size_t)loaded.flags; /* both, whatever it said */
    held->value_count = (size_t)loaded.values;
    printf("  survey of %zu bytes: ", length);
    if (loaded.refusal.number == TISHKOLAN_ANSWERED) {
        printf("%zu cells with flags, %zu of them blocked; %zu readings\n", held->flag_count, count_blocked(held), held->value_count);
    } else {
        print_refusal(loaded.refusal);
        printf(", at byte %zu; what was held stays\n", (size_t)loaded.place);
    }
}

static size_t count_flagged(const survey *held, const route *r, uint32_t flag)
{
    size_t flagged = 0;
    for (size_t i = 0; i < r->count; i++)
        flagged += tishkolan_has_flag(flags_of(held, cell_of(r, i)), flag);
    return flagged;
}

/* The number of the first cell that a route enters and that is blocked; the route's length where there is none. */
static size_t first_blocked(const survey *held, const route *r)
{
    size_t i = 1;
    while (i < r->count && !tishkolan_is_blocked(flags_of(held, cell_of(r, i))))
        i++;
    return i;
}

/* ---- the planner */

/* Searches a route and says what came of it. Without one the route is empty. */
static route search(const survey *held, const uint8_t *start, const uint8_t *goal)
{
    static uint8_t known[TISHKOLAN_SEARCH_KNOWN_BYTES(KNOWN)], waiting[TISHKOLAN_SEARCH_WAITING_BYTES(WAITING)];
    route found = {.count = 0};
    tishkolan_search_answer answer = tishkolan_astar(
        start, CELL, goal, CELL, held->flags, sizeof held->flags, held->flag_count, TISHKOLAN_AVOIDING, KNOWN, WAITING,
        known, sizeof known, waiting, sizeof waiting, found.cells, sizeof found.cells);
    found.count = (size_t)answer.cells;
    found.cost = answer.cost;

    printf("  search from ");
    print_cell(start);
    printf(" to ");
    print_cell(goal);
    printf(": ");
    if (answer.refusal.number == TISHKOLAN_ANSWERED)
        printf("a route of %zu cells and %.2f m, after closing %zu cells", found.count, metres(found.cost), (size_t)answer.expansions);
    else
        print_refusal(answer.refusal);
    printf("\n");
    return found;
}

/* ---- the flight loop */

static uint32_t judge(const survey *held, const route *r, const uint8_t *start, const uint8_t *goal)
{
    return tishkolan_route_verdict(r->cells, r->count * CELL, start, CELL, goal, CELL, r->cost,
                                   held->flags, sizeof held->flags, held->flag_count, TISHKOLAN_AVOIDING);
}

/* One pass: judges the rest of the route against the survey held now, and says the verdict. */
static bool pass(const survey *held, const route *r, size_t here, const uint8_t *goal)
{
    route rest = rest_of(r, here);
    uint32_t verdict = judge(held, &rest, cell_of(r, here), goal);

    printf("  pass %zu at ", here);
    print_cell(cell_of(r, here));
    printf(": verdict %u, %s", verdict, tishkolan_verdict_name(verdict));
    if (verdict == TISHKOLAN_BLOCKED_CELL) {
        size_t blocked = here + first_blocked(held, &rest);
        printf(": cell %zu of the route, ", blocked);
        print_cell(cell_of(r, blocked));
    }
    printf("\n");
    return verdict == TISHKOLAN_ACCEPTED;
}

/* Flies a route, a step a pass, until it ends or a verdict stops it; where that is. With a reload, that lands on the way. */
static size_t fly(survey *held, const route *r, const uint8_t *goal, const char *reload)
{
    for (size_t here = 0;; here++) {
        if (reload != NULL && here == RELOAD_PASS) {
            printf("  between two passes a reload lands:\n");
            load(held, reload);
        }
        if (!pass(held, r, here, goal))
            return here;
        if (here + 1 == r->count) {
            printf("  the route is flown to its end\n");
            return here;
        }
    }
}

/* What the loop may fly where the sent route is not accepted: the homing route, or neither. */
static uint32_t choose(const survey *held, const route *rest, const route *homing, const uint8_t *drone)
{
    return tishkolan_route_choice(
        rest->cells, rest->count * CELL, drone, CELL, plate, CELL, rest->cost,
        homing->cells, homing->count * CELL, drone, CELL, hatch, CELL, homing->cost,
        held->flags, sizeof held->flags, held->flag_count, TISHKOLAN_AVOIDING);
}

/* The loop chooses at once; then the planner searches anew, and a new route goes before the way home. */
static void turn(survey *held, const route *sent, size_t here)
{
    const uint8_t *drone = cell_of(sent, here);
    route rest = rest_of(sent, here), homing = back_from(sent, here);
    uint32_t choice = choose(held, &rest, &homing, drone);
    if (choice == TISHKOLAN_HOMING)
        printf("  choice %u: the homing route, %zu cells back to the hatch\n", choice, homing.count);
    else
        printf("  choice %u: neither route, the drone hovers\n", choice);

    route anew = search(held, drone, plate);
    if (anew.count > 0) {
        printf("The drone flies the new route.\n");
        fly(held, &anew, plate, NULL);
    } else if (choice == TISHKOLAN_HOMING) {
        printf("The drone flies home; the plate is not reached today.\n");
        fly(held, &homing, hatch, NULL);
    }
}

/* ---- the evening */

static double value_at(const uint8_t *plates, size_t i)
{
    return tishkolan_double_of(tishkolan_values_at(plates, i));
}

static size_t thinnest(const uint8_t *plates, size_t count)
{
    size_t least = 0;
    for (size_t i = 1; i < count; i++)
        if (value_at(plates, i) < value_at(plates, least))
            least = i;
    return least;
}

/* Prints the plates that are to be renewed, and takes them off the table as it goes. */
static void print_renewals(uint8_t *plates, size_t count)
{
    while (count > 0) {
        size_t i = thinnest(plates, count);
        double value = value_at(plates, i);
        if (!(value < renewal))
            return;
        uint8_t cell[CELL];
        memcpy(cell, tishkolan_values_cell_at(plates, i), CELL);
        printf("    plate ");
        print_cell(cell);
        printf(": %.1f mm\n", value);
        tishkolan_kept_answer removed = tishkolan_values_remove(plates, VALUE_BYTES, count, cell, CELL);
        must_answer(removed.refusal);
        count = (size_t)removed.count;
    }
}

/* Rolls the readings up to plates, the parents of their cells: of each plate its thinnest reading. */
static void roll_up(const survey *held)
{
    static uint8_t plates[VALUE_BYTES];
    tishkolan_count_answer rolled = tishkolan_values_rollup(
        held->values, sizeof held->values, held->value_count, TISHKOLAN_MIN, plates, sizeof plates, 0);
    if (rolled.refusal.number != TISHKOLAN_ANSWERED) {
        printf("  rollup ");
        print_refusal(rolled.refusal);
        printf("\n");
        return;
    }
    printf("  %zu readings are rolled up to %zu plates of resolution %d, the thinnest reading of each\n",
           held->value_count, (size_t)rolled.count, RESOLUTION - 1);
    printf("  plates for renewal, thinner than %.1f mm, the thinnest first:\n", renewal);
    print_renewals(plates, (size_t)rolled.count);
}

int main(int argc, char **argv)
{
    static survey held;

    if (argc != 3) {
        fprintf(stderr, "usage: day MORNING RELOAD\n");
        return 2;
    }
    must_answer(tishkolan_cell_from_coords(0, RESOLUTION, 4, 12, 8, hatch, CELL));
    must_answer(tishkolan_cell_from_coords(0, RESOLUTION, 24, 4, 2, plate, CELL));

    printf("Morning: the survey is loaded.\n");
    load(&held, argv[1]);

    printf("The planner searches a route from the hatch in the aft bay to a plate in the fore bay.\n");
    route sent = search(&held, hatch, plate);
    if (sent.count == 0)
        return 1;
    printf("  it enters %zu NO_FLY and %zu WATER cells: only BLOCKED blocks\n",
           count_flagged(&held, &sent, TISHKOLAN_NO_FLY), count_flagged(&held, &sent, TISHKOLAN_WATER));

    printf("The drone flies; at each pass the rest of the route is judged against the survey held then.\n");
    size_t here = fly(&held, &sent, plate, argv[2]);
    if (here + 1 < sent.count) {
        printf("The sent route is not accepted any more: the loop chooses, and the planner searches anew.\n");
        turn(&held, &sent, here);
    }

    printf("Evening: the readings are rolled up.\n");
    roll_up(&held);
    return 0;
}
