/* Every call that is lent memory, with each buffer in turn at all lengths from 0 to 320 and more, NULL
 * at length 0, and counts, rooms and rules of every kind. The buffers are exactly as long as said and
 * stand beside pages that may not be touched: see guarded.h. Held: the call returns, it refuses with the
 * number that the header names for this length, it leaves what it may not change, and nothing beside.
 *
 *   lengths          each call twice, its buffers at the front and at the end of their pages
 *   lengths heap     each buffer in a block of its own, for valgrind or a sanitizer */
#include "guarded.h"

#include "claims.h"

#define FLAG TISHKOLAN_FLAG_RECORD
#define VALUE TISHKOLAN_VALUE_RECORD
#define MOST_CELLS TISHKOLAN_MOST_CELLS

enum {
    LONGEST = 320,                       /* all lengths up to it, in elements */
    SOURCE = 1032 * VALUE,               /* bytes to lend from */
    ROUTE = 4,                           /* cells of the good route */
    SHUT = 10,                           /* neighbours that are blocked, so that the search needs few rooms */
    KNOWN = 1 + TISHKOLAN_NEIGHBORS - SHUT,
    WAITING = TISHKOLAN_NEIGHBORS - SHUT,
    RING = 1 + TISHKOLAN_NEIGHBORS,      /* cells of a ring of one step */
    FILE_BYTES = 16 + 3 * FLAG + 3 * VALUE,
    LAST_RECORD = FILE_BYTES - VALUE     /* where a file's last record begins */
};

/* ---- what is lent */

static uint8_t first_cell[SOURCE], second_cell[SOURCE], new_cell[SOURCE], line_end[SOURCE], near_cell[SOURCE];
static uint8_t flag_table[SOURCE], value_table[SOURCE], shut_table[SOURCE], pattern[SOURCE];
static uint8_t list[SOURCE], route[SOURCE], route_goal[SOURCE];
static uint8_t file[SOURCE], doubled_file[SOURCE]; /* the second's last cell is the one before it again */
static uint8_t label[SOURCE], ended_label[SOURCE]; /* behind the first stand characters of labels, behind the other none */
static uint64_t route_cost;
static size_t parents[MOST_CELLS + 1]; /* of the first so many cells of the value table */

typedef enum {
    GIVEN,  /* const */
    FLAGS,  /* a const table with a count */
    VALUES,
    FLAGS_CHANGED, /* a table that the call changes */
    VALUES_CHANGED,
    TARGET, /* a table that the call replaces without a look at it */
    OUT,
    SPACE   /* a workspace */
} role;

typedef enum { COUNT, ROOM, STEPS, LIMIT, HOW, RULE } kind;

enum { BUFFERS = 7, NUMBERS = 6 };

typedef struct {
    role role;
    size_t unit; /* bytes of an element */
    const void *source;
    size_t good; /* length at which the call answers, in elements */
    int count;   /* which number is its count, or -1 */
} lent;

typedef struct {
    kind kind;
    uint64_t good;
} named;

typedef struct {
    const char *name;
    void (*make)(void);
    uint32_t (*due)(void); /* the refusal's number and 256 times its room, or ANY */
    uint64_t refusals;     /* a bit for each number that the header names */
    int buffers, numbers;
    lent buffer[BUFFERS];
    named number[NUMBERS];
} call;

/* ---- one call: what goes in and what comes out */

static uint8_t *lent_at[BUFFERS];
static size_t length[BUFFERS];
static uint64_t number[NUMBERS];
static tishkolan_refusal said;
static bool fields_hold;       /* what else the answer says */
static size_t front[BUFFERS];  /* bytes that an answer may change */
static const call *current;
static long calls, answers, shown;

static const uint32_t ANY = UINT32_MAX;

static void tell(void)
{
    printf("  lengths");
    for (int place = 0; place < current->buffers; place++)
        printf(" %zu", length[place]);
    printf(", numbers");
    for (int place = 0; place < current->numbers; place++)
        printf(" %llu", (unsigned long long)number[place]);
    printf(", refusal %u room %u\n", said.number, said.room);
}

#define HOLDS(claim)                                                       \
    do {                                                                   \
        if (claim) {                                                       \
            passed++;                                                      \
        } else if (failed++, shown++ < 20) {                               \
            printf("%s: does not hold: %s\n", current->name, #claim);      \
            tell();                                                        \
        }                                                                  \
    } while (0)

static uint32_t no_room_of(uint32_t room)
{
    return TISHKOLAN_NO_ROOM + 256 * room;
}

/* ---- calls on points and cells */

#define B(place) lent_at[place], length[place]

static void say_number(tishkolan_number_answer answer)
{
    said = answer.refusal;
    fields_hold = said.number == 0 || answer.value == 0;
}

static void say_bits(tishkolan_bits_answer answer)
{
    said = answer.refusal;
    fields_hold = said.number == 0 || answer.bits == 0;
}

static void lattice_neighbors(void) { front[0] = 42 * 4; said = tishkolan_lattice_neighbors(2, 4, 6, (int32_t *)lent_at[0], length[0]); }
static void lattice_children(void) { front[0] = 24 * 4; said = tishkolan_lattice_children(2, 4, 6, (int32_t *)lent_at[0], length[0]); }
static void cell_new(void) { front[0] = CELL; said = tishkolan_cell_new(1, 2, 3, 5, 7, 4, 5, B(0)); }
static void cell_from_coords(void) { front[0] = CELL; said = tishkolan_cell_from_coords(1, 2, 3, 5, 7, B(0)); }
static void cell_neighbors(void) { front[1] = 14 * CELL; said = tishkolan_cell_neighbors(B(0), B(1)); }
static void cell_children(void) { front[1] = 8 * CELL; said = tishkolan_cell_children(B(0), B(1)); }
static void cell_parent(void) { front[1] = CELL; said = tishkolan_cell_parent(B(0), B(1)); }
static void cell_ancestor(void) { front[1] = CELL; said = tishkolan_cell_ancestor(B(0), 1, B(1)); }
static void cell_itself(void) { front[1] = CELL; said = tishkolan_cell_ancestor(B(0), 3, B(1)); }
static void cell_is_plain(void) { say_number(tishkolan_cell_is_plain(B(0))); }
static void cell_compare(void) { say_number(tishkolan_cell_compare(B(0), B(1))); }
static void cell_between(void) { said = tishkolan_cell_between(B(0), B(1)); }
static void cell_distance(void) { say_bits(tishkolan_cell_distance(B(0), B(1))); }
static void cell_manhattan(void) { say_number(tishkolan_cell_manhattan_distance(B(0), B(1))); }

static void cell_fields(void)
{
    const tishkolan_fields_answer answer = tishkolan_cell_fields(B(0));

    said = answer.refusal;
    fields_hold = answer.resolution == (said.number == 0 ? 3 : 0) && answer.frame == (said.number == 0 ? 7 : 0);
}

static void cell_lattice_coord(void)
{
    const tishkolan_coord_answer answer = tishkolan_cell_lattice_coord(B(0));

    said = answer.refusal;
    fields_hold = answer.x == 0 && answer.y == 0 && answer.z == 0;
}

static void cell_to_bech32m(void) { front[1] = TISHKOLAN_LABEL_BYTES; said = tishkolan_cell_to_bech32m(B(0), B(1)); }

static void cell_from_bech32m(void)
{
    const tishkolan_place_answer answer = tishkolan_cell_from_bech32m(B(0), B(1));

    front[1] = CELL;
    said = answer.refusal;
    fields_hold = answer.place == (said.number < TISHKOLAN_LABEL_PREFIX               ? 0
                                   : said.number == TISHKOLAN_LABEL_CHARACTER ? TISHKOLAN_LABEL_BYTES
                                                                              : length[0]);
}

static uint32_t of_label(void)
{
    if (length[0] < strlen("cx3d1"))
        return TISHKOLAN_LABEL_PREFIX;
    if (length[0] > TISHKOLAN_LABEL_BYTES && current->buffer[0].source == ended_label)
        return TISHKOLAN_LABEL_CHARACTER;
    if (length[0] != TISHKOLAN_LABEL_BYTES)
        return TISHKOLAN_LABEL_LENGTH;
    return length[1] < CELL ? no_room_of(3) : 0;
}

static uint32_t of_points(void)
{
    return length[0] * current->buffer[0].unit < front[0] ? no_room_of(3) : 0;
}

static uint32_t of_cells(void)
{
    for (int place = 0; place < current->buffers; place++)
        if (current->buffer[place].role == GIVEN && length[place] != CELL)
            return TISHKOLAN_BAD_LIST;
    if (current->buffers == 2 && current->buffer[1].role == OUT && length[1] < front[1])
        return no_room_of(3);
    return 0;
}

/* ---- layers */

static size_t least(size_t a, size_t b)
{
    return a < b ? a : b;
}

static size_t room(int place, size_t record)
{
    return least(length[place] / record, MOST_CELLS);
}

static void say_count(tishkolan_count_answer answer, uint64_t refusing)
{
    said = answer.refusal;
    fields_hold = said.number == 0 || answer.count == refusing;
}

/* The cell is kept by every layer that is not empty. */
static void say_kept(tishkolan_kept_answer answer, bool taken)
{
    const bool found = answer.refusal.number == 0 && number[0] > 0;

    said = answer.refusal;
    fields_hold = answer.found == found && answer.count == number[0] - (found && taken) && (found || answer.kept == 0);
}

/* The cell is new to an empty layer, and the one below all others to every layer. */
static void say_set(tishkolan_count_answer answer, size_t record)
{
    const bool is_new = number[0] == 0 || current->buffer[1].source == new_cell;

    say_count(answer, number[0]);
    fields_hold = fields_hold && (said.number != 0 || answer.count == number[0] + is_new);
    front[0] = answer.count * record;
}

static void flags_set(void) { say_set(tishkolan_flags_set(B(0), number[0], B(1), 9), FLAG); }
static void values_set(void) { say_set(tishkolan_values_set(B(0), number[0], B(1), 9), VALUE); }
static void flags_get(void) { say_kept(tishkolan_flags_get(B(0), number[0], B(1)), false); }
static void values_get(void) { say_kept(tishkolan_values_get(B(0), number[0], B(1)), false); }
static void flags_remove(void) { front[0] = number[0] * FLAG; say_kept(tishkolan_flags_remove(B(0), number[0], B(1)), true); }
static void values_remove(void) { front[0] = number[0] * VALUE; say_kept(tishkolan_values_remove(B(0), number[0], B(1)), true); }
static void flags_contains(void) { say_number(tishkolan_flags_contains(B(0), number[0], B(1))); }
static void values_contains(void) { say_number(tishkolan_values_contains(B(0), number[0], B(1))); }
static void flags_count(void) { say_count(tishkolan_flags_count(B(0), number[0]), number[0]); }
static void values_count(void) { say_count(tishkolan_values_count(B(0), number[0]), number[0]); }
static void flags_is_empty(void) { say_number(tishkolan_flags_is_empty(B(0), number[0])); }
static void values_is_empty(void) { say_number(tishkolan_values_is_empty(B(0), number[0])); }
static void flags_clear(void) { front[0] = room(0, FLAG) * FLAG; tishkolan_flags_clear(B(0)); }
static void values_clear(void) { front[0] = room(0, VALUE) * VALUE; tishkolan_values_clear(B(0)); }
static void flags_list(void) { front[1] = number[0] * FLAG; say_count(tishkolan_flags_list(B(0), number[0], B(1)), number[0]); }
static void values_list(void) { front[1] = number[0] * VALUE; say_count(tishkolan_values_list(B(0), number[0], B(1)), number[0]); }
static void aggregate(void) { say_bits(tishkolan_values_aggregate(B(0), number[0], B(1), (uint32_t)number[1])); }

static void rollup(void)
{
    front[1] = room(1, VALUE) * VALUE;
    say_count(tishkolan_values_rollup(B(0), number[0], (uint32_t)number[1], B(1), number[2]), number[2]);
}

static size_t record_of(role role)
{
    return role == FLAGS || role == FLAGS_CHANGED ? FLAG : VALUE;
}

/* BAD_LIST of the cell or list behind the table, then BAD_LAYER. */
static uint32_t of_layer(void)
{
    const lent *second = &current->buffer[1];

    if (current->buffers > 1 && second->role == GIVEN && (second->source == list ? length[1] % CELL != 0 : length[1] != CELL))
        return TISHKOLAN_BAD_LIST;
    return number[0] > room(0, record_of(current->buffer[0].role)) ? TISHKOLAN_BAD_LAYER : 0;
}

static uint32_t of_set(void)
{
    const uint32_t due = of_layer();
    const size_t whole = room(0, record_of(current->buffer[0].role));

    return due == 0 && number[0] == whole && (current->buffer[1].source == new_cell || whole == 0) ? no_room_of(4) : due;
}

static uint32_t of_list(void)
{
    const uint32_t due = of_layer();

    return due == 0 && length[1] < front[1] ? no_room_of(3) : due;
}

static uint32_t of_clear(void)
{
    return 0;
}

static uint32_t of_aggregate(void)
{
    const uint32_t due = of_layer();

    if (due != 0)
        return due;
    if (number[1] > TISHKOLAN_MEDIAN)
        return TISHKOLAN_OUT_OF_RANGE;
    return least(number[0], length[1] / CELL) == 0 ? TISHKOLAN_NO_VALUES : 0;
}

static uint32_t of_rollup(void)
{
    if (number[0] > room(0, VALUE))
        return TISHKOLAN_BAD_LAYER;
    if (number[1] > TISHKOLAN_MEDIAN)
        return TISHKOLAN_OUT_OF_RANGE;
    return parents[number[0]] > room(1, VALUE) ? no_room_of(4) : 0;
}

/* ---- survey files */

static void survey_load(void)
{
    const tishkolan_load_answer answer = tishkolan_survey_load(B(0), B(1), number[0], B(2), number[1]);

    front[1] = room(1, FLAG) * FLAG;
    front[2] = room(2, VALUE) * VALUE;
    said = answer.refusal;
    fields_hold = answer.place == (said.number != TISHKOLAN_BAD_FILE ? 0 : length[0] == FILE_BYTES ? LAST_RECORD : least(length[0], FILE_BYTES))
        && answer.flags == (said.number == 0 ? 3 : number[0]) && answer.values == (said.number == 0 ? 3 : number[1]);
}

static uint32_t of_load(void)
{
    if (length[0] != FILE_BYTES || current->buffer[0].source == doubled_file)
        return TISHKOLAN_BAD_FILE;
    return room(1, FLAG) < 3 || room(2, VALUE) < 3 ? no_room_of(4) : 0;
}

static void survey_write(void)
{
    const tishkolan_length_answer answer = tishkolan_survey_write(B(0), number[0], B(1), number[1], B(2));

    front[2] = 16 + number[0] * FLAG + number[1] * VALUE;
    said = answer.refusal;
    fields_hold = answer.length == (said.number == 0 ? front[2] : 0);
}

static uint32_t of_write(void)
{
    if (number[0] > room(0, FLAG) || number[1] > room(1, VALUE))
        return TISHKOLAN_BAD_LAYER;
    return length[2] < front[2] ? no_room_of(3) : 0;
}

/* ---- lines and rings */

static void line(void)
{
    front[2] = 3 * CELL;
    say_count(tishkolan_trace_line(B(0), B(1), B(2)), 0);
}

static uint32_t of_line(void)
{
    if (length[0] != CELL || length[1] != CELL)
        return TISHKOLAN_BAD_LIST;
    return length[2] < front[2] ? no_room_of(3) : 0;
}

static void ring(void)
{
    front[2] = number[0] == 0 ? CELL : RING * CELL;
    say_count(tishkolan_k_ring(B(0), number[0], number[1], number[2], B(1), B(2)), 0);
}

static void shell(void)
{
    front[2] = number[0] == 0 ? CELL : (RING - 1) * CELL;
    say_count(tishkolan_k_shell(B(0), number[0], number[1], number[2], B(1), B(2)), 0);
}

static bool is_room(uint64_t rooms)
{
    return 1 <= rooms && rooms <= 65536;
}

/* So many neighbours of the one cell that is known and waits no more: each takes a known room, then a waiting one. */
static uint32_t of_neighbors(uint64_t neighbors, uint64_t known, uint64_t waiting)
{
    for (uint64_t seen = 1; seen <= neighbors; seen++) {
        if (known < 1 + seen)
            return no_room_of(1);
        if (waiting < seen)
            return no_room_of(2);
    }
    return 0;
}

static uint32_t of_ring(void)
{
    const uint64_t k = number[0], known = number[1], waiting = number[2];
    const bool whole = current->make == ring;
    uint32_t due;

    if (!is_room(known) || !is_room(waiting) || length[1] < TISHKOLAN_RING_BYTES(known))
        return TISHKOLAN_BAD_WORKSPACE;
    if (length[0] != CELL)
        return TISHKOLAN_BAD_LIST;
    if ((whole || k == 0) && length[2] < CELL)
        return no_room_of(3);
    if (k == 0)
        return 0;
    due = of_neighbors(TISHKOLAN_NEIGHBORS, known, waiting);
    if (due != 0)
        return due;
    if (k > 1)
        return ANY;
    return length[2] < front[2] ? no_room_of(3) : 0;
}

/* ---- routes */

static uint32_t verdict_due(size_t route_length, size_t start_length, size_t goal_length, int flags)
{
    if (route_length % CELL != 0 || start_length != CELL || goal_length != CELL)
        return TISHKOLAN_BAD_LIST;
    if (number[0] > room(flags, FLAG))
        return TISHKOLAN_BAD_LAYER;
    if (number[1] > TISHKOLAN_AVOIDING)
        return TISHKOLAN_BAD_RULE;
    if (route_length == 0)
        return TISHKOLAN_EMPTY_ROUTE;
    return route_length == ROUTE * CELL ? TISHKOLAN_ACCEPTED : TISHKOLAN_WRONG_GOAL;
}

static void verdict(void)
{
    said.number = tishkolan_route_verdict(B(0), B(1), B(2), route_cost, B(3), number[0], (uint32_t)number[1]);
}

static uint32_t of_verdict(void)
{
    return verdict_due(length[0], length[1], length[2], 3);
}

/* A choice is no refusal; it stands in `fields_hold`. */
static void choice(void)
{
    const uint32_t chosen = tishkolan_route_choice(B(0), B(1), B(2), route_cost, B(3), B(4), B(5), route_cost, B(6), number[0], (uint32_t)number[1]);
    const uint32_t due = verdict_due(length[0], length[1], length[2], 6) == 0   ? TISHKOLAN_SENT
                         : verdict_due(length[3], length[4], length[5], 6) == 0 ? TISHKOLAN_HOMING
                                                                                : TISHKOLAN_NEITHER;

    fields_hold = chosen == due;
}

/* ---- the search: one step, most of the start's neighbours being blocked */

static uint64_t limit_given;

static void say_search(tishkolan_search_answer answer)
{
    const bool found = answer.refusal.number == 0, exceeded = answer.refusal.number == TISHKOLAN_SEARCH_LIMIT_EXCEEDED;

    front[5] = 2 * CELL;
    said = answer.refusal;
    fields_hold = answer.cells == (found ? 2 : 0) && answer.cost == (found ? 0x3FFBB67AE8584CAA : 0)
        && answer.expansions == (found ? 2 : exceeded ? limit_given + 1 : 0) && answer.limit == (exceeded ? limit_given : 0)
        && answer.start_high == 0 && answer.start_low == 0 && answer.goal_high == 0 && answer.goal_low == 0;
}

static void search_limit(void)
{
    limit_given = number[4];
    say_search(tishkolan_astar_with_limit(B(0), B(1), B(2), number[0], (uint32_t)number[1], number[4], number[2], number[3], B(3), B(4), B(5)));
}

static void search(void)
{
    limit_given = 100000;
    say_search(tishkolan_astar(B(0), B(1), B(2), number[0], (uint32_t)number[1], number[2], number[3], B(3), B(4), B(5)));
}

static uint32_t of_search(void)
{
    const uint64_t known = number[2], waiting = number[3];
    uint32_t due;

    if (!is_room(known) || !is_room(waiting) || length[3] < TISHKOLAN_SEARCH_KNOWN_BYTES(known)
        || length[4] < TISHKOLAN_SEARCH_WAITING_BYTES(waiting))
        return TISHKOLAN_BAD_WORKSPACE;
    if (length[0] != CELL || length[1] != CELL)
        return TISHKOLAN_BAD_LIST;
    if (number[0] > room(2, FLAG))
        return TISHKOLAN_BAD_LAYER;
    if (number[1] > TISHKOLAN_AVOIDING)
        return TISHKOLAN_BAD_RULE;
    if (limit_given == 0)
        return TISHKOLAN_SEARCH_LIMIT_EXCEEDED;
    due = of_neighbors(TISHKOLAN_NEIGHBORS - (number[1] == TISHKOLAN_AVOIDING ? least(number[0], SHUT) : 0), known, waiting);
    if (due != 0)
        return due;
    if (limit_given == 1)
        return TISHKOLAN_SEARCH_LIMIT_EXCEEDED;
    return length[5] < 2 * CELL ? no_room_of(3) : 0;
}

/* ---- the calls, as the header has them */

#define N(name) ((uint64_t)1 << TISHKOLAN_##name)
#define ONE(source) {GIVEN, 1, source, CELL, -1}
#define NAME(source) {GIVEN, 1, source, TISHKOLAN_LABEL_BYTES, -1}
#define OF_LABEL (N(LABEL_PREFIX) | N(LABEL_MIXED_CASE) | N(LABEL_CHARACTER) | N(LABEL_LENGTH) | N(LABEL_CHECKSUM) | N(LABEL_PADDING))
#define LAYER(role, source, which) {role, 1, source, 6 * VALUE, which}
#define TO(elements, size) {OUT, size, pattern, elements, -1}
#define IN(bytes) {SPACE, 1, pattern, bytes, -1}
#define WITH(number_) .numbers = number_, .number =
#define LENT(buffers_) .buffers = buffers_, .buffer =

static const call all[] = {
    {"lattice_neighbors", lattice_neighbors, of_points, N(INVALID_PARITY) | N(COORD_OVERFLOW) | N(NO_ROOM), LENT(1){TO(42, 4)}, .numbers = 0},
    {"lattice_children", lattice_children, of_points, N(INVALID_PARITY) | N(COORD_OVERFLOW) | N(NO_ROOM), LENT(1){TO(24, 4)}, .numbers = 0},
    {"cell_new", cell_new, of_points, N(INVALID_PARITY) | N(NO_ROOM), LENT(1){TO(CELL, 1)}, .numbers = 0},
    {"cell_from_coords", cell_from_coords, of_points, N(INVALID_PARITY) | N(NO_ROOM), LENT(1){TO(CELL, 1)}, .numbers = 0},
    {"cell_fields", cell_fields, of_cells, N(BAD_LIST), LENT(1){ONE(first_cell)}, .numbers = 0},
    {"cell_lattice_coord", cell_lattice_coord, of_cells, N(BAD_LIST) | N(INVALID_PARITY), LENT(1){ONE(first_cell)}, .numbers = 0},
    {"cell_compare", cell_compare, of_cells, N(BAD_LIST), LENT(2){ONE(first_cell), ONE(second_cell)}, .numbers = 0},
    {"cell_is_plain", cell_is_plain, of_cells, N(BAD_LIST), LENT(1){ONE(first_cell)}, .numbers = 0},
    {"cell_neighbors", cell_neighbors, of_cells, N(BAD_LIST) | N(INVALID_PARITY) | N(COORD_OVERFLOW) | N(NO_ROOM), LENT(2){ONE(first_cell), TO(14 * CELL, 1)}, .numbers = 0},
    {"cell_children", cell_children, of_cells, N(BAD_LIST) | N(NO_CHILDREN) | N(INVALID_PARITY) | N(COORD_OVERFLOW) | N(NO_ROOM), LENT(2){ONE(first_cell), TO(8 * CELL, 1)}, .numbers = 0},
    {"cell_parent", cell_parent, of_cells, N(BAD_LIST) | N(NO_PARENT) | N(INVALID_PARITY) | N(NO_ROOM), LENT(2){ONE(first_cell), TO(CELL, 1)}, .numbers = 0},
    {"cell_ancestor", cell_ancestor, of_cells, N(BAD_LIST) | N(NO_PARENT) | N(INVALID_PARITY) | N(NO_ROOM), LENT(2){ONE(first_cell), TO(CELL, 1)}, .numbers = 0},
    {"cell_ancestor, its own", cell_itself, of_cells, N(BAD_LIST) | N(NO_PARENT) | N(INVALID_PARITY) | N(NO_ROOM), LENT(2){ONE(first_cell), TO(CELL, 1)}, .numbers = 0},
    {"cell_between", cell_between, of_cells, N(BAD_LIST) | N(INVALID_PARITY) | N(COORD_OVERFLOW), LENT(2){ONE(first_cell), ONE(second_cell)}, .numbers = 0},
    {"cell_distance", cell_distance, of_cells, N(BAD_LIST) | N(INVALID_PARITY) | N(COORD_OVERFLOW), LENT(2){ONE(first_cell), ONE(second_cell)}, .numbers = 0},
    {"cell_manhattan_distance", cell_manhattan, of_cells, N(BAD_LIST) | N(INVALID_PARITY) | N(COORD_OVERFLOW), LENT(2){ONE(first_cell), ONE(second_cell)}, .numbers = 0},
    {"cell_to_bech32m", cell_to_bech32m, of_cells, N(BAD_LIST) | N(NO_ROOM), LENT(2){ONE(first_cell), TO(TISHKOLAN_LABEL_BYTES, 1)}, .numbers = 0},
    {"cell_from_bech32m", cell_from_bech32m, of_label, OF_LABEL | N(NO_ROOM), LENT(2){NAME(label), TO(CELL, 1)}, .numbers = 0},
    {"cell_from_bech32m, nothing behind it", cell_from_bech32m, of_label, OF_LABEL | N(NO_ROOM), LENT(2){NAME(ended_label), TO(CELL, 1)}, .numbers = 0},

    {"flags_set", flags_set, of_set, N(BAD_LIST) | N(BAD_LAYER) | N(NO_ROOM), LENT(2){LAYER(FLAGS_CHANGED, flag_table, 0), ONE(first_cell)}, WITH(1){{COUNT, 3}}},
    {"flags_set, a new cell", flags_set, of_set, N(BAD_LIST) | N(BAD_LAYER) | N(NO_ROOM), LENT(2){LAYER(FLAGS_CHANGED, flag_table, 0), ONE(new_cell)}, WITH(1){{COUNT, 3}}},
    {"flags_get", flags_get, of_layer, N(BAD_LIST) | N(BAD_LAYER), LENT(2){LAYER(FLAGS, flag_table, 0), ONE(first_cell)}, WITH(1){{COUNT, 3}}},
    {"flags_remove", flags_remove, of_layer, N(BAD_LIST) | N(BAD_LAYER), LENT(2){LAYER(FLAGS_CHANGED, flag_table, 0), ONE(first_cell)}, WITH(1){{COUNT, 3}}},
    {"flags_contains", flags_contains, of_layer, N(BAD_LIST) | N(BAD_LAYER), LENT(2){LAYER(FLAGS, flag_table, 0), ONE(first_cell)}, WITH(1){{COUNT, 3}}},
    {"flags_count", flags_count, of_layer, N(BAD_LAYER), LENT(1){LAYER(FLAGS, flag_table, 0)}, WITH(1){{COUNT, 3}}},
    {"flags_is_empty", flags_is_empty, of_layer, N(BAD_LAYER), LENT(1){LAYER(FLAGS, flag_table, 0)}, WITH(1){{COUNT, 3}}},
    {"flags_clear", flags_clear, of_clear, 0, LENT(1){{TARGET, 1, flag_table, 6 * VALUE, -1}}, .numbers = 0},
    {"flags_list", flags_list, of_list, N(BAD_LAYER) | N(NO_ROOM), LENT(2){LAYER(FLAGS, flag_table, 0), TO(20 * FLAG, 1)}, WITH(1){{COUNT, 3}}},
    {"values_set", values_set, of_set, N(BAD_LIST) | N(BAD_LAYER) | N(NO_ROOM), LENT(2){LAYER(VALUES_CHANGED, value_table, 0), ONE(first_cell)}, WITH(1){{COUNT, 3}}},
    {"values_set, a new cell", values_set, of_set, N(BAD_LIST) | N(BAD_LAYER) | N(NO_ROOM), LENT(2){LAYER(VALUES_CHANGED, value_table, 0), ONE(new_cell)}, WITH(1){{COUNT, 3}}},
    {"values_get", values_get, of_layer, N(BAD_LIST) | N(BAD_LAYER), LENT(2){LAYER(VALUES, value_table, 0), ONE(first_cell)}, WITH(1){{COUNT, 3}}},
    {"values_remove", values_remove, of_layer, N(BAD_LIST) | N(BAD_LAYER), LENT(2){LAYER(VALUES_CHANGED, value_table, 0), ONE(first_cell)}, WITH(1){{COUNT, 3}}},
    {"values_contains", values_contains, of_layer, N(BAD_LIST) | N(BAD_LAYER), LENT(2){LAYER(VALUES, value_table, 0), ONE(first_cell)}, WITH(1){{COUNT, 3}}},
    {"values_count", values_count, of_layer, N(BAD_LAYER), LENT(1){LAYER(VALUES, value_table, 0)}, WITH(1){{COUNT, 3}}},
    {"values_is_empty", values_is_empty, of_layer, N(BAD_LAYER), LENT(1){LAYER(VALUES, value_table, 0)}, WITH(1){{COUNT, 3}}},
    {"values_clear", values_clear, of_clear, 0, LENT(1){{TARGET, 1, value_table, 6 * VALUE, -1}}, .numbers = 0},
    {"values_list", values_list, of_list, N(BAD_LAYER) | N(NO_ROOM), LENT(2){LAYER(VALUES, value_table, 0), TO(20 * VALUE, 1)}, WITH(1){{COUNT, 3}}},

    {"values_aggregate", aggregate, of_aggregate, N(BAD_LIST) | N(BAD_LAYER) | N(OUT_OF_RANGE) | N(NO_VALUES) | N(HAS_NAN),
     LENT(2){LAYER(VALUES, value_table, 0), {GIVEN, 1, list, 5 * CELL, -1}}, WITH(2){{COUNT, 3}, {HOW, TISHKOLAN_MEDIAN}}},
    {"values_rollup", rollup, of_rollup, N(BAD_LAYER) | N(OUT_OF_RANGE) | N(HAS_NAN) | N(NO_ROOM),
     LENT(2){LAYER(VALUES, value_table, 0), {TARGET, 1, pattern, 6 * VALUE, -1}}, WITH(3){{COUNT, 3}, {HOW, TISHKOLAN_SUM}, {COUNT, 77}}},
    {"survey_load", survey_load, of_load, N(BAD_FILE) | N(NO_ROOM),
     LENT(3){{GIVEN, 1, file, FILE_BYTES, -1}, {TARGET, 1, pattern, 6 * FLAG, -1}, {TARGET, 1, pattern, 6 * VALUE, -1}}, WITH(2){{COUNT, 77}, {COUNT, 78}}},
    {"survey_load, a cell twice", survey_load, of_load, N(BAD_FILE) | N(NO_ROOM),
     LENT(3){{GIVEN, 1, doubled_file, FILE_BYTES, -1}, {TARGET, 1, pattern, 6 * FLAG, -1}, {TARGET, 1, pattern, 6 * VALUE, -1}}, WITH(2){{COUNT, 77}, {COUNT, 78}}},
    {"survey_write", survey_write, of_write, N(BAD_LAYER) | N(NO_ROOM),
     LENT(3){LAYER(FLAGS, flag_table, 0), LAYER(VALUES, value_table, 1), TO(1024, 1)}, WITH(2){{COUNT, 3}, {COUNT, 3}}},

    {"trace_line", line, of_line, N(BAD_LIST) | N(INVALID_PARITY) | N(COORD_OVERFLOW) | N(NO_ROOM),
     LENT(3){ONE(first_cell), ONE(line_end), TO(3 * CELL, 1)}, .numbers = 0},
    {"k_ring", ring, of_ring, N(BAD_WORKSPACE) | N(BAD_LIST) | N(INVALID_PARITY) | N(COORD_OVERFLOW) | N(NO_ROOM),
     LENT(3){ONE(first_cell), IN(TISHKOLAN_RING_BYTES(RING)), TO(RING * CELL, 1)}, WITH(3){{STEPS, 1}, {ROOM, RING}, {ROOM, RING - 1}}},
    {"k_shell", shell, of_ring, N(BAD_WORKSPACE) | N(BAD_LIST) | N(INVALID_PARITY) | N(COORD_OVERFLOW) | N(NO_ROOM),
     LENT(3){ONE(first_cell), IN(TISHKOLAN_RING_BYTES(RING)), TO(RING * CELL, 1)}, WITH(3){{STEPS, 1}, {ROOM, RING}, {ROOM, RING - 1}}},

    {"route_verdict", verdict, of_verdict, N(BAD_LIST) | N(BAD_LAYER) | N(BAD_RULE) | N(EMPTY_ROUTE) | N(WRONG_GOAL),
     LENT(4){{GIVEN, 1, route, ROUTE * CELL, -1}, ONE(first_cell), ONE(route_goal), LAYER(FLAGS, flag_table, 0)}, WITH(2){{COUNT, 3}, {RULE, TISHKOLAN_AVOIDING}}},
    {"route_choice", choice, of_clear, 0,
     LENT(7){{GIVEN, 1, route, ROUTE * CELL, -1}, ONE(first_cell), ONE(route_goal), {GIVEN, 1, route, ROUTE * CELL, -1}, ONE(first_cell), ONE(route_goal), LAYER(FLAGS, flag_table, 0)},
     WITH(2){{COUNT, 3}, {RULE, TISHKOLAN_AVOIDING}}},

    {"astar_with_limit", search_limit, of_search,
     N(BAD_WORKSPACE) | N(BAD_LIST) | N(BAD_LAYER) | N(BAD_RULE) | N(INVALID_PARITY) | N(COORD_OVERFLOW) | N(SEARCH_LIMIT_EXCEEDED) | N(NO_ROOM) | N(NO_PATH_FOUND),
     LENT(6){ONE(first_cell), ONE(near_cell), {FLAGS, 1, shut_table, SHUT * FLAG, 0}, IN(TISHKOLAN_SEARCH_KNOWN_BYTES(KNOWN)),
             IN(TISHKOLAN_SEARCH_WAITING_BYTES(WAITING)), TO(2 * CELL, 1)},
     WITH(5){{COUNT, SHUT}, {RULE, TISHKOLAN_AVOIDING}, {ROOM, KNOWN}, {ROOM, WAITING}, {LIMIT, 2}}},
    {"astar", search, of_search,
     N(BAD_WORKSPACE) | N(BAD_LIST) | N(BAD_LAYER) | N(BAD_RULE) | N(INVALID_PARITY) | N(COORD_OVERFLOW) | N(NO_ROOM) | N(NO_PATH_FOUND),
     LENT(6){ONE(first_cell), ONE(near_cell), {FLAGS, 1, shut_table, SHUT * FLAG, 0}, IN(TISHKOLAN_SEARCH_KNOWN_BYTES(KNOWN)),
             IN(TISHKOLAN_SEARCH_WAITING_BYTES(WAITING)), TO(2 * CELL, 1)},
     WITH(4){{COUNT, SHUT}, {RULE, TISHKOLAN_AVOIDING}, {ROOM, KNOWN}, {ROOM, WAITING}}},
};

/* ---- one call, made and judged */

/* The bytes of a buffer that the call may look at. */
static size_t looked_at(int place)
{
    const lent *buffer = &current->buffer[place];
    const size_t bytes = length[place] * buffer->unit;

    switch (buffer->role) {
    case GIVEN:
        return bytes;
    case FLAGS: case VALUES: case FLAGS_CHANGED: case VALUES_CHANGED: {
        const size_t record = record_of(buffer->role);

        return number[buffer->count] > least(bytes / record, MOST_CELLS) ? bytes : number[buffer->count] * record;
    }
    default:
        return 0;
    }
}

static void judge(void)
{
    const uint32_t due = current->due();
    const bool is_answer = said.number == 0;

    calls++;
    answers += is_answer;
    HOLDS(fields_hold);
    HOLDS(is_answer || (said.number < 64 && (current->refusals >> said.number & 1) != 0));
    HOLDS(due == ANY || said.number + 256 * said.room == due);
    HOLDS((said.room != 0) == (said.number == TISHKOLAN_NO_ROOM) && said.x == 0 && said.y == 0 && said.z == 0);
    for (int place = 0; place < current->buffers; place++) {
        HOLDS(beside_stays(place));
        switch (current->buffer[place].role) {
        case GIVEN: case FLAGS: case VALUES:
            HOLDS(stays(place, 0));
            break;
        case SPACE:
            HOLDS(said.number == TISHKOLAN_BAD_WORKSPACE ? stays(place, 0) : is_zero(place));
            break;
        default:
            HOLDS(stays(place, is_answer ? front[place] : 0));
        }
    }
}

/* Makes the call at `length` and `number`; the buffers of `null` are NULL. */
static void make(placing where, unsigned null)
{
    for (int place = 0; place < current->buffers; place++) {
        const lent *buffer = &current->buffer[place];

        lent_at[place] = lend(place, where, buffer->source, length[place] * buffer->unit);
        hide(place, looked_at(place));
        if ((null >> place & 1) != 0 && length[place] == 0)
            lent_at[place] = NULL;
    }
    memset(&said, 0, sizeof said);
    memset(front, 0, sizeof front);
    fields_hold = true;
    current->make();
    judge();
    for (int place = 0; place < current->buffers; place++)
        take_back(place);
}

static void good(void)
{
    for (int place = 0; place < current->buffers; place++)
        length[place] = current->buffer[place].good;
    for (int place = 0; place < current->numbers; place++)
        number[place] = current->number[place].good;
}

/* What a number may be, beside its good value; how many. `whole` are the records of its table. */
static int others(kind kind, uint64_t right, size_t whole, uint64_t *to)
{
    const uint64_t counts[] = {0, right, whole, whole + 1, 1024, 1025, SIZE_MAX, SIZE_MAX / FLAG, SIZE_MAX / FLAG + 1, SIZE_MAX / VALUE + 1, (uint64_t)1 << 32, ((uint64_t)1 << 32) + right, (uint64_t)1 << 63};
    const uint64_t rooms[] = {0, 1, 2, right - 1, right, right + 1, 65535, 65536, 65537, ((uint64_t)1 << 32) + right, SIZE_MAX, SIZE_MAX / 44, SIZE_MAX / 44 + 1, SIZE_MAX / 32 + 1};
    const uint64_t steps[] = {0, 1, 2, UINT64_MAX};
    const uint64_t limits[] = {0, 1, 2, 3, UINT64_MAX};
    const uint64_t hows[] = {0, 1, 2, 3, 4, 5, 6, 255, 256, UINT32_MAX};
    const uint64_t rules[] = {0, 1, 2, 255, 256, UINT32_MAX};

#define GIVE(list_)                             \
    memcpy(to, list_, sizeof list_);            \
    return (int)(sizeof list_ / sizeof list_[0])
    switch (kind) {
    case COUNT: GIVE(counts);
    case ROOM: GIVE(rooms);
    case STEPS: GIVE(steps);
    case LIMIT: GIVE(limits);
    case HOW: GIVE(hows);
    default: GIVE(rules);
    }
}

enum { OTHERS = 16 };

/* One buffer at a length, the others at good ones, with every count where it has one. */
static void at_length(placing where, int place, size_t elements)
{
    const int count = current->buffer[place].count;
    uint64_t other[OTHERS];
    const int most = count < 0 ? 1 : others(COUNT, current->number[count].good, elements / record_of(current->buffer[place].role), other);

    good();
    length[place] = elements;
    for (int turn = 0; turn < most; turn++) {
        if (count >= 0)
            number[count] = other[turn];
        make(where, 0);
        if (elements == 0)
            make(where, 1u << place);
    }
}

static void lengths(placing where)
{
    for (int place = 0; place < current->buffers; place++) {
        const lent *buffer = &current->buffer[place];
        const size_t most = buffer->good + 8 > LONGEST ? buffer->good + 8 : LONGEST;

        for (size_t elements = 0; elements <= most; elements++)
            at_length(where, place, elements);
        /* Tables around the most cells that a layer can have. */
        if (buffer->role != GIVEN && buffer->role != OUT && buffer->role != SPACE)
            for (size_t record = FLAG; record <= VALUE; record += VALUE - FLAG)
                for (size_t off = 0; off < 3; off++) {
                    at_length(where, place, MOST_CELLS * record - 1 + off);
                    at_length(where, place, (MOST_CELLS + 1) * record - 1 + off);
                }
    }
    /* No buffer has any bytes; all are NULL. */
    good();
    memset(length, 0, sizeof length);
    make(where, ~0u);
    for (int place = 0; place < current->numbers; place++)
        number[place] = 0;
    make(where, ~0u);
}

/* Every number beside every other one, at good lengths. */
static void numbers(placing where)
{
    for (int first = 0; first < current->numbers; first++)
        for (int second = 0; second <= first; second++) {
            uint64_t one[OTHERS], two[OTHERS];
            const int ones = others(current->number[first].kind, current->number[first].good, 7, one);
            const int twos = others(current->number[second].kind, current->number[second].good, 6, two);

            for (int turn = 0; turn < ones * twos; turn++) {
                good();
                number[second] = two[turn % twos];
                number[first] = one[turn / twos];
                make(where, 0);
            }
        }
}

/* ---- calls that are lent nothing: they return at all limits, and refuse with numbers that the header names */

static void unlent(void)
{
    const int32_t edge[] = {INT32_MIN, INT32_MIN + 1, INT32_MIN + 2, -1073741825, -1073741824, -3, -2, -1, 0, 1, 2, 3, 1073741822, 1073741823, INT32_MAX - 2, INT32_MAX - 1, INT32_MAX};
    const uint64_t bits[] = {0, 1, 0x3FE0000000000000, 0x3FF0000000000000, 0x41DFFFFFFF800000, 0x43F0000000000000, 0x7FEFFFFFFFFFFFFF, 0x7FF0000000000000, 0x7FF8000000000000, UINT64_MAX, 0x8000000000000000, 0xC1E0000000000000};
    const uint32_t words[] = {0, 1, 2, 3, 255, 0x7FFFFFFF, 0x80000000, UINT32_MAX};
    const int edges = sizeof edge / sizeof edge[0], many = sizeof bits / sizeof bits[0];
    enum { ALLOWED = N(ANSWERED) | N(INVALID_PARITY) | N(COORD_OVERFLOW), RANGE = N(ANSWERED) | N(OUT_OF_RANGE) };

    doing = "a call that is lent nothing";
#define AMONG(refusal_, set_) (((uint64_t)(set_) >> (refusal_).number & 1) != 0)
    for (int i = 0; i < edges * edges * edges; i++) {
        const int32_t x = edge[i % edges], y = edge[i / edges % edges], z = edge[i / edges / edges], w = edge[(i * 7 + 3) % edges];
        const bool valid = (x & 1) == (y & 1) && (y & 1) == (z & 1);

        CHECK(tishkolan_is_valid_lattice_point(x, y, z) == valid);
        CHECK((tishkolan_parity(x, y, z).refusal.number == 0) == valid);
        CHECK((tishkolan_lattice_parent(x, y, z).refusal.number == 0) == valid);
        CHECK((tishkolan_to_physical(x, y, z).refusal.number == 0) == valid);
        CHECK(AMONG(tishkolan_lattice_distance(x, y, z, z, w, y).refusal, ALLOWED));
        CHECK(AMONG(tishkolan_lattice_manhattan_distance(x, y, z, y, x, w).refusal, ALLOWED));
        CHECK(AMONG(tishkolan_lattice_neighbors(x, y, z, NULL, 0), N(INVALID_PARITY) | N(COORD_OVERFLOW) | N(NO_ROOM)));
        CHECK(AMONG(tishkolan_lattice_children(x, y, z, NULL, 0), N(INVALID_PARITY) | N(COORD_OVERFLOW) | N(NO_ROOM)));
    }
    for (int i = 0; i < many * many * many; i++) {
        CHECK(AMONG(tishkolan_physical_to_lattice(bits[i % many], bits[i / many % many], bits[i / many / many], (uint8_t)(i * 37)).refusal, RANGE));
        CHECK(AMONG(tishkolan_square_root(bits[i % many] + (uint64_t)(i / many)).refusal, RANGE));
    }
    for (int i = 0; i < 64; i++) {
        const uint32_t flags = words[i % 8], flag = words[i / 8];

        CHECK((tishkolan_opposite(flags).refusal.number == 0) == (flags < 2));
        CHECK(tishkolan_has_flag(flags, flag) == ((flags & flag) != 0) && tishkolan_is_blocked(flags) == ((flags & 1) != 0));
        CHECK(tishkolan_set_flag(flags, flag) == (flags | flag) && tishkolan_clear_flag(flags, flag) == (flags & ~flag));
    }
}

/* ---- what is lent, made */

static cell along(int i)
{
    return at(3, i, i, i % 2 == 0 ? 0 : 1);
}

static void put(uint8_t *to, cell c)
{
    memcpy(to, c.bytes, CELL);
}

/* The blocked neighbours of (0,0,0) other than (1,1,1), ascending, and behind them cells above them all. */
static void shut_in(void)
{
    uint8_t near[TISHKOLAN_NEIGHBORS * CELL];
    int rows = 0;

    CHECK(answered(tishkolan_cell_neighbors(first_cell, CELL, near, sizeof near)));
    while (rows < SHUT) {
        const uint8_t *lowest = NULL;

        for (int i = 0; i < TISHKOLAN_NEIGHBORS; i++) {
            const uint8_t *next = near + i * CELL;

            if (memcmp(next, near_cell, CELL) != 0 && (rows == 0 || memcmp(next, shut_table + (rows - 1) * FLAG, CELL) > 0)
                && (lowest == NULL || memcmp(next, lowest, CELL) < 0))
                lowest = next;
        }
        memcpy(shut_table + rows * FLAG, lowest, CELL);
        shut_table[rows++ * FLAG + 19] = TISHKOLAN_BLOCKED;
    }
    for (unsigned fields = 0x0400; rows < SOURCE / FLAG; rows++, fields++) {
        put(shut_table + rows * FLAG, at((uint8_t)(fields >> 8), -1, -1, -1));
        shut_table[rows * FLAG + 15] = (uint8_t)fields;
        shut_table[rows * FLAG + 19] = TISHKOLAN_BLOCKED;
    }
}

static void lay_sources(void)
{
    double sum = 0.0;

    fill(pattern, sizeof pattern);
    fill(first_cell, SOURCE), fill(second_cell, SOURCE), fill(new_cell, SOURCE), fill(line_end, SOURCE), fill(near_cell, SOURCE), fill(route_goal, SOURCE), fill(file, SOURCE);
    put(first_cell, at(3, 0, 0, 0));
    put(second_cell, at(3, 4, 4, 4));
    put(new_cell, at(3, 0, 0, 0));
    new_cell[15] = 6; /* below all others */
    put(line_end, at(3, 2, 2, 0));
    put(near_cell, at(3, 1, 1, 1));
    put(route_goal, along(ROUTE - 1));
    for (int i = 0; i < SOURCE / VALUE; i++) {
        put(flag_table + i * FLAG, at(3, 2 * i, 0, 0));
        flag_table[i * FLAG + 19] = TISHKOLAN_WATER;
        put(value_table + i * VALUE, at(3, 2 * i, 0, 0));
        value_table[i * VALUE + 16] = 0x40;
        put(list + i * CELL, at(3, 2 * i, 0, 0));
        put(route + i * CELL, along(i));
    }
    for (int i = 0; i + 1 < ROUTE; i++)
        sum += tishkolan_double_of(tishkolan_cell_distance(route + i * CELL, CELL, route + (i + 1) * CELL, CELL).bits);
    route_cost = tishkolan_bits_of(sum);
    memset(label, 'q', SOURCE), fill(ended_label, SOURCE);
    memcpy(label, "cx3d1qqqqqqqqqqqqqqqqqqqqqqqqqqchrr7t", TISHKOLAN_LABEL_BYTES);
    memcpy(ended_label, label, TISHKOLAN_LABEL_BYTES);
    CHECK(tishkolan_survey_write(flag_table, SOURCE, 3, value_table, SOURCE, 3, file, FILE_BYTES).length == FILE_BYTES);
    memcpy(doubled_file, file, SOURCE);
    memcpy(doubled_file + LAST_RECORD, doubled_file + LAST_RECORD - VALUE, CELL);
    /* The parents of a row of cells are a row themselves. */
    for (size_t cells = 1; cells <= MOST_CELLS; cells++) {
        uint8_t parent[CELL], before[CELL] = {0};

        CHECK(answered(tishkolan_cell_parent(list + (cells - 1) * CELL, CELL, parent, CELL)));
        if (cells > 1)
            CHECK(answered(tishkolan_cell_parent(list + (cells - 2) * CELL, CELL, before, CELL)));
        parents[cells] = parents[cells - 1] + (cells == 1 || memcmp(parent, before, CELL) != 0);
    }
    shut_in();
}

int main(int words, char **word)
{
    const bool heap = words > 1 && strcmp(word[1], "heap") == 0;
    const placing from = heap ? ON_HEAP : AT_FRONT, to = heap ? ON_HEAP : AT_END;

    lay_guards();
    lay_sources();
    unlent();
    tell_more = tell;
    for (size_t place = 0; place < sizeof all / sizeof all[0]; place++) {
        current = &all[place];
        doing = current->name;
        must_end_within(300);
        for (placing where = from; where <= to; where++) {
            lengths(where);
            numbers(where);
        }
    }
    printf("lengths: %ld calls (%ld answered), %d claims hold, %d do not\n", calls, answers, passed, failed);
    return failed != 0;
}
