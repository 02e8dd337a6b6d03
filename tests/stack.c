/* How much stack each call takes: every call is made on the stack of a thread of its own, which was painted before, with
 * inputs that take it as deep as was found, and of them the deepest counts. Counted are the call, its arguments and its
 * answer; what an empty function takes in its place is not.
 *
 *   stack    prints a line for each call: its name, and the bytes
 */
#include <pthread.h>
#include <stdio.h>
#include <stdlib.h>

#include "../include/tishkolan.h"

enum {
    CELL = TISHKOLAN_CELL_BYTES,
    FLAG = TISHKOLAN_FLAG_RECORD,
    VALUE = TISHKOLAN_VALUE_RECORD,
    MOST = TISHKOLAN_MOST_CELLS,
    LIST = 2 * MOST, /* more cells than a median gathers */
    ROOM = 4096,
    RING = 6,
    STACK = 1 << 20,
    ABOVE = 1 << 14, /* so much of the stack the thread has used before it comes to the call */
    PAINT = 0xA5
};

/* ---- what the calls are lent; made anew before each */

static uint8_t flags[MOST * FLAG], values[MOST * VALUE], wall[MOST * FLAG], heap_of_values[MOST * VALUE], coarse[MOST * VALUE];
static uint8_t list[LIST * CELL], file[TISHKOLAN_FILE_BYTES], doubled_file[TISHKOLAN_FILE_BYTES], out[TISHKOLAN_FILE_BYTES + ROOM * CELL];
static uint8_t known[TISHKOLAN_SEARCH_KNOWN_BYTES(ROOM)], waiting[TISHKOLAN_SEARCH_WAITING_BYTES(ROOM)];
static uint8_t ring[TISHKOLAN_RING_BYTES(ROOM)];
static uint8_t here[CELL], far[CELL], fine[CELL], odd[CELL], missing[CELL], mixed[CELL], edge[CELL], end[CELL], first[CELL];
static uint8_t label[TISHKOLAN_LABEL_BYTES], mistyped[TISHKOLAN_LABEL_BYTES];
static int32_t numbers[42];
static uint64_t cost;
static size_t file_length, walls;

static void put(uint8_t *at, uint64_t number, int bytes)
{
    while (bytes-- > 0) {
        at[bytes] = (uint8_t)number;
        number >>= 8;
    }
}

/* A cell of frame 0 with marks. */
static void lay(uint8_t *at, int resolution, int32_t x, int32_t y, int32_t z, int marks)
{
    put(at, (uint32_t)z, 4);
    put(at + 4, (uint32_t)y, 4);
    put(at + 8, (uint32_t)x, 4);
    put(at + 12, (uint64_t)marks << 16 | (uint64_t)resolution << 8, 4);
}

static void prepare(void)
{
    lay(here, 3, 0, 0, 0, 0);
    lay(far, 3, 24, 0, 0, 0);
    lay(end, 3, 40, 38, 36, 0);
    lay(fine, 255, 2147483646, -2147483648, 1073741822, 0);
    lay(odd, 255, 2147483647, -2147483647, 1073741823, 0x5A5);
    lay(missing, 3, 0, 0, 8192, 0);
    lay(mixed, 3, 0, 1, 0, 0);
    lay(edge, 3, 2147483646, 0, 0, 0);
    lay(first, 3, 0, 0, 4096, 0);
    memcpy(label, "cx3d1qqqqqq0lllll7qqqqqqs5hqrqq75s4gn", sizeof label);
    memcpy(mistyped, "cx3d1qqqqqq0lllll7qqqqqqs5hqrqq75s4gg", sizeof mistyped);
    for (int i = 0; i < MOST; i++) {
        lay(flags + i * FLAG, 3, 2 * i, 0, 4096, 0); /* far from every route */
        put(flags + i * FLAG + CELL, 1, 4);
        lay(values + i * VALUE, 3, 2 * i, 0, 0, 0);
        put(values + i * VALUE + CELL, tishkolan_bits_of(1000.0 - i), 8);
        /* Twins of one cell: they have one parent, a group of 1,024. */
        lay(heap_of_values + i * VALUE, 3, 0, 0, 0, i);
        put(heap_of_values + i * VALUE + CELL, tishkolan_bits_of((i * 389) % MOST + 0.5), 8);
    }
    /* A wall of two planes before the goal, ascending as its bytes do: what is negative stands behind. */
    walls = 0;
    for (int k = 0; k < 14; k++)
        for (int j = 0; j < 14; j++)
            for (int x = 10; x <= 11; x++) {
                const int y = j < 8 ? j : j - 14, z = k < 8 ? k : k - 14;
                if ((x & 1) == (y & 1) && (x & 1) == (z & 1)) {
                    lay(wall + walls * FLAG, 3, x, y, z, 0);
                    put(wall + walls++ * FLAG + CELL, 1, 4);
                }
            }
    for (int i = 0; i < LIST; i++)
        memcpy(list + i * CELL, values + (i * 389) % MOST * VALUE, CELL);

    /* A file of 1,024 records of each kind, and one whose last cell is the one before it again. */
    file_length = sizeof file;
    put(file, 1, 2);
    put(file + 2, MOST, 2);
    put(file + 4, MOST, 2);
    put(file + 6, 0, 2);
    put(file + 8, 16, 4);
    put(file + 12, 16 + MOST * FLAG, 4);
    memcpy(file + 16, flags, sizeof flags);
    memcpy(file + 16 + sizeof flags, values, sizeof values);
    memcpy(doubled_file, file, sizeof file);
    memcpy(doubled_file + sizeof file - VALUE, doubled_file + sizeof file - 2 * VALUE, CELL);
}

/* A route of 1,024 cells along x in `list`, and its cost. */
static void lay_route(void)
{
    for (int i = 0; i < MOST; i++)
        lay(list + i * CELL, 3, 2 * i, 0, 0, 0);
    lay(here, 3, 0, 0, 0, 0);
    lay(end, 3, 2 * (MOST - 1), 0, 0, 0);
    cost = tishkolan_bits_of(2.0 * (MOST - 1));
}

/* ---- the calls, each on a stack of its own */

typedef struct {
    const char *name;
    void (*make)(void);
} measured;

static measured calls[256];
static int call_count;

static void note(const char *name, void (*make)(void))
{
    calls[call_count++] = (measured){name, make};
}

#define JOINED(a, b) a##b
#define JOIN(a, b) JOINED(a, b)
#define CALL(function, ...)                                                    \
    static void JOIN(make_, __LINE__)(void)                                    \
    {                                                                          \
        (void)function(__VA_ARGS__);                                           \
    }                                                                          \
    __attribute__((constructor)) static void JOIN(note_, __LINE__)(void)       \
    {                                                                          \
        note(#function, JOIN(make_, __LINE__));                                \
    }

#define WHOLE(buffer) buffer, sizeof buffer
#define ROOMS ROOM, ROOM, known, sizeof known, waiting, sizeof waiting, out, sizeof out

CALL(tishkolan_version, )
CALL(tishkolan_square_root, 0x4000000000000000)
CALL(tishkolan_square_root, 0x43E0000000000001)
CALL(tishkolan_square_root, 0x43EFFFFFFFFFFFFF)
CALL(tishkolan_square_root, 0x7FF8000000000000)
CALL(tishkolan_parity, 3, -5, 7)
CALL(tishkolan_parity, 0, 1, 0)
CALL(tishkolan_opposite, 1)
CALL(tishkolan_opposite, 7)
CALL(tishkolan_is_valid_lattice_point, 3, -5, 7)
CALL(tishkolan_lattice_neighbors, 3, -5, 7, numbers, 42)
CALL(tishkolan_lattice_neighbors, 0, 1, 0, numbers, 42)
CALL(tishkolan_lattice_neighbors, 3, -5, 7, numbers, 41)
CALL(tishkolan_lattice_children, 3, -5, 7, numbers, 42)
CALL(tishkolan_lattice_children, 0, 1, 0, numbers, 42)
CALL(tishkolan_lattice_children, 3, -5, 7, numbers, 0)
CALL(tishkolan_lattice_parent, 3, -5, 7)
CALL(tishkolan_lattice_parent, 4, 2, 2)
CALL(tishkolan_lattice_parent, 0, 1, 0)
CALL(tishkolan_physical_to_lattice, 0x3FB999999999999A, 0x3FC3333333333333, 0xBFC3333333333333, 3)
CALL(tishkolan_physical_to_lattice, 0x0000000000000001, 0x3FE0000000000000, 0xBFE0000000000000, 255)
CALL(tishkolan_physical_to_lattice, 0x7FF8000000000000, 0, 0, 0)
CALL(tishkolan_to_physical, 3, -5, 7)
CALL(tishkolan_to_physical, 0, 1, 0)
CALL(tishkolan_lattice_distance, 3, -5, 7, -2000000000, 4, 6)
CALL(tishkolan_lattice_distance, 3, -5, 7, 0, 1, 0)
CALL(tishkolan_lattice_distance, -2147483648, 0, 0, 2147483646, 0, 0)
CALL(tishkolan_lattice_manhattan_distance, 3, -5, 7, -2000000000, 4, 6)
CALL(tishkolan_lattice_manhattan_distance, 3, -5, 7, 0, 1, 0)
CALL(tishkolan_cell_new, 1, 2, 3, -5, 7, 28, 165, WHOLE(out))
CALL(tishkolan_cell_new, 1, 2, 0, 1, 0, 28, 165, WHOLE(out))
CALL(tishkolan_cell_from_coords, 1, 2, 3, -5, 7, WHOLE(out))
CALL(tishkolan_cell_from_coords, 1, 2, 0, 1, 0, WHOLE(out))
CALL(tishkolan_cell_fields, WHOLE(odd))
CALL(tishkolan_cell_fields, odd, 3)
CALL(tishkolan_cell_lattice_coord, WHOLE(odd))
CALL(tishkolan_cell_lattice_coord, WHOLE(mixed))
CALL(tishkolan_cell_compare, WHOLE(odd), WHOLE(fine))
CALL(tishkolan_cell_compare, WHOLE(odd), fine, 3)
CALL(tishkolan_cell_is_plain, WHOLE(odd))
CALL(tishkolan_cell_neighbors, WHOLE(here), WHOLE(out))
CALL(tishkolan_cell_neighbors, WHOLE(mixed), WHOLE(out))
CALL(tishkolan_cell_neighbors, WHOLE(here), out, 7)
CALL(tishkolan_cell_children, WHOLE(here), WHOLE(out))
CALL(tishkolan_cell_children, WHOLE(mixed), WHOLE(out))
CALL(tishkolan_cell_children, WHOLE(here), out, 7)
CALL(tishkolan_cell_parent, WHOLE(fine), WHOLE(out))
CALL(tishkolan_cell_parent, WHOLE(odd), WHOLE(out))
CALL(tishkolan_cell_parent, WHOLE(mixed), WHOLE(out))
CALL(tishkolan_cell_ancestor, WHOLE(fine), 0, WHOLE(out))
CALL(tishkolan_cell_ancestor, WHOLE(odd), 0, WHOLE(out))
CALL(tishkolan_cell_ancestor, WHOLE(odd), 0, out, 7)
CALL(tishkolan_cell_ancestor, WHOLE(mixed), 0, WHOLE(out))
CALL(tishkolan_cell_between, WHOLE(here), WHOLE(far))
CALL(tishkolan_cell_between, WHOLE(here), WHOLE(mixed))
CALL(tishkolan_cell_distance, WHOLE(here), WHOLE(end))
CALL(tishkolan_cell_distance, WHOLE(here), WHOLE(mixed))
CALL(tishkolan_cell_manhattan_distance, WHOLE(here), WHOLE(end))
CALL(tishkolan_cell_manhattan_distance, WHOLE(here), WHOLE(mixed))
CALL(tishkolan_cell_to_bech32m, WHOLE(odd), WHOLE(out))
CALL(tishkolan_cell_to_bech32m, WHOLE(odd), out, 7)
CALL(tishkolan_cell_to_bech32m, odd, 3, WHOLE(out))
CALL(tishkolan_cell_from_bech32m, WHOLE(label), WHOLE(out))
CALL(tishkolan_cell_from_bech32m, WHOLE(label), out, 7)
CALL(tishkolan_cell_from_bech32m, WHOLE(mistyped), WHOLE(out))
CALL(tishkolan_cell_from_bech32m, label, 3, WHOLE(out))
CALL(tishkolan_cell_from_bech32m, label, 30, WHOLE(out))
CALL(tishkolan_has_flag, 5, 1)
CALL(tishkolan_set_flag, 4, 1)
CALL(tishkolan_clear_flag, 5, 1)
CALL(tishkolan_is_blocked, 5)
CALL(tishkolan_flags_set, WHOLE(flags), MOST - 1, WHOLE(here), 1)
CALL(tishkolan_flags_set, WHOLE(flags), MOST, WHOLE(here), 1)
CALL(tishkolan_flags_set, WHOLE(flags), MOST - 1, WHOLE(missing), 1)
CALL(tishkolan_flags_get, WHOLE(flags), MOST, flags + 20 * 700, CELL)
CALL(tishkolan_flags_get, WHOLE(flags), MOST, WHOLE(missing))
CALL(tishkolan_flags_get, WHOLE(flags), MOST + 1, WHOLE(missing))
CALL(tishkolan_flags_remove, WHOLE(flags), MOST, WHOLE(first))
CALL(tishkolan_flags_remove, WHOLE(flags), MOST, WHOLE(missing))
CALL(tishkolan_flags_contains, WHOLE(flags), MOST, WHOLE(missing))
CALL(tishkolan_flags_contains, WHOLE(flags), MOST, flags + 20 * 700, CELL)
CALL(tishkolan_flags_count, WHOLE(flags), MOST)
CALL(tishkolan_flags_count, WHOLE(flags), MOST + 1)
CALL(tishkolan_flags_is_empty, WHOLE(flags), MOST)
CALL(tishkolan_flags_clear, WHOLE(flags))
CALL(tishkolan_flags_list, WHOLE(flags), MOST, WHOLE(out))
CALL(tishkolan_flags_list, WHOLE(flags), MOST, out, 7)
CALL(tishkolan_values_set, WHOLE(values), MOST - 1, WHOLE(missing), 1)
CALL(tishkolan_values_set, WHOLE(values), MOST, WHOLE(missing), 1)
CALL(tishkolan_values_get, WHOLE(values), MOST, WHOLE(far))
CALL(tishkolan_values_get, WHOLE(values), MOST, WHOLE(missing))
CALL(tishkolan_values_remove, WHOLE(values), MOST, WHOLE(far))
CALL(tishkolan_values_contains, WHOLE(values), MOST, WHOLE(far))
CALL(tishkolan_values_contains, WHOLE(values), MOST, WHOLE(missing))
CALL(tishkolan_values_count, WHOLE(values), MOST)
CALL(tishkolan_values_is_empty, WHOLE(values), MOST)
CALL(tishkolan_values_clear, WHOLE(values))
CALL(tishkolan_values_list, WHOLE(values), MOST, WHOLE(out))
CALL(tishkolan_values_list, WHOLE(values), MOST, out, 7)
CALL(tishkolan_values_aggregate, WHOLE(values), MOST, list, MOST * CELL, TISHKOLAN_COUNT)
CALL(tishkolan_values_aggregate, WHOLE(values), MOST, list, MOST * CELL, TISHKOLAN_SUM)
CALL(tishkolan_values_aggregate, WHOLE(values), MOST, list, MOST * CELL, TISHKOLAN_MEAN)
CALL(tishkolan_values_aggregate, WHOLE(values), MOST, list, MOST * CELL, TISHKOLAN_MIN)
CALL(tishkolan_values_aggregate, WHOLE(values), MOST, list, MOST * CELL, TISHKOLAN_MAX)
CALL(tishkolan_values_aggregate, WHOLE(values), MOST, list, MOST * CELL, TISHKOLAN_MEDIAN)
CALL(tishkolan_values_aggregate, WHOLE(values), MOST, list, (MOST - 1) * CELL, TISHKOLAN_MEDIAN)
CALL(tishkolan_values_aggregate, WHOLE(values), MOST, WHOLE(list), TISHKOLAN_MEDIAN)
CALL(tishkolan_values_rollup, WHOLE(values), MOST, TISHKOLAN_MEAN, WHOLE(coarse), 0)
CALL(tishkolan_values_rollup, WHOLE(values), MOST, TISHKOLAN_MEDIAN, WHOLE(coarse), 0)
CALL(tishkolan_values_rollup, WHOLE(heap_of_values), MOST, TISHKOLAN_MEDIAN, WHOLE(coarse), 0)
CALL(tishkolan_values_rollup, WHOLE(heap_of_values), MOST - 1, TISHKOLAN_MEDIAN, WHOLE(coarse), 0)
CALL(tishkolan_values_rollup, WHOLE(values), MOST, TISHKOLAN_MEDIAN, coarse, 24, 0)
CALL(tishkolan_survey_load, file, file_length, WHOLE(flags), 0, WHOLE(values), 0)
CALL(tishkolan_survey_load, file, file_length, flags, 20, 0, WHOLE(values), 0)
CALL(tishkolan_survey_load, file, file_length - 1, WHOLE(flags), 0, WHOLE(values), 0)
CALL(tishkolan_survey_load, doubled_file, file_length, WHOLE(flags), 0, WHOLE(values), 0)
CALL(tishkolan_survey_write, WHOLE(flags), MOST, WHOLE(values), MOST, WHOLE(out))
CALL(tishkolan_survey_write, WHOLE(flags), MOST, WHOLE(values), MOST, out, 7)
CALL(tishkolan_trace_line, WHOLE(here), WHOLE(end), WHOLE(out))
CALL(tishkolan_trace_line, WHOLE(here), WHOLE(end), out, 40 * CELL)
CALL(tishkolan_trace_line, WHOLE(here), WHOLE(end), out, 42 * CELL)
CALL(tishkolan_trace_line, WHOLE(here), WHOLE(mixed), WHOLE(out))
CALL(tishkolan_k_ring, WHOLE(here), RING, ROOM, ROOM, WHOLE(ring), WHOLE(out))
CALL(tishkolan_k_ring, WHOLE(here), RING, ROOM, 9, WHOLE(ring), WHOLE(out))
CALL(tishkolan_k_ring, WHOLE(edge), RING, ROOM, ROOM, WHOLE(ring), WHOLE(out))
CALL(tishkolan_k_shell, WHOLE(here), RING, ROOM, ROOM, WHOLE(ring), WHOLE(out))
CALL(tishkolan_k_shell, WHOLE(mixed), RING, ROOM, ROOM, WHOLE(ring), WHOLE(out))

static void make_verdict(void)
{
    (void)tishkolan_route_verdict(list, MOST * CELL, WHOLE(here), WHOLE(end), cost, WHOLE(flags), MOST, TISHKOLAN_AVOIDING);
}

static void make_choice(void)
{
    (void)tishkolan_route_choice(list, (MOST - 1) * CELL, WHOLE(here), WHOLE(end), cost, list, MOST * CELL, WHOLE(here), WHOLE(end), cost,
                                 WHOLE(flags), MOST, TISHKOLAN_AVOIDING);
}

__attribute__((constructor)) static void note_routes(void)
{
    note("tishkolan_route_verdict", make_verdict);
    note("tishkolan_route_choice", make_choice);
}

CALL(tishkolan_astar_with_limit, WHOLE(here), WHOLE(far), WHOLE(wall), walls, TISHKOLAN_AVOIDING, 100000, ROOMS)
CALL(tishkolan_astar_with_limit, WHOLE(here), WHOLE(far), WHOLE(wall), walls, TISHKOLAN_AVOIDING, 100, ROOMS)
CALL(tishkolan_astar_with_limit, WHOLE(here), WHOLE(far), WHOLE(flags), MOST, TISHKOLAN_AVOIDING, 100000, ROOMS)
CALL(tishkolan_astar_with_limit, WHOLE(here), WHOLE(end), WHOLE(flags), MOST, TISHKOLAN_AVOIDING, 100000, ROOMS)
CALL(tishkolan_astar, WHOLE(here), WHOLE(far), WHOLE(wall), walls, TISHKOLAN_AVOIDING, ROOMS)
CALL(tishkolan_astar, WHOLE(here), WHOLE(far), WHOLE(flags), MOST, TISHKOLAN_AVOIDING, ROOMS)
CALL(tishkolan_astar, WHOLE(here), WHOLE(end), WHOLE(flags), MOST, TISHKOLAN_FREE, ROOMS)
CALL(tishkolan_astar, WHOLE(here), WHOLE(here), WHOLE(flags), MOST, TISHKOLAN_FREE, ROOMS)

/* ---- the stack */

static uint8_t stack[STACK] __attribute__((aligned(4096)));
static size_t lowest;

/* Nothing is called between the call and the look at the stack. */
static void *on_stack(void *make)
{
    volatile uint8_t above[ABOVE];
    const volatile uint8_t *at = stack;

    above[0] = PAINT ^ 1;
    (*(void (**)(void))make)();
    (void)above[0];
    while (*at == PAINT)
        at++;
    lowest = (size_t)(at - stack);
    return NULL;
}

static void nothing(void) {}

/* The deep calls go deep only if they answer. */
static bool answer(void)
{
    bool all = true;

    prepare();
    all &= tishkolan_cell_ancestor(WHOLE(odd), 0, WHOLE(out)).number == 0;
    all &= tishkolan_cell_from_bech32m(WHOLE(label), WHOLE(out)).refusal.number == 0;
    all &= tishkolan_values_aggregate(WHOLE(values), MOST, WHOLE(list), TISHKOLAN_MEDIAN).refusal.number == 0;
    all &= tishkolan_values_rollup(WHOLE(heap_of_values), MOST, TISHKOLAN_MEDIAN, WHOLE(coarse), 0).count == 1;
    all &= tishkolan_values_rollup(WHOLE(values), MOST, TISHKOLAN_MEDIAN, WHOLE(coarse), 0).count > 1;
    all &= tishkolan_survey_write(WHOLE(flags), MOST, WHOLE(values), MOST, WHOLE(out)).length == file_length;
    all &= tishkolan_survey_load(file, file_length, WHOLE(flags), 0, WHOLE(values), 0).values == MOST;
    all &= tishkolan_survey_load(doubled_file, file_length, WHOLE(flags), 0, WHOLE(values), 0).place == file_length - VALUE;
    all &= tishkolan_k_ring(WHOLE(here), RING, ROOM, ROOM, WHOLE(ring), WHOLE(out)).count == TISHKOLAN_RING_KNOWN(RING);
    all &= tishkolan_trace_line(WHOLE(here), WHOLE(end), WHOLE(out)).count > 2;
    all &= tishkolan_astar(WHOLE(here), WHOLE(far), WHOLE(wall), walls, TISHKOLAN_AVOIDING, ROOMS).cells > 2;
    lay_route();
    all &= tishkolan_route_verdict(list, MOST * CELL, WHOLE(here), WHOLE(end), cost, WHOLE(flags), MOST, TISHKOLAN_AVOIDING) == 0;
    return all;
}

/* The place of the lowest byte that the call changed. */
static size_t depth(void (*make)(void))
{
    pthread_attr_t attributes;
    pthread_t thread;

    memset(stack, PAINT, sizeof stack);
    if (pthread_attr_init(&attributes) != 0 || pthread_attr_setstack(&attributes, stack, sizeof stack) != 0
        || pthread_create(&thread, &attributes, on_stack, &make) != 0 || pthread_join(thread, NULL) != 0) {
        fprintf(stderr, "stack: there is no thread\n");
        exit(2);
    }
    pthread_attr_destroy(&attributes);
    return lowest;
}

int main(void)
{
    const size_t base = depth(nothing);

    if (!answer()) {
        fprintf(stderr, "stack: a call that should go deep refuses\n");
        return 2;
    }
    for (int i = 0; i < call_count;) {
        size_t most = 0;
        int next = i;

        for (; next < call_count && strcmp(calls[next].name, calls[i].name) == 0; next++) {
            prepare();
            if (calls[next].make == make_verdict || calls[next].make == make_choice)
                lay_route();
            size_t bytes = base - depth(calls[next].make);
            if (bytes > most && bytes < STACK)
                most = bytes;
        }
        printf("%-38s %7zu\n", calls[i].name, most);
        i = next;
    }
    return 0;
}
