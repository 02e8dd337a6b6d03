/* Rings and shells from C: what each call answers and refuses, and every byte that it leaves. */
#include "claims.h"

enum { STEPS = 6, KNOWN = TISHKOLAN_RING_KNOWN(STEPS) + 1, BEHIND = 7, BYTES = TISHKOLAN_RING_BYTES(KNOWN) + BEHIND };

static uint8_t workspace[BYTES], out[(KNOWN + 1) * CELL];

static bool zero(const uint8_t *from, size_t bytes)
{
    while (bytes > 0 && *from == 0)
        from++, bytes--;
    return bytes == 0;
}

/* A ring or a shell with room for so many known, waiting and listed cells. */
typedef tishkolan_count_answer call(const uint8_t *, size_t, uint64_t, size_t, size_t, uint8_t *, size_t, uint8_t *, size_t);

static tishkolan_count_answer asked(call *around, cell center, uint64_t k, size_t known, size_t waiting, size_t listed)
{
    fill(workspace, sizeof workspace);
    fill(out, sizeof out);
    return around(center.bytes, CELL, k, known, waiting, workspace, sizeof workspace, out, listed * CELL);
}

/* The answer has so many cells at the front of the output, and the workspace is zero to its last byte. */
static bool lists(tishkolan_count_answer said, uint64_t cells)
{
    return answered(said.refusal) && said.count == cells && untouched(out + cells * CELL, sizeof out - cells * CELL)
        && zero(workspace, sizeof workspace);
}

/* A refusal other than BAD_WORKSPACE. */
static bool stops(tishkolan_count_answer said, uint32_t number, uint32_t room)
{
    return is(said.refusal, number, room, 0, 0, 0) && said.count == 0 && untouched(out, sizeof out)
        && zero(workspace, sizeof workspace);
}

static bool first_is(cell c)
{
    return memcmp(out, c.bytes, CELL) == 0;
}

static cell flagged(cell c)
{
    c.bytes[13] |= 0x10;
    return c;
}

static void answers(void)
{
    const cell center = at(3, 0, 0, 0), edge = at(3, 2147483646, 0, 0), odd = at(3, 0, 1, 0);
    uint8_t near[TISHKOLAN_NEIGHBORS * CELL];

    CHECK(answered(tishkolan_cell_neighbors(center.bytes, CELL, near, sizeof near)));
    CHECK(lists(asked(tishkolan_k_ring, center, 0, 1, 1, 1), 1) && first_is(center));
    CHECK(lists(asked(tishkolan_k_shell, center, 0, 1, 1, 1), 1) && first_is(center));
    CHECK(lists(asked(tishkolan_k_ring, center, 1, KNOWN, KNOWN, KNOWN), 15) && first_is(center));
    CHECK(memcmp(out + CELL, near, sizeof near) == 0);
    CHECK(lists(asked(tishkolan_k_shell, center, 1, KNOWN, KNOWN, KNOWN), 14));
    CHECK(memcmp(out, near, sizeof near) == 0);
    CHECK(lists(asked(tishkolan_k_ring, center, 2, KNOWN, KNOWN, KNOWN), 65));
    CHECK(lists(asked(tishkolan_k_shell, center, 2, KNOWN, KNOWN, KNOWN), 50));

    /* The plain twin of a flagged centre is another cell, two steps away. */
    CHECK(lists(asked(tishkolan_k_ring, flagged(center), 1, KNOWN, KNOWN, KNOWN), 15) && first_is(flagged(center)));
    CHECK(lists(asked(tishkolan_k_ring, flagged(center), 2, KNOWN, KNOWN, KNOWN), 66));
    CHECK(lists(asked(tishkolan_k_shell, flagged(center), 2, KNOWN, KNOWN, KNOWN), 51));

    /* A centre that is not expanded is not tested. */
    CHECK(lists(asked(tishkolan_k_ring, odd, 0, 1, 1, 1), 1) && first_is(odd));
    CHECK(lists(asked(tishkolan_k_shell, edge, 0, 1, 1, 1), 1) && first_is(edge));
}

static void refusals(void)
{
    const cell center = at(3, 0, 0, 0), edge = at(3, 2147483646, 0, 0), odd = at(3, 0, 1, 0);

    tishkolan_count_answer said = asked(tishkolan_k_ring, odd, 1, KNOWN, KNOWN, KNOWN);
    CHECK(mixed(said.refusal, 0, 1, 0) && said.count == 0 && untouched(out, sizeof out) && zero(workspace, sizeof workspace));
    CHECK(stops(asked(tishkolan_k_shell, edge, 1, KNOWN, KNOWN, KNOWN), TISHKOLAN_COORD_OVERFLOW, 0));

    fill(workspace, sizeof workspace);
    fill(out, sizeof out);
    CHECK(stops(tishkolan_k_ring(center.bytes, CELL - 1, 1, KNOWN, KNOWN, workspace, sizeof workspace, out, sizeof out), TISHKOLAN_BAD_LIST, 0));
}

/* A ring of 15 cells takes 15 known and 15 listed cells; the centre waits no more when its 14 neighbours are found. */
static void rooms(void)
{
    const cell center = at(3, 0, 0, 0);

    CHECK(lists(asked(tishkolan_k_ring, center, 1, 15, 14, 15), 15));
    CHECK(stops(asked(tishkolan_k_ring, center, 1, 14, 14, 15), TISHKOLAN_NO_ROOM, 1));
    CHECK(stops(asked(tishkolan_k_ring, center, 1, 15, 13, 15), TISHKOLAN_NO_ROOM, 2));
    CHECK(stops(asked(tishkolan_k_ring, center, 1, 14, 13, 15), TISHKOLAN_NO_ROOM, 1));
    CHECK(stops(asked(tishkolan_k_ring, center, 1, 15, 14, 14), TISHKOLAN_NO_ROOM, 3));
    CHECK(lists(asked(tishkolan_k_shell, center, 1, 15, 14, 14), 14));

    /* The centre of a ring is listed before its neighbours are seen, that of a shell is not listed. */
    CHECK(stops(asked(tishkolan_k_ring, center, 1, 1, 1, 0), TISHKOLAN_NO_ROOM, 3));
    CHECK(stops(asked(tishkolan_k_shell, center, 1, 1, 1, 0), TISHKOLAN_NO_ROOM, 1));
}

/* A call with so many known, waiting and listed cells answers; with one less of any, that room is refused. */
static bool takes(call *around, cell center, uint64_t k, size_t known, size_t waiting, size_t listed)
{
    return lists(asked(around, center, k, known, waiting, listed), listed)
        && stops(asked(around, center, k, known, waiting, listed - 1), TISHKOLAN_NO_ROOM, 3)
        && (k == 0 /* of one known and one waiting room there is none less */
            || (stops(asked(around, center, k, known - 1, waiting, listed), TISHKOLAN_NO_ROOM, 1)
                && stops(asked(around, center, k, known, waiting - 1, listed), TISHKOLAN_NO_ROOM, 2)));
}

/* The header's macros are what k steps take, and not one less will do. */
static void macros(void)
{
    const cell even = at(3, 0, 0, 0), odd = at(3, -3, 5, 1);

    for (uint64_t k = 0; k <= STEPS; k++) {
        const size_t known = TISHKOLAN_RING_KNOWN(k), waiting = TISHKOLAN_RING_WAITING(k), shell = TISHKOLAN_SHELL_CELLS(k);
        const size_t twin = k >= 2, new_twin = k == 2;

        CHECK(takes(tishkolan_k_ring, even, k, known, waiting, known));
        CHECK(takes(tishkolan_k_ring, odd, k, known, waiting, known));
        CHECK(takes(tishkolan_k_shell, even, k, known, waiting, shell));
        CHECK(takes(tishkolan_k_shell, odd, k, known, waiting, shell));
        CHECK(takes(tishkolan_k_ring, flagged(even), k, known + twin, waiting + new_twin, known + twin));
        CHECK(takes(tishkolan_k_shell, flagged(odd), k, known + twin, waiting + new_twin, shell + new_twin));
    }
    CHECK(TISHKOLAN_RING_KNOWN(24) == 58849 && TISHKOLAN_RING_KNOWN(25) == 66351);
    CHECK(TISHKOLAN_RING_KNOWN(1000000) == 4000006000004000001);
}

static bool bad_workspace(size_t known, size_t waiting, size_t bytes)
{
    const cell center = at(3, 0, 0, 0);

    fill(workspace, sizeof workspace);
    fill(out, sizeof out);
    tishkolan_count_answer said = tishkolan_k_ring(center.bytes, CELL - 1, 0, known, waiting, workspace, bytes, out, sizeof out);
    return refused(said.refusal, TISHKOLAN_BAD_WORKSPACE) && said.count == 0 && untouched(workspace, sizeof workspace) && untouched(out, sizeof out);
}

static void workspaces(void)
{
    const cell center = at(3, 0, 0, 0);

    CHECK(bad_workspace(0, 1, BYTES) && bad_workspace(65537, 1, BYTES));
    CHECK(bad_workspace(1, 0, BYTES) && bad_workspace(1, 65537, BYTES));
    CHECK(bad_workspace(2, 1, TISHKOLAN_RING_BYTES(2) - 1));
    CHECK(bad_workspace(SIZE_MAX, 1, BYTES) && bad_workspace(SIZE_MAX / 44 + 1, 1, BYTES));
    fill(workspace, sizeof workspace);
    CHECK(answered(tishkolan_k_ring(center.bytes, CELL, 0, 2, 65536, workspace, TISHKOLAN_RING_BYTES(2), out, CELL).refusal));
    CHECK(zero(workspace, TISHKOLAN_RING_BYTES(2)) && untouched(workspace + TISHKOLAN_RING_BYTES(2), sizeof workspace - TISHKOLAN_RING_BYTES(2)));
}

int main(void)
{
    answers();
    refusals();
    rooms();
    macros();
    workspaces();
    printf("rings: %d claims hold, %d do not\n", passed, failed);
    return failed != 0;
}
