/* Makes the two sample surveys: a ballast tank of two bays with a bulkhead between them.
 *
 *   make_surveys FOLDER    writes FOLDER/morning.survey and FOLDER/reload.survey
 *
 * In the morning the bulkhead's manhole is open; the reload has it closed, and readings of one more side.
 * x runs forward, y to port, z up; at resolution 2 a unit of the lattice is 25 cm.
 *
 *   x  0, 1  | 2 .. 7  | 8, 9  | 10 .. 13 | 14, 15   | 16 .. 19 | 20, 21 | 22 .. 25 | 26, 27
 *      shell | aft bay | frame | aft bay  | bulkhead | fore bay | frame  | fore bay | shell
 */
#include <stdio.h>
#include <stdlib.h>

#include <tishkolan.h>

enum {
    RESOLUTION = 2,
    LENGTH = 27, /* the last x, y and z of the shell */
    WIDTH = 15,
    HEIGHT = 11,
    FLAG_BYTES = TISHKOLAN_MOST_CELLS * TISHKOLAN_FLAG_RECORD,
    VALUE_BYTES = TISHKOLAN_MOST_CELLS * TISHKOLAN_VALUE_RECORD
};

/* Whether v is one of two places beside each other. Walls take two, since a step goes two units at most: it cannot leap them. */
static bool in_pair(int v, int first)
{
    return v == first || v == first + 1;
}

static bool is_shell(int x, int y, int z)
{
    return x < 2 || x > LENGTH - 2 || y < 2 || y > WIDTH - 2 || z < 2 || z > HEIGHT - 2;
}

static bool is_bulkhead(int x)
{
    return in_pair(x, 14);
}

static bool is_manhole(int x, int y, int z)
{
    return is_bulkhead(x) && y >= 6 && y <= 9 && z >= 4 && z <= 7;
}

/* A frame stands along the shell, all around, and leaves the middle free. */
static bool is_frame(int x, int y, int z)
{
    return (in_pair(x, 8) || in_pair(x, 20)) && (y < 4 || y > WIDTH - 4 || z < 4 || z > HEIGHT - 4);
}

/* The flags of a cell of the tank; 0 where nothing is kept of it. */
static uint32_t flags_at(int x, int y, int z, bool manhole_open)
{
    if (is_shell(x, y, z))
        return TISHKOLAN_BLOCKED | TISHKOLAN_BOUNDARY;
    if (is_manhole(x, y, z)) /* narrow; NO_FLY alone does not block */
        return TISHKOLAN_NO_FLY | (manhole_open ? 0 : TISHKOLAN_BLOCKED);
    if (is_bulkhead(x) || is_frame(x, y, z))
        return TISHKOLAN_BLOCKED;
    return z == 2 ? TISHKOLAN_WATER : 0; /* what was not pumped out; it does not block */
}

/* How many tenths of a millimetre a pit has taken from the plate, less with the steps from its middle. */
static int pit(int x, int y, int z, int middle_x, int middle_y, int middle_z, int depth)
{
    int left = depth - 4 * (abs(x - middle_x) + abs(y - middle_y) + abs(z - middle_z));
    return left > 0 ? left : 0;
}

/* The thickness of the plate at a cell, in millimetres; it was 14 when it was new. */
static double thickness(int x, int y, int z)
{
    int worn = 4 + (7 * x + 5 * y + 3 * z) % 9;
    worn += pit(x, y, z, 5, 7, 1, 36) + pit(x, y, z, 11, 1, 3, 30) + pit(x, y, z, 10, 14, 4, 45);
    return (140 - worn) / 10.0;
}

/* Readings are of the aft bay's bottom and starboard side, and in the reload of its port side too. The fore bay has none yet. */
static bool is_read(int x, int y, int z, bool port_too)
{
    if (x < 2 || x > 13 || in_pair(x, 8)) /* nor behind the frame */
        return false;
    if (z == 1)
        return y >= 2 && y <= WIDTH - 2;
    return z >= 2 && z <= HEIGHT - 2 && (y == 1 || (port_too && y == WIDTH - 1));
}

static void must_answer(tishkolan_refusal said)
{
    if (said.number != TISHKOLAN_ANSWERED) {
        fprintf(stderr, "make_surveys: refused %u\n", said.number);
        exit(1);
    }
}

static size_t count_of(tishkolan_count_answer answer)
{
    must_answer(answer.refusal);
    return (size_t)answer.count;
}

static void write_survey(const char *folder, const char *name, bool manhole_open, bool port_too)
{
    static uint8_t flags[FLAG_BYTES], values[VALUE_BYTES], file[TISHKOLAN_FILE_BYTES];
    size_t flag_count = 0, value_count = 0;
    uint8_t cell[TISHKOLAN_CELL_BYTES];

    for (int x = 0; x <= LENGTH; x++)
        for (int y = 0; y <= WIDTH; y++)
            for (int z = 0; z <= HEIGHT; z++) {
                tishkolan_refusal made = tishkolan_cell_from_coords(0, RESOLUTION, x, y, z, cell, sizeof cell);
                if (made.number == TISHKOLAN_INVALID_PARITY)
                    continue; /* no point of the lattice */
                must_answer(made);
                uint32_t kept = flags_at(x, y, z, manhole_open);
                if (kept != TISHKOLAN_NONE)
                    flag_count = count_of(tishkolan_flags_set(flags, sizeof flags, flag_count, cell, sizeof cell, kept));
                if (is_read(x, y, z, port_too))
                    value_count = count_of(tishkolan_values_set(values, sizeof values, value_count, cell, sizeof cell,
                                                                tishkolan_bits_of(thickness(x, y, z))));
            }

    tishkolan_length_answer written = tishkolan_survey_write(flags, sizeof flags, flag_count, values, sizeof values, value_count, file, sizeof file);
    must_answer(written.refusal);
    char path[4096];
    snprintf(path, sizeof path, "%s/%s", folder, name);
    FILE *out = fopen(path, "wb");
    if (out == NULL || fwrite(file, 1, written.length, out) != written.length || fclose(out) != 0) {
        perror(path);
        exit(1);
    }
    printf("%s: %zu cells with flags, %zu readings, %zu bytes\n", path, flag_count, value_count, (size_t)written.length);
}

int main(int argc, char **argv)
{
    if (argc != 2) {
        fprintf(stderr, "usage: make_surveys FOLDER\n");
        return 2;
    }
    write_survey(argv[1], "morning.survey", true, false);
    write_survey(argv[1], "reload.survey", false, true);
    return 0;
}
