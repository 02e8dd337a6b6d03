/* Layers, aggregates, rollups and survey files from C: what each call answers and refuses, and every byte that it leaves. */
#include "claims.h"

#define FLAG TISHKOLAN_FLAG_RECORD
#define VALUE TISHKOLAN_VALUE_RECORD

static bool zero(const uint8_t *from, size_t bytes)
{
    while (bytes > 0 && *from == 0)
        from++, bytes--;
    return bytes == 0;
}

static bool same(const void *a, const void *b, size_t bytes)
{
    return memcmp(a, b, bytes) == 0;
}

/* A record's cell and what is kept of it, big-endian. */
static bool flag_record(const uint8_t *record, cell c, uint32_t flags)
{
    return same(record, c.bytes, CELL) && record[16] == (uint8_t)(flags >> 24) && record[17] == (uint8_t)(flags >> 16)
        && record[18] == (uint8_t)(flags >> 8) && record[19] == (uint8_t)flags;
}

/* ---- flags of a cell */

static void flags_of_a_cell(void)
{
    CHECK(TISHKOLAN_NONE == 0 && TISHKOLAN_BLOCKED == 1 && TISHKOLAN_NO_FLY == 2 && TISHKOLAN_WATER == 4 && TISHKOLAN_BOUNDARY == 8);
    CHECK(tishkolan_is_blocked(TISHKOLAN_BLOCKED) && !tishkolan_is_blocked(TISHKOLAN_NONE));
    CHECK(!tishkolan_is_blocked(TISHKOLAN_NO_FLY | TISHKOLAN_WATER | TISHKOLAN_BOUNDARY));
    CHECK(tishkolan_is_blocked(0xFFFFFFFF) && !tishkolan_is_blocked(0xFFFFFFFE));
    CHECK(tishkolan_set_flag(TISHKOLAN_WATER, TISHKOLAN_BLOCKED) == 5);
    CHECK(tishkolan_clear_flag(0xFFFFFFFF, TISHKOLAN_NO_FLY) == 0xFFFFFFFD);
    CHECK(tishkolan_has_flag(6, TISHKOLAN_NO_FLY) && !tishkolan_has_flag(6, TISHKOLAN_BOUNDARY) && !tishkolan_has_flag(6, 0));
}

/* ---- a flag layer with room for three cells, and 7 bytes more */

static void a_flag_layer(void)
{
    uint8_t table[3 * FLAG + 7], out[3 * FLAG];
    const cell low = at(3, 0, 0, 0), middle = at(3, 2, 0, 0), high = at(3, 0, 0, 2), other = at(3, 4, 0, 0);

    fill(table, sizeof table);
    tishkolan_flags_clear(table, sizeof table);
    CHECK(zero(table, 3 * FLAG) && untouched(table + 3 * FLAG, 7));

    tishkolan_count_answer set = tishkolan_flags_set(table, sizeof table, 0, high.bytes, CELL, 0x80000001);
    CHECK(answered(set.refusal) && set.count == 1);
    set = tishkolan_flags_set(table, sizeof table, set.count, low.bytes, CELL, 2);
    CHECK(answered(set.refusal) && set.count == 2);
    set = tishkolan_flags_set(table, sizeof table, set.count, middle.bytes, CELL, 4);
    CHECK(answered(set.refusal) && set.count == 3);
    CHECK(flag_record(table, low, 2) && flag_record(table + FLAG, middle, 4) && flag_record(table + 2 * FLAG, high, 0x80000001));

    /* Full: a new cell is refused, and the count that was given comes back; replacing is not. */
    uint8_t before[sizeof table];
    memcpy(before, table, sizeof table);
    set = tishkolan_flags_set(table, sizeof table, 3, other.bytes, CELL, 1);
    CHECK(no_layer_room(set.refusal) && set.count == 3 && same(before, table, sizeof table));
    set = tishkolan_flags_set(table, sizeof table, 3, middle.bytes, CELL, 1);
    CHECK(answered(set.refusal) && set.count == 3 && flag_record(table + FLAG, middle, 1));

    tishkolan_kept_answer got = tishkolan_flags_get(table, sizeof table, 3, high.bytes, CELL);
    CHECK(answered(got.refusal) && got.found == 1 && got.kept == 0x80000001 && got.count == 3);
    got = tishkolan_flags_get(table, sizeof table, 3, other.bytes, CELL);
    CHECK(answered(got.refusal) && got.found == 0 && got.kept == 0 && got.count == 3);
    got = tishkolan_flags_get(table, sizeof table, 3, high.bytes, 15);
    CHECK(refused(got.refusal, TISHKOLAN_BAD_LIST) && got.found == 0 && got.kept == 0 && got.count == 3);

    tishkolan_number_answer there = tishkolan_flags_contains(table, sizeof table, 3, low.bytes, CELL);
    CHECK(answered(there.refusal) && there.value == 1);
    there = tishkolan_flags_contains(table, sizeof table, 3, other.bytes, CELL);
    CHECK(answered(there.refusal) && there.value == 0);

    /* A listing one byte short, and one that fits. */
    fill(out, sizeof out);
    tishkolan_count_answer listed = tishkolan_flags_list(table, sizeof table, 3, out, sizeof out - 1);
    CHECK(no_room(listed.refusal) && listed.count == 3 && untouched(out, sizeof out));
    listed = tishkolan_flags_list(table, sizeof table, 2, out, sizeof out);
    CHECK(answered(listed.refusal) && listed.count == 2 && same(out, table, 2 * FLAG) && untouched(out + 2 * FLAG, FLAG));

    /* The freed last record is zeroed, and its room serves again. */
    tishkolan_kept_answer removed = tishkolan_flags_remove(table, sizeof table, 3, low.bytes, CELL);
    CHECK(answered(removed.refusal) && removed.found == 1 && removed.kept == 2 && removed.count == 2);
    CHECK(flag_record(table, middle, 1) && flag_record(table + FLAG, high, 0x80000001) && zero(table + 2 * FLAG, FLAG) && untouched(table + 3 * FLAG, 7));
    removed = tishkolan_flags_remove(table, sizeof table, 2, low.bytes, CELL);
    CHECK(answered(removed.refusal) && removed.found == 0 && removed.kept == 0 && removed.count == 2);
    set = tishkolan_flags_set(table, sizeof table, 2, other.bytes, CELL, 1);
    CHECK(answered(set.refusal) && set.count == 3);
}

/* ---- the header's readers of records */

static void readers(void)
{
    uint8_t flags[3 * FLAG], values[3 * VALUE];
    const cell cells[3] = {at(3, 0, 0, 0), at(3, 2, 0, 0), at(3, -1, -1, -1)}; /* ascending by their bytes */
    const uint32_t marks[3] = {0x80000001, 0x01020304, 0xFFFFFFFF};
    const uint64_t bits[3] = {0x0102030405060708, 0xFFF0000000000001, 0x8000000000000000};
    size_t count = 0;

    for (size_t i = 0; i < 3; i++) {
        CHECK(answered(tishkolan_flags_set(flags, sizeof flags, count, cells[i].bytes, CELL, marks[i]).refusal));
        CHECK(answered(tishkolan_values_set(values, sizeof values, count, cells[i].bytes, CELL, bits[i]).refusal));
        count++;
    }
    for (size_t i = 0; i < 3; i++) {
        CHECK(tishkolan_flags_cell_at(flags, i) == flags + FLAG * i && same(tishkolan_flags_cell_at(flags, i), cells[i].bytes, CELL));
        CHECK(tishkolan_values_cell_at(values, i) == values + VALUE * i && same(tishkolan_values_cell_at(values, i), cells[i].bytes, CELL));
        CHECK(tishkolan_flags_at(flags, i) == marks[i] && tishkolan_values_at(values, i) == bits[i]);
        CHECK(tishkolan_flags_get(flags, sizeof flags, count, cells[i].bytes, CELL).kept == marks[i]);
        CHECK(tishkolan_values_get(values, sizeof values, count, cells[i].bytes, CELL).kept == bits[i]);
    }
}

/* ---- what the header warns of */

/* The verdict on a step of two units, under the avoiding rule. */
static uint32_t step(cell from, cell to, const uint8_t *flags, size_t length, uint64_t count)
{
    const cell route[2] = {from, to};

    return tishkolan_route_verdict((const uint8_t *)route, sizeof route, from.bytes, CELL, to.bytes, CELL, tishkolan_bits_of(2.0),
                                   flags, length, count, TISHKOLAN_AVOIDING);
}

/* A load makes a layer longer: with the count of before, the records behind it are not seen, and nothing refuses. */
static void a_count_not_taken_back(void)
{
    uint8_t held[2 * FLAG], scan[2 * FLAG], file[16 + 2 * FLAG];
    const cell low = at(3, 0, 0, 0), high = at(3, 4, 4, 4);

    tishkolan_count_answer set = tishkolan_flags_set(held, sizeof held, 0, low.bytes, CELL, 1);
    CHECK(answered(set.refusal) && set.count == 1);
    const uint64_t before = set.count;
    set = tishkolan_flags_set(scan, sizeof scan, 0, low.bytes, CELL, 1);
    set = tishkolan_flags_set(scan, sizeof scan, set.count, high.bytes, CELL, 1);
    CHECK(answered(set.refusal) && set.count == 2);
    tishkolan_length_answer written = tishkolan_survey_write(scan, sizeof scan, set.count, NULL, 0, 0, file, sizeof file);
    CHECK(answered(written.refusal) && written.length == sizeof file);
    tishkolan_load_answer load = tishkolan_survey_load(file, sizeof file, held, sizeof held, before, NULL, 0, 0);
    CHECK(answered(load.refusal) && load.flags == 2);
    CHECK(step(at(3, 2, 4, 4), high, held, sizeof held, load.flags) == TISHKOLAN_BLOCKED_CELL);
    CHECK(step(at(3, 2, 4, 4), high, held, sizeof held, before) == TISHKOLAN_ACCEPTED);
}

/* A plane has cells of one parity, and a step of two units leaps it; two planes beside each other it does not. */
static void walls(void)
{
    static uint8_t flags[TISHKOLAN_MOST_CELLS * FLAG];
    const cell aft = at(3, 9, 1, 1), fore = at(3, 11, 1, 1);
    uint64_t count = 0;
    bool all = true;

    for (int32_t x = 10; x <= 11; x++) {
        for (int32_t y = x - 10; y <= 41; y += 2)
            for (int32_t z = x - 10; z <= 41; z += 2) {
                tishkolan_count_answer set = tishkolan_flags_set(flags, sizeof flags, count, at(3, x, y - 20, z - 20).bytes, CELL, TISHKOLAN_BLOCKED);
                all &= answered(set.refusal);
                count = set.count;
            }
        CHECK(all && count == (x == 10 ? 441 : 882));
        CHECK(step(aft, fore, flags, sizeof flags, count) == (x == 10 ? TISHKOLAN_ACCEPTED : TISHKOLAN_BLOCKED_CELL));
    }
    CHECK(step(at(3, 8, 0, 0), at(3, 10, 0, 0), flags, sizeof flags, count) == TISHKOLAN_BLOCKED_CELL);
}

/* ---- what is no layer */

static void bad_layers(void)
{
    uint8_t table[2 * VALUE];
    const cell low = at(3, 0, 0, 0), high = at(3, 0, 0, 2);

    memset(table, 0, sizeof table);
    tishkolan_count_answer count = tishkolan_values_count(table, sizeof table, 3);
    CHECK(refused(count.refusal, TISHKOLAN_BAD_LAYER) && count.count == 3);
    count = tishkolan_values_count(table, sizeof table, SIZE_MAX);
    CHECK(refused(count.refusal, TISHKOLAN_BAD_LAYER) && count.count == SIZE_MAX);
    count = tishkolan_values_count(table, sizeof table, 2); /* one cell twice */
    CHECK(refused(count.refusal, TISHKOLAN_BAD_LAYER) && count.count == 2);
    memcpy(table, high.bytes, CELL); /* falling */
    count = tishkolan_values_count(table, sizeof table, 2);
    CHECK(refused(count.refusal, TISHKOLAN_BAD_LAYER));
    count = tishkolan_values_count(table, sizeof table, 1); /* behind the count stands anything */
    CHECK(answered(count.refusal) && count.count == 1);
    count = tishkolan_values_count(NULL, 0, 0);
    CHECK(answered(count.refusal) && count.count == 0);

    uint8_t before[sizeof table];
    memcpy(before, table, sizeof table);
    CHECK(refused(tishkolan_values_set(table, sizeof table, 2, low.bytes, CELL, 1).refusal, TISHKOLAN_BAD_LAYER));
    CHECK(refused(tishkolan_values_set(table, sizeof table, 2, low.bytes, 17, 1).refusal, TISHKOLAN_BAD_LIST));
    CHECK(refused(tishkolan_values_remove(table, sizeof table, 2, low.bytes, CELL).refusal, TISHKOLAN_BAD_LAYER));
    CHECK(same(before, table, sizeof table));

    tishkolan_number_answer empty = tishkolan_values_is_empty(table, sizeof table, 0);
    CHECK(answered(empty.refusal) && empty.value == 1);
    empty = tishkolan_values_is_empty(table, sizeof table, 1);
    CHECK(answered(empty.refusal) && empty.value == 0);
    empty = tishkolan_values_is_empty(table, sizeof table, 2);
    CHECK(refused(empty.refusal, TISHKOLAN_BAD_LAYER) && empty.value == 0);
}

/* ---- aggregates and rollup: four children of (0,0,0) and one of (2,0,0), a cell of resolution 0 */

static const uint64_t nan_bits = 0x7FF8000000000000;

static uint64_t set_value(uint8_t *table, size_t length, uint64_t count, cell c, uint64_t bits)
{
    tishkolan_count_answer set = tishkolan_values_set(table, length, count, c.bytes, CELL, bits);
    CHECK(answered(set.refusal));
    return set.count;
}

static tishkolan_bits_answer aggregated(const uint8_t *table, size_t length, uint64_t count, const cell *list, size_t cells, uint32_t how)
{
    return tishkolan_values_aggregate(table, length, count, (const uint8_t *)list, cells * CELL, how);
}

static void aggregates(void)
{
    uint8_t table[8 * VALUE], coarse[2 * VALUE + 3];
    uint64_t count = 0;
    const cell list[] = {at(1, 0, 0, 0), at(1, 2, 0, 0), at(1, 2, 0, 0), at(1, 0, 2, 0), at(9, 0, 0, 0)};

    count = set_value(table, sizeof table, count, list[0], tishkolan_bits_of(1.5));
    count = set_value(table, sizeof table, count, list[1], tishkolan_bits_of(-0.0));
    count = set_value(table, sizeof table, count, list[3], tishkolan_bits_of(4.0));

    tishkolan_bits_answer answer = aggregated(table, sizeof table, count, list, 5, TISHKOLAN_COUNT);
    CHECK(answered(answer.refusal) && answer.bits == tishkolan_bits_of(4.0));
    answer = aggregated(table, sizeof table, count, list, 5, TISHKOLAN_SUM);
    CHECK(answered(answer.refusal) && answer.bits == tishkolan_bits_of(5.5));
    answer = aggregated(table, sizeof table, count, list, 5, TISHKOLAN_MEAN);
    CHECK(answered(answer.refusal) && answer.bits == tishkolan_bits_of(1.375));
    answer = aggregated(table, sizeof table, count, list, 5, TISHKOLAN_MIN);
    CHECK(answered(answer.refusal) && answer.bits == tishkolan_bits_of(-0.0));
    answer = aggregated(table, sizeof table, count, list, 5, TISHKOLAN_MAX);
    CHECK(answered(answer.refusal) && answer.bits == tishkolan_bits_of(4.0));
    answer = aggregated(table, sizeof table, count, list, 5, TISHKOLAN_MEDIAN);
    CHECK(answered(answer.refusal) && answer.bits == tishkolan_bits_of(0.75));
    answer = aggregated(table, sizeof table, count, list + 1, 1, TISHKOLAN_SUM);
    CHECK(answered(answer.refusal) && answer.bits == tishkolan_bits_of(-0.0));
    CHECK(refused(aggregated(table, sizeof table, count, list + 4, 1, TISHKOLAN_COUNT).refusal, TISHKOLAN_NO_VALUES));
    CHECK(refused(aggregated(table, sizeof table, count, list, 0, TISHKOLAN_SUM).refusal, TISHKOLAN_NO_VALUES));
    CHECK(refused(aggregated(table, sizeof table, count, list, 5, 6).refusal, TISHKOLAN_OUT_OF_RANGE));
    CHECK(refused(tishkolan_values_aggregate(table, sizeof table, 9, (const uint8_t *)list, 17, 6).refusal, TISHKOLAN_BAD_LIST));
    CHECK(refused(tishkolan_values_aggregate(table, sizeof table, 9, (const uint8_t *)list, 16, 6).refusal, TISHKOLAN_BAD_LAYER));

    /* All three have one parent. */
    fill(coarse, sizeof coarse);
    tishkolan_count_answer rolled = tishkolan_values_rollup(table, sizeof table, count, TISHKOLAN_SUM, coarse, sizeof coarse, 77);
    CHECK(answered(rolled.refusal) && rolled.count == 1 && zero(coarse + VALUE, VALUE) && untouched(coarse + 2 * VALUE, 3));
    tishkolan_kept_answer parent = tishkolan_values_get(coarse, sizeof coarse, rolled.count, at(0, 0, 0, 0).bytes, CELL);
    CHECK(answered(parent.refusal) && parent.found == 1 && parent.kept == tishkolan_bits_of(5.5));

    /* NaN: Count counts it, the others refuse it, and it comes before the room that is missing. */
    count = set_value(table, sizeof table, count, at(1, 4, 0, 0), 0xFFF0000000000001);
    const cell nan_cell = at(1, 4, 0, 0);
    answer = aggregated(table, sizeof table, count, &nan_cell, 1, TISHKOLAN_COUNT);
    CHECK(answered(answer.refusal) && answer.bits == tishkolan_bits_of(1.0));
    answer = aggregated(table, sizeof table, count, &nan_cell, 1, TISHKOLAN_MAX);
    CHECK(refused(answer.refusal, TISHKOLAN_HAS_NAN) && answer.bits == 0);
    uint8_t before[sizeof coarse];
    memcpy(before, coarse, sizeof coarse);
    rolled = tishkolan_values_rollup(table, sizeof table, count, TISHKOLAN_MEAN, coarse, VALUE, 77);
    CHECK(refused(rolled.refusal, TISHKOLAN_HAS_NAN) && rolled.count == 77);
    rolled = tishkolan_values_rollup(table, sizeof table, count, TISHKOLAN_COUNT, coarse, VALUE, 77);
    CHECK(no_layer_room(rolled.refusal) && rolled.count == 77);
    rolled = tishkolan_values_rollup(table, sizeof table, count, 6, coarse, sizeof coarse, 77);
    CHECK(refused(rolled.refusal, TISHKOLAN_OUT_OF_RANGE) && rolled.count == 77 && same(before, coarse, sizeof coarse));

    /* A NaN that the sum makes, and a skipped cell's NaN. */
    tishkolan_values_clear(table, sizeof table);
    count = set_value(table, sizeof table, 0, list[0], tishkolan_bits_of(1e308 * 10));
    count = set_value(table, sizeof table, count, list[1], tishkolan_bits_of(-1e308 * 10));
    answer = aggregated(table, sizeof table, count, list, 2, TISHKOLAN_SUM);
    CHECK(answered(answer.refusal) && answer.bits == nan_bits);
    count = set_value(table, sizeof table, count, at(0, 0, 0, 0), nan_bits);
    count = set_value(table, sizeof table, count, at(1, 0, 1, 0), nan_bits);
    rolled = tishkolan_values_rollup(table, sizeof table, count, TISHKOLAN_MEDIAN, coarse, sizeof coarse, 77);
    CHECK(answered(rolled.refusal) && rolled.count == 1);
    parent = tishkolan_values_get(coarse, sizeof coarse, rolled.count, at(0, 0, 0, 0).bytes, CELL);
    CHECK(parent.found == 1 && parent.kept == nan_bits);
}

/* ---- survey files */

static void surveys(void)
{
    const uint8_t empty[16] = {0, 1, 0, 0, 0, 0, 0, 0, 0, 0, 0, 16, 0, 0, 0, 16};
    uint8_t flags[4 * FLAG], values[4 * VALUE], file[16 + 4 * FLAG + 4 * VALUE];

    fill(flags, sizeof flags);
    fill(values, sizeof values);
    tishkolan_load_answer load = tishkolan_survey_load(empty, 16, flags, sizeof flags, 99, values, sizeof values, 98);
    CHECK(answered(load.refusal) && load.place == 0 && load.flags == 0 && load.values == 0);
    CHECK(zero(flags, sizeof flags) && zero(values, sizeof values));

    /* Each place of BAD_FILE. A refusal leaves both tables and tells the counts that were given. */
    const struct {
        size_t length;
        size_t at;
        uint8_t byte;
        uint64_t place;
    } damaged[] = {
        {0, 0, 0, 0}, {15, 0, 0, 15}, {16, 1, 2, 0}, {16, 2, 5, 2}, {16, 4, 5, 4}, {16, 7, 1, 6}, {16, 11, 17, 8}, {16, 15, 17, 12}, {17, 0, 0, 16},
    };
    fill(flags, sizeof flags);
    fill(values, sizeof values);
    for (size_t i = 0; i < sizeof damaged / sizeof damaged[0]; i++) {
        uint8_t bytes[17] = {0};
        memcpy(bytes, empty, 16);
        bytes[damaged[i].at] = damaged[i].byte;
        load = tishkolan_survey_load(bytes, damaged[i].length, flags, sizeof flags, 99, values, sizeof values, 98);
        CHECK(refused(load.refusal, TISHKOLAN_BAD_FILE) && load.place == damaged[i].place && load.flags == 99 && load.values == 98);
    }
    CHECK(untouched(flags, sizeof flags) && untouched(values, sizeof values));

    /* What is written is read back. */
    tishkolan_flags_clear(flags, sizeof flags);
    tishkolan_values_clear(values, sizeof values);
    uint64_t flag_count = tishkolan_flags_set(flags, sizeof flags, 0, at(3, 2, 2, 2).bytes, CELL, 1).count;
    flag_count = tishkolan_flags_set(flags, sizeof flags, flag_count, at(3, 1, 1, 1).bytes, CELL, 2).count;
    uint64_t value_count = set_value(values, sizeof values, 0, at(3, 1, 1, 1), 0xFFF0000000000001);
    fill(file, sizeof file);
    tishkolan_length_answer written = tishkolan_survey_write(flags, sizeof flags, flag_count, values, sizeof values, value_count, file, 16 + 2 * FLAG + VALUE - 1);
    CHECK(no_room(written.refusal) && written.length == 0 && untouched(file, sizeof file));
    written = tishkolan_survey_write(flags, sizeof flags, flag_count, values, sizeof values, value_count, file, sizeof file);
    CHECK(answered(written.refusal) && written.length == 16 + 2 * FLAG + VALUE && untouched(file + written.length, sizeof file - written.length));
    CHECK(same(file + 16, flags, 2 * FLAG) && same(file + 16 + 2 * FLAG, values, VALUE) && file[3] == 2 && file[5] == 1 && file[15] == 56);
    CHECK(refused(tishkolan_survey_write(flags, sizeof flags, flag_count, values, sizeof values, 5, file, sizeof file).refusal, TISHKOLAN_BAD_LAYER));

    uint8_t flags_again[4 * FLAG], values_again[4 * VALUE];
    fill(flags_again, sizeof flags_again);
    fill(values_again, sizeof values_again);
    load = tishkolan_survey_load(file, written.length, flags_again, sizeof flags_again, 0, values_again, sizeof values_again, 0);
    CHECK(answered(load.refusal) && load.flags == 2 && load.values == 1);
    CHECK(same(flags, flags_again, sizeof flags) && same(values, values_again, sizeof values));

    /* One byte short, one long. */
    load = tishkolan_survey_load(file, written.length - 1, flags_again, sizeof flags_again, 2, values_again, sizeof values_again, 1);
    CHECK(refused(load.refusal, TISHKOLAN_BAD_FILE) && load.place == written.length - 1 && load.flags == 2 && load.values == 1);
    load = tishkolan_survey_load(file, written.length + 1, flags_again, sizeof flags_again, 2, values_again, sizeof values_again, 1);
    CHECK(refused(load.refusal, TISHKOLAN_BAD_FILE) && load.place == written.length);

    /* Tables that the records just fill, and each a byte shorter. */
    fill(flags_again, sizeof flags_again);
    fill(values_again, sizeof values_again);
    load = tishkolan_survey_load(file, written.length, flags_again, 2 * FLAG - 1, 7, values_again, VALUE, 8);
    CHECK(no_layer_room(load.refusal) && load.place == 0 && load.flags == 7 && load.values == 8);
    load = tishkolan_survey_load(file, written.length, flags_again, 2 * FLAG, 7, values_again, VALUE - 1, 8);
    CHECK(no_layer_room(load.refusal) && load.place == 0 && load.flags == 7 && load.values == 8);
    CHECK(untouched(flags_again, sizeof flags_again) && untouched(values_again, sizeof values_again));
    load = tishkolan_survey_load(file, written.length, flags_again, 2 * FLAG, 7, values_again, VALUE, 8);
    CHECK(answered(load.refusal) && load.place == 0 && load.flags == 2 && load.values == 1);
    CHECK(flag_record(flags_again, at(3, 1, 1, 1), 2) && flag_record(flags_again + FLAG, at(3, 2, 2, 2), 1) && same(values_again, values, VALUE));
    CHECK(untouched(flags_again + 2 * FLAG, 2 * FLAG) && untouched(values_again + VALUE, 3 * VALUE));

    /* A cell named twice is refused, whatever the room and what is kept. */
    memcpy(file + 16 + FLAG, file + 16, CELL);
    fill(flags_again, sizeof flags_again);
    fill(values_again, sizeof values_again);
    for (size_t room = 0; room <= 4; room++) {
        load = tishkolan_survey_load(file, written.length, flags_again, room * FLAG, 7, values_again, VALUE, 8);
        CHECK(refused(load.refusal, TISHKOLAN_BAD_FILE) && load.place == 16 + FLAG && load.flags == 7 && load.values == 8);
    }
    CHECK(untouched(flags_again, sizeof flags_again) && untouched(values_again, sizeof values_again));
}

/* ---- the order of a file's records */

enum { MOST = TISHKOLAN_MOST_CELLS, HALF = -1 }; /* HALF stands for 2^127, of which the first bit alone is set */

typedef struct {
    int count; /* of records */
    int last;  /* the ids are 0, 1, .. up to this one, which stands in the records behind it too; or -1: they are those named */
    int id[4];
} section;

static void lay_id(uint8_t *record, int id)
{
    memset(record, 0, CELL);
    if (id == HALF) {
        record[0] = 0x80;
    } else {
        record[14] = (uint8_t)(id >> 8);
        record[15] = (uint8_t)id;
    }
}

/* The records of a section. What is kept in each is all ones, or a number of its own. */
static void lay_section(uint8_t *to, section from, size_t record, bool numbered)
{
    for (int row = 0; row < from.count; row++, to += record) {
        lay_id(to, from.last < 0 ? from.id[row] : row < from.last ? row : from.last);
        memset(to + CELL, 0xFF, record - CELL);
        if (numbered)
            to[record - 2] = (uint8_t)(row >> 8), to[record - 1] = (uint8_t)row;
    }
}

#define IDS(...) {sizeof((int[]){__VA_ARGS__}) / sizeof(int), -1, {__VA_ARGS__}}
#define UP_TO(last, records) {records, last, {0}}
#define NO_IDS {0, -1, {0}}

static const struct {
    section flags, values;
    int more;                       /* bytes that the file has more than its records take */
    size_t flags_room, values_room; /* records that the tables have room for */
    uint32_t number;
    uint64_t place;
} orders[] = {
    {IDS(5, 5), NO_IDS, 0, 4, 4, TISHKOLAN_BAD_FILE, 36},
    {IDS(5, 4), NO_IDS, 0, 4, 4, TISHKOLAN_BAD_FILE, 36},
    {IDS(1, 3, 2), NO_IDS, 0, 4, 4, TISHKOLAN_BAD_FILE, 56},
    {IDS(1, 3, 2, 1), NO_IDS, 0, 4, 4, TISHKOLAN_BAD_FILE, 56}, /* the first, and the later of the two */
    {NO_IDS, IDS(7, 7), 0, 4, 4, TISHKOLAN_BAD_FILE, 40},
    {NO_IDS, IDS(1, 3, 2, 1), 0, 4, 4, TISHKOLAN_BAD_FILE, 64},
    {IDS(1), IDS(2, 1), 0, 4, 4, TISHKOLAN_BAD_FILE, 60},
    {IDS(2, 1), IDS(2, 1), 0, 4, 4, TISHKOLAN_BAD_FILE, 36}, /* flags before values, */
    {IDS(1, 2, 2), IDS(2, 1), 0, 4, 4, TISHKOLAN_BAD_FILE, 56}, /* though these fall at an earlier record */
    {IDS(5, 5), NO_IDS, 1, 4, 4, TISHKOLAN_BAD_FILE, 56},  /* the length before the order */
    {IDS(5, 5), NO_IDS, -1, 4, 4, TISHKOLAN_BAD_FILE, 55},
    {IDS(5, 5), NO_IDS, 0, 0, 0, TISHKOLAN_BAD_FILE, 36},  /* the order before the room */
    {IDS(5, 5), NO_IDS, 0, 1, 0, TISHKOLAN_BAD_FILE, 36},
    {IDS(1), IDS(2, 1), 0, 0, 4, TISHKOLAN_BAD_FILE, 60},
    {IDS(1), IDS(2, 1), 0, 4, 1, TISHKOLAN_BAD_FILE, 60},
    {IDS(HALF, 0), NO_IDS, 0, 4, 4, TISHKOLAN_BAD_FILE, 36}, /* ids are unsigned */
    {NO_IDS, IDS(HALF, 0), 0, 4, 4, TISHKOLAN_BAD_FILE, 40},
    {IDS(255, 256, 254), NO_IDS, 0, 4, 4, TISHKOLAN_BAD_FILE, 56},
    {IDS(0, HALF), NO_IDS, 0, 4, 4, TISHKOLAN_ANSWERED, 0},
    {NO_IDS, IDS(0, HALF), 0, 4, 4, TISHKOLAN_ANSWERED, 0},
    {IDS(254, 255, 256, 257), IDS(255, 256), 0, 4, 4, TISHKOLAN_ANSWERED, 0},
    {IDS(9), IDS(9), 0, 4, 4, TISHKOLAN_ANSWERED, 0}, /* each section by itself */
    {IDS(8, 9), IDS(1, 2), 0, 2, 2, TISHKOLAN_ANSWERED, 0},
    {IDS(8, 9), IDS(1, 2), 0, 1, 2, TISHKOLAN_NO_ROOM, 0},
    {IDS(8, 9), IDS(1, 2), 0, 2, 1, TISHKOLAN_NO_ROOM, 0},
    {UP_TO(1022, 1024), NO_IDS, 0, 1024, 1024, TISHKOLAN_BAD_FILE, 20476},
    {UP_TO(1022, 1024), NO_IDS, 0, 1023, 1024, TISHKOLAN_BAD_FILE, 20476}, /* of 1,023 cells there would be room */
    {NO_IDS, UP_TO(1022, 1024), 0, 1024, 1024, TISHKOLAN_BAD_FILE, 24568},
    {UP_TO(1023, 1024), UP_TO(1022, 1024), 0, 1024, 1024, TISHKOLAN_BAD_FILE, 45048},
    {UP_TO(1023, 1024), NO_IDS, 0, 1023, 1024, TISHKOLAN_NO_ROOM, 0},
    {NO_IDS, UP_TO(1023, 1024), 0, 1024, 1023, TISHKOLAN_NO_ROOM, 0},
    {UP_TO(1023, 1024), UP_TO(1023, 1024), 0, 1024, 1024, TISHKOLAN_ANSWERED, 0},
    {UP_TO(1021, 1022), UP_TO(1020, 1021), 0, 1024, 1024, TISHKOLAN_ANSWERED, 0},
};

/* Each file twice: with one number kept in all records, into tables that end with their last record; with other numbers, into tables that go on. */
static void order_of_records(void)
{
    enum { BEHIND = 7 };
    static uint8_t file[TISHKOLAN_FILE_BYTES + 1], flags[MOST * FLAG + BEHIND], values[MOST * VALUE + BEHIND];

    for (size_t i = 0; i < 2 * sizeof orders / sizeof orders[0]; i++) {
        const size_t row = i / 2, behind = i % 2 * BEHIND;
        const size_t flag_count = (size_t)orders[row].flags.count, value_count = (size_t)orders[row].values.count;
        const size_t flags_room = orders[row].flags_room * FLAG, values_room = orders[row].values_room * VALUE;
        const size_t flag_bytes = flag_count * FLAG, value_bytes = value_count * VALUE, values_at = 16 + flag_bytes;
        const uint8_t header[16] = {0, 1, (uint8_t)(flag_count >> 8), (uint8_t)flag_count, (uint8_t)(value_count >> 8), (uint8_t)value_count,
                                    0, 0, 0, 0, 0, 16, 0, 0, (uint8_t)(values_at >> 8), (uint8_t)values_at};
        const int before = failed;

        memcpy(file, header, sizeof header);
        lay_section(file + 16, orders[row].flags, FLAG, behind > 0);
        lay_section(file + values_at, orders[row].values, VALUE, behind > 0);
        fill(flags, sizeof flags);
        fill(values, sizeof values);
        tishkolan_load_answer load = tishkolan_survey_load(
            file, values_at + value_bytes + (size_t)orders[row].more,
            flags_room + behind == 0 ? NULL : flags, flags_room + behind, 99, values_room + behind == 0 ? NULL : values, values_room + behind, 98);
        CHECK(is(load.refusal, orders[row].number, orders[row].number == TISHKOLAN_NO_ROOM ? 4 : 0, 0, 0, 0) && load.place == orders[row].place);
        if (orders[row].number == TISHKOLAN_ANSWERED) {
            CHECK(load.flags == flag_count && load.values == value_count);
            CHECK(same(flags, file + 16, flag_bytes) && zero(flags + flag_bytes, flags_room - flag_bytes));
            CHECK(same(values, file + values_at, value_bytes) && zero(values + value_bytes, values_room - value_bytes));
            CHECK(untouched(flags + flags_room, sizeof flags - flags_room) && untouched(values + values_room, sizeof values - values_room));
        } else {
            CHECK(load.flags == 99 && load.values == 98);
            CHECK(untouched(flags, sizeof flags) && untouched(values, sizeof values));
        }
        if (failed != before)
            printf("  file %zu of the order of records: refusal %u room %u, place %llu\n", row, load.refusal.number, load.refusal.room, (unsigned long long)load.place);
    }
}

int main(void)
{
    flags_of_a_cell();
    a_flag_layer();
    readers();
    a_count_not_taken_back();
    walls();
    bad_layers();
    aggregates();
    surveys();
    order_of_records();
    printf("layer calls: %d claims hold, %d do not\n", passed, failed);
    return failed != 0;
}
