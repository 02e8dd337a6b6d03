//! The inputs that always come: every length, count and place that the specification names with
//! one off on each side, every order of faults, and doubles that are no numbers, or hardly.

use super::calls::{Call, Of, Request};
use super::survey::head;
use crate::inputs::{cell, odd_doubles};

type Sink<'a> = crate::side_by_side::Sink<'a, Request>;

/// Numbers of aggregations: the six, and some that are none.
pub const HOW: [u64; 11] = [0, 1, 2, 3, 4, 5, 6, 7, 255, 256, 0xFFFF_FFFF];

/// A cell by its 128 bits.
fn raw(number: u128) -> [u8; 16] {
    number.to_be_bytes()
}

/// Ascending cells that differ in every word.
fn row(count: usize) -> Vec<u128> {
    let step = 1 << 96 | 3 << 64 | 0x0000_8001_0000_0103;
    (1..=count as u128).map(|place| place * step).collect()
}

/// What may lie where nothing is kept.
pub fn garbage(length: usize) -> Vec<u8> {
    (0..length)
        .map(|place| 0x5Au8.wrapping_add((place as u8).wrapping_mul(91)))
        .collect()
}

/// A table of this length: the cells' records, as far as there is room, then garbage.
pub fn table(of: Of, records: &[(u128, u64)], length: usize) -> Vec<u8> {
    let mut bytes = Vec::new();
    for &(cell, kept) in records {
        bytes.extend(raw(cell));
        bytes.extend(&kept.to_be_bytes()[24 - of.width()..]);
    }
    let used = bytes.len().min(length);
    bytes.resize(length, 0);
    bytes[used..].copy_from_slice(&garbage(length)[used..]);
    bytes
}

/// Records of these cells; what is kept of each is another number.
fn kept(cells: &[u128]) -> Vec<(u128, u64)> {
    let numbers = (0..).map(|place| 0x3FF0_0000_8000_0001 + (place << 40) + place);
    cells.iter().copied().zip(numbers).collect()
}

/// A table that is just long enough for the records.
fn exact(of: Of, records: &[(u128, u64)]) -> Vec<u8> {
    table(of, records, records.len() * of.width())
}

/// The calls that take a cell.
fn with_cell(of: Of, table: &[u8], count: u64, cell: &[u8], sink: Sink) {
    for null in [false, true] {
        for call in [Call::Get(of), Call::Remove(of), Call::Contains(of)] {
            let request = Request::new(call, &[count], &[table, cell]);
            sink(Request { null, ..request });
        }
        let numbers = [count, 0xFFF0_0000_DEAD_BEEF];
        let request = Request::new(Call::Set(of), &numbers, &[table, cell]);
        sink(Request { null, ..request });
        if !cell.is_empty() && !table.is_empty() {
            break;
        }
    }
}

/// The calls that take none.
fn without_cell(of: Of, table: &[u8], count: u64, sink: Sink) {
    for null in [false, true] {
        let mut lend = |request: Request| sink(Request { null, ..request });
        lend(Request::new(Call::Clear(of), &[], &[table]));
        lend(Request::new(Call::Count(of), &[count], &[table]));
        lend(Request::new(Call::IsEmpty(of), &[count], &[table]));
        let need = (count as usize).min(1100) * of.width();
        for room in [0, 1, need.saturating_sub(1), need, need + 1, need + 30] {
            lend(Request::new(
                Call::List(of),
                &[count],
                &[table, &garbage(room)],
            ));
        }
        let (none, file) = ([], garbage(16 + need));
        lend(match of {
            Of::Flags => Request::new(Call::Write, &[count, 0], &[table, &none, &file]),
            Of::Values => Request::new(Call::Write, &[0, count], &[&none, table, &file]),
        });
        if of == Of::Values {
            for how in HOW {
                for list in [&table[..table.len().min(16)], &[0; 16], &[]] {
                    lend(Request::new(Call::Aggregate, &[count, how], &[table, list]));
                }
                let coarse = garbage(80);
                lend(Request::new(
                    Call::Rollup,
                    &[count, how, 7],
                    &[table, &coarse],
                ));
            }
        }
        if !table.is_empty() {
            break;
        }
    }
}

pub fn limits(sink: Sink) {
    shapes(sink);
    orders(sink);
    places(sink);
    bits(sink);
    kept_numbers(sink);
    aggregates(sink);
    long_lists(sink);
    rollups(sink);
    rollup_rooms(sink);
    files(sink);
    file_orders(sink);
    faults(sink);
    large_files(sink);
    writes(sink);
    flags(sink);
}

/// Lengths of tables and of cells, and counts.
fn shapes(sink: Sink) {
    for of in Of::BOTH {
        let width = of.width();
        for records in [0, 1, 2, 3, 8, 1023, 1024, 1025] {
            let cells = row(records + 1);
            let mut lengths = vec![records * width, records * width + 1, records * width + 5];
            lengths.push((records * width + width).saturating_sub(1));
            if records > 0 {
                lengths.push(records * width - 1);
            }
            for length in lengths {
                let table = table(of, &kept(&cells), length);
                let whole = (length / width) as u64;
                let mut counts = vec![0, 1, 2, whole, whole + 1, 1024, 1025, u64::MAX];
                counts.extend([whole.saturating_sub(1), 1 << 32, 1 << 63]);
                // Counts whose records have small lengths modulo 2^64 and 2^32.
                counts.extend([u64::MAX / width as u64 + 1, (1 << 32) / width as u64 + 1]);
                counts.sort();
                counts.dedup();
                for &count in &counts {
                    let large = length > 1000;
                    if !large || [0, 1, whole, whole + 1, 1024].contains(&count) {
                        without_cell(of, &table, count, sink);
                    }
                    let middle = cells[records / 2];
                    for cell in [0, cells[0], middle, middle + 1, cells[records] - 1] {
                        with_cell(of, &table, count, &raw(cell), sink);
                    }
                    for length in [0, 1, 15, 17, 32] {
                        if !large || count == whole {
                            let long = [raw(middle), raw(middle)].concat();
                            with_cell(of, &table, count, &long[..length], sink);
                        }
                    }
                }
            }
        }
    }
}

/// Ascending cells with the one at this place not above the one before it: the two exchanged, the
/// earlier twice, then the least cell in place of the later, the largest in place of the earlier.
fn broken(cells: &[u128], place: usize) -> [Vec<u128>; 4] {
    let change = |change: fn(&mut [u128])| {
        let mut cells = cells.to_vec();
        change(&mut cells[place - 1..=place]);
        cells
    };
    [
        change(|pair| pair.swap(0, 1)),
        change(|pair| pair[1] = pair[0]),
        change(|pair| pair[1] = 0),
        change(|pair| pair[0] = u128::MAX),
    ]
}

/// Records that are not strictly ascending, at each place, within the count and behind it.
fn orders(sink: Sink) {
    for of in Of::BOTH {
        let mut try_cells = |cells: &[u128], counts: &[usize]| {
            let table = exact(of, &kept(cells));
            for &count in counts {
                with_cell(of, &table, count as u64, &raw(cells[0]), sink);
                with_cell(
                    of,
                    &table,
                    count as u64,
                    &raw(cells[0].wrapping_add(1)),
                    sink,
                );
                without_cell(of, &table, count as u64, sink);
            }
        };
        for records in 2..=9 {
            let counts: Vec<usize> = (0..=records).collect();
            for place in 1..records {
                for cells in broken(&row(records), place) {
                    try_cells(&cells, &counts);
                }
            }
        }
        for place in [1, 2, 511, 512, 513, 1022, 1023] {
            for last in [false, true] {
                let mut cells = row(1024);
                if last {
                    cells.swap(place - 1, place);
                } else {
                    cells[place] = cells[place - 1];
                }
                try_cells(&cells, &[place, place + 1]);
            }
        }
    }
}

/// Cells before, at, between and behind the records of tables of every small size, full or not.
fn places(sink: Sink) {
    for of in Of::BOTH {
        for records in (0..=17).chain([1023, 1024]) {
            let cells = row(records);
            for spare in [0, of.width() - 1, of.width(), 2 * of.width() + 3] {
                let length = records * of.width() + spare;
                let table = table(of, &kept(&cells), length);
                for place in 0..records {
                    if records < 20 || place < 3 || place + 3 > records || place.abs_diff(512) < 3 {
                        for cell in [cells[place] - 1, cells[place], cells[place] + 1] {
                            with_cell(of, &table, records as u64, &raw(cell), sink);
                        }
                    }
                }
                for cell in [0, u128::MAX] {
                    with_cell(of, &table, records as u64, &raw(cell), sink);
                }
            }
        }
    }
}

/// Two cells that differ in one bit, in either order, and a table of such cells.
fn bits(sink: Sink) {
    for of in Of::BOTH {
        let width = of.width();
        for base in [0, u128::MAX, 0x7FFF_FFFF_8000_0000_7FFF_FFFF_8000_0000] {
            for bit in 0..128 {
                let other = base ^ 1 << bit;
                for pair in [[base, other], [other, base]] {
                    let table = table(of, &kept(&pair), 3 * width);
                    for cell in [base, other, base ^ 1 << (bit + 1) % 128] {
                        with_cell(of, &table, 2, &raw(cell), sink);
                        with_cell(of, &table, 1, &raw(cell), sink);
                    }
                    sink(Request::new(Call::Count(of), &[2], &[&table]));
                }
            }
        }
        let cells: Vec<u128> = (0..128).map(|bit| 1 << bit).collect();
        let table = table(of, &kept(&cells), 129 * width);
        for bit in 0..128 {
            for cell in [1 << bit, (1 << bit) + 1, (1u128 << bit).wrapping_mul(3)] {
                with_cell(of, &table, 128, &raw(cell), sink);
            }
        }
    }
}

/// What is kept comes back bit for bit.
fn kept_numbers(sink: Sink) {
    let mut numbers = vec![0, 1, 2, 3, 0x8000_0000, 0xFFFF_FFFF, u64::MAX, 1 << 32];
    numbers.extend(odd_doubles().iter().map(|value| value.to_bits()));
    for of in Of::BOTH {
        let cells = row(3);
        for &number in &numbers {
            for place in 0..3 {
                let mut records = kept(&cells);
                let set = Request::new(
                    Call::Set(of),
                    &[3, number],
                    &[&exact(of, &records), &raw(cells[place])],
                );
                sink(set);
                records[place].1 = number;
                let table = exact(of, &records);
                with_cell(of, &table, 3, &raw(cells[place]), sink);
                without_cell(of, &table, 3, sink);
            }
        }
    }
}

/// One aggregate of values by their places; a place beyond the values is a cell that is missing.
fn aggregate(values: &[f64], places: &[usize], how: u64, sink: Sink) {
    let cells = row(values.len() + 1);
    let records: Vec<(u128, u64)> = cells
        .iter()
        .zip(values)
        .map(|(&cell, value)| (cell, value.to_bits()))
        .collect();
    let list: Vec<u8> = places.iter().flat_map(|&place| raw(cells[place])).collect();
    sink(Request::new(
        Call::Aggregate,
        &[values.len() as u64, how],
        &[&exact(Of::Values, &records), &list],
    ));
}

/// Sets of values, in which order, sign, overflow, rounding and NaN decide.
fn value_sets() -> Vec<Vec<f64>> {
    let tiny = f64::from_bits(1);
    let mut sets = vec![
        vec![],
        vec![1.0, 2.0],
        vec![3.0, 1.0, 2.0],
        vec![1e16, 1.0, -1e16],
        vec![9007199254740992.0, 1.0, 1.0],
        vec![0.1, 0.2, 0.3],
        vec![f64::MAX, f64::MAX, -f64::MAX],
        vec![f64::MAX, f64::MAX, f64::NEG_INFINITY],
        vec![f64::INFINITY, f64::NEG_INFINITY, 1.0],
        vec![tiny, tiny, -tiny],
        vec![f64::MIN_POSITIVE, -tiny, 0.0],
        vec![-0.0, 0.0, -0.0],
        vec![0.0, f64::NAN, 1.0],
        vec![1.0, 1.0, 2.0, 2.0],
        vec![5.0, -5.0, 5.0, -5.0],
    ];
    let odd = odd_doubles();
    for &one in &odd {
        sets.push(vec![one]);
        sets.extend(odd.iter().map(|&other| vec![one, other]));
    }
    sets
}

/// Every list of up to three places, missing ones and repeats among them.
fn aggregates(sink: Sink) {
    for values in value_sets() {
        let choices = values.len() + 1;
        for how in HOW {
            let mut lists = vec![vec![]];
            for length in 1..=3usize {
                for number in 0..choices.pow(length as u32) {
                    let places = (0..length).map(|at| number / choices.pow(at as u32) % choices);
                    lists.push(places.collect());
                }
            }
            // The many pairs of odd doubles get no list of three, and no aggregation gets few.
            lists.truncate(match (values.len(), how) {
                (_, 6..) => 4,
                (2, _) => 13,
                _ => lists.len(),
            });
            for places in lists {
                aggregate(&values, &places, how, sink);
            }
        }
    }
    // A list's length before the layer, the layer before the number.
    let cells = row(2);
    for records in [kept(&cells), kept(&[cells[1], cells[0]])] {
        for length in 0..=49 {
            for how in [0, 1, 6] {
                for count in [0, 1, 2, 3] {
                    let list = [raw(cells[0]), raw(cells[1]), raw(0), raw(1)].concat();
                    sink(Request::new(
                        Call::Aggregate,
                        &[count, how],
                        &[&exact(Of::Values, &records), &list[..length]],
                    ));
                }
            }
        }
    }
}

/// Medians and sums of many values, with repeats.
fn long_lists(sink: Sink) {
    for count in (1..=20).chain([255, 256, 257, 1023, 1024]) {
        // Of the long ones few: they take long.
        let kinds: &[usize] = if count > 20 {
            &[7, 1024]
        } else {
            &[1, 2, 3, 7, 1024]
        };
        for kinds in kinds {
            let values: Vec<f64> = (0..count)
                .map(|place| ((place * 7919) % kinds) as f64 * 0.7 - 1.0)
                .collect();
            for how in 0..6 {
                let backwards: Vec<usize> = (0..count).rev().collect();
                aggregate(&values, &backwards, how, sink);
            }
            let twice: Vec<usize> = (0..4 * count).map(|place| place * 3 % count).collect();
            for how in [1, 5] {
                aggregate(&values, &twice, how, sink);
            }
        }
    }
}

/// A fine layer of these cells, whichever their order, and its count.
fn fine(cells: &[([u8; 16], f64)]) -> (Vec<u8>, u64) {
    let mut records: Vec<(u128, u64)> = cells
        .iter()
        .map(|(cell, value)| (u128::from_be_bytes(*cell), value.to_bits()))
        .collect();
    records.sort();
    records.dedup_by_key(|record| record.0);
    (exact(Of::Values, &records), records.len() as u64)
}

/// Cells of one parent, of equal parents by other fields, of no parent, of mixed parity.
fn families() -> Vec<Vec<[u8; 16]>> {
    let some = |resolution: u8, rest: u16| {
        let points = [
            [0, 0, 0],
            [1, 1, 1],
            [2, 0, 0],
            [-1, -1, -1],
            [-2, 0, 0],
            [4, 2, 2],
        ];
        points
            .map(|point| cell(3, resolution, point, rest))
            .to_vec()
    };
    let by_fields: Vec<[u8; 16]> = [0, 1, 0x10, 0x1000, 0xFFFF]
        .map(|rest| cell(3, 1, [4, 2, 2], rest))
        .to_vec();
    let mut order = Vec::new();
    for z in -2..=2 {
        for y in -2..=2 {
            order.push(cell(0, 2, [y & 1 | z & 1, y, z], 0));
        }
    }
    vec![
        vec![],
        some(0, 0),
        some(1, 0),
        some(255, 0),
        by_fields,
        vec![cell(3, 1, [0, 1, 0], 0), cell(3, 0, [0, 1, 0], 0)],
        [some(0, 0), some(1, 0), vec![cell(3, 1, [0, 1, 0], 0)]].concat(),
        [some(1, 0), some(1, 0x20), some(2, 0)].concat(),
        vec![cell(0, 1, [0, 0, 0], 0), cell(255, 1, [0, 0, 0], 0)],
        order,
    ]
}

fn rollups(sink: Sink) {
    let sets: [&[f64]; 9] = [
        &[1.0],
        &[0.1, 0.2, 0.3],
        &[-0.0, 0.0],
        &[-0.0],
        &[1e16, 1.0, -1e16],
        &[f64::INFINITY, f64::NEG_INFINITY],
        &[f64::MAX, f64::MAX, f64::NEG_INFINITY],
        &[f64::NAN],
        &[2.0, 3.0, 4.0, 5.0, 6.0, 7.0, f64::NAN],
    ];
    for family in families() {
        for set in sets {
            let values = set.iter().copied().cycle();
            let (table, count) = fine(&family.iter().copied().zip(values).collect::<Vec<_>>());
            for how in HOW {
                for records in [0, 1, 2, 3, 4, 5, 6, 12, 30] {
                    for more in [0, 7, 23] {
                        let coarse = garbage(24 * records + more);
                        let numbers = [count, how, 5 - 2 * (more as u64 & 1)];
                        sink(Request::new(Call::Rollup, &numbers, &[&table, &coarse]));
                    }
                }
            }
        }
        // A NaN of one cell only: whether it is left out.
        for place in 0..family.len() {
            let values = (0..).map(|at| if at == place { f64::NAN } else { 1.0 });
            let (table, count) = fine(&family.iter().copied().zip(values).collect::<Vec<_>>());
            for how in HOW {
                for records in [0, 30] {
                    let coarse = garbage(24 * records);
                    let numbers = [count, how, u64::MAX];
                    sink(Request::new(Call::Rollup, &numbers, &[&table, &coarse]));
                }
            }
        }
    }
}

/// Many groups, and coarse tables at the limit.
fn rollup_rooms(sink: Sink) {
    for groups in [1, 2, 1023, 1024] {
        let cells: Vec<([u8; 16], f64)> = (0..groups)
            .map(|place| (cell(0, 4, [4 * place, 0, 0], 0), place as f64))
            .collect();
        let (table, count) = fine(&cells);
        let exact = 24 * groups as usize;
        for length in [
            0,
            1,
            exact - 1,
            exact,
            exact + 1,
            exact + 24,
            24576,
            24581,
            24600,
            24624,
        ] {
            for how in [0, 1, 5, 6] {
                let coarse = garbage(length);
                let numbers = [count, how, 1025];
                sink(Request::new(Call::Rollup, &numbers, &[&table, &coarse]));
            }
        }
    }
}

/// A file of these records as they stand.
pub fn file(flags: &[(u128, u64)], values: &[(u128, u64)]) -> Vec<u8> {
    [
        head(flags.len(), values.len()),
        exact(Of::Flags, flags),
        exact(Of::Values, values),
    ]
    .concat()
}

/// A load into tables of these lengths, full of garbage, with counts that say nothing.
fn load(file: &[u8], flags: usize, values: usize, sink: Sink) {
    for null in [false, true] {
        let (flags, values) = (garbage(flags), garbage(values));
        let request = Request::new(Call::Load, &[u64::MAX, 3], &[file, &flags, &values]);
        sink(Request { null, ..request });
        if !file.is_empty() && !flags.is_empty() && !values.is_empty() {
            break;
        }
    }
}

/// Small files: tables of every room around theirs, every length up to theirs and some more.
fn files(sink: Sink) {
    for flags in 0..4usize {
        for values in 0..4usize {
            for turn in 0..4 {
                let mut cells = row(5);
                let mut others = cells[turn % 2..].to_vec();
                // The last record of a section is not above the one before it.
                if turn == 2 && flags > 1 {
                    cells[flags - 1] = cells[flags - 2];
                }
                if turn == 3 && values > 1 {
                    others.swap(values - 2, values - 1);
                }
                let bytes = file(&kept(&cells[..flags]), &kept(&others[..values]));
                for room in 0..=flags + 1 {
                    for other in 0..=values + 1 {
                        load(&bytes, 20 * room, 24 * other, sink);
                        load(&bytes, 20 * room + 19, 24 * other + 23, sink);
                    }
                }
                for length in 0..bytes.len() {
                    load(&bytes[..length], 80, 96, sink);
                }
                for more in [1, 2, 20, 24] {
                    load(&[&bytes[..], &garbage(more)].concat(), 80, 96, sink);
                }
            }
        }
    }
}

/// Every sequence of up to this many of these cells.
fn sequences(cells: &[u128], most: usize) -> Vec<Vec<u128>> {
    let mut all = vec![vec![]];
    let mut from = 0;
    for _ in 0..most {
        let end = all.len();
        for place in from..end {
            for &cell in cells {
                let longer = [&all[place][..], &[cell]].concat();
                all.push(longer);
            }
        }
        from = end;
    }
    all
}

/// Files whose sections ascend or not: which record is told, and what comes before and behind it.
fn file_orders(sink: Sink) {
    // Up to three records of three cells in each section, in every order and with every repeat.
    let small = sequences(&row(3), 3);
    for flags in &small {
        for values in &small {
            let bytes = file(&kept(flags), &kept(values));
            let longer = [&bytes[..], &[0]].concat();
            let (room, other) = (20 * flags.len(), 24 * values.len());
            load(&bytes, room, other, sink);
            load(&bytes, room.saturating_sub(1), other, sink);
            load(&bytes, room, other.saturating_sub(1), sink);
            load(&bytes[..bytes.len() - 1], room, other, sink);
            load(&longer, room, other, sink);
        }
    }
    let mut in_each = |cells: &[u128]| {
        let records = kept(cells);
        for room in [cells.len() - 1, cells.len()] {
            load(&file(&records, &[]), 20 * room, 24, sink);
            load(&file(&[], &records), 20, 24 * room, sink);
            load(&file(&records, &records), 20 * room, 24 * room, sink);
        }
    };
    // At one place, and at two: the first is told.
    for records in 4..=9 {
        for place in 1..records {
            for cells in broken(&row(records), place) {
                in_each(&cells);
                for again in place + 1..records {
                    broken(&cells, again)
                        .iter()
                        .for_each(|cells| in_each(cells));
                }
            }
        }
    }
    // All 128 bits of an id count, and it has no sign.
    for base in [0, u128::MAX, 0x7FFF_FFFF_8000_0000_7FFF_FFFF_8000_0000] {
        for bit in 0..128 {
            let other = base ^ 1 << bit;
            in_each(&[base, other]);
            in_each(&[other, base]);
            in_each(&[base, base ^ 1 << 127, other]);
        }
    }
}

/// Each fault of a head alone and each two of them; every bit of the head. Also before records that
/// do not ascend.
fn faults(sink: Sink) {
    let cells = row(3);
    let falling: Vec<u128> = cells.iter().rev().copied().collect();
    for cells in [cells, falling] {
        head_faults(&file(&kept(&cells[..2]), &kept(&cells[1..])), sink);
    }
}

fn head_faults(good: &[u8], sink: Sink) {
    for bit in 0..128 {
        let mut bytes = good.to_vec();
        bytes[bit / 8] ^= 128 >> (bit % 8);
        load(&bytes, 60, 72, sink);
        load(&bytes, 0, 0, sink);
        load(&bytes[..16], 60, 72, sink);
    }
    type Fault = (usize, [u8; 2]);
    let heads: [Fault; 14] = [
        (0, [0, 0]),
        (0, [1, 0]),
        (0, [0, 2]),
        (2, [4, 0]),
        (2, [4, 1]),
        (2, [255, 255]),
        (4, [4, 0]),
        (4, [4, 1]),
        (4, [255, 255]),
        (6, [0, 1]),
        (6, [128, 0]),
        (8, [0, 1]),
        (10, [0, 15]),
        (14, [0, 57]),
    ];
    for one in heads {
        for other in heads {
            for length in [15, 16, 17, good.len() - 1, good.len(), good.len() + 1] {
                let mut bytes = [good, &[0; 4]].concat();
                for (place, halves) in [one, other] {
                    bytes[place..place + 2].copy_from_slice(&halves);
                }
                load(&bytes[..length], 60, 72, sink);
                load(&bytes[..length], 20, 24, sink);
            }
        }
    }
}

/// Files of 1,024 records and counts of 1,025, tables at the limit; and files that do not ascend in
/// the first, a middle and the last record.
fn large_files(sink: Sink) {
    let ascending = kept(&row(1024));
    let descending: Vec<(u128, u64)> = ascending.iter().rev().copied().collect();
    let one: Vec<(u128, u64)> = ascending.iter().map(|record| (9, record.1)).collect();
    let more = kept(&row(1025));
    for records in [&ascending, &descending, &one, &more] {
        for bytes in [
            file(records, &[]),
            file(&[], records),
            file(records, records),
        ] {
            for [flags, values] in [
                [1024, 1024],
                [1023, 1024],
                [1024, 1023],
                [1, 1],
                [1026, 1025],
            ] {
                load(&bytes, 20 * flags, 24 * values, sink);
                load(&bytes, 20 * flags + 5, 24 * values + 5, sink);
            }
            load(&bytes[..bytes.len() - 1], 20480, 24576, sink);
            load(&[&bytes[..], &[0]].concat(), 20480, 24576, sink);
        }
    }
    for place in [1, 2, 512, 1022, 1023] {
        for cells in broken(&row(1024), place) {
            let records = kept(&cells);
            for bytes in [
                file(&records, &ascending),
                file(&ascending, &records),
                file(&records, &records),
            ] {
                load(&bytes, 20480, 24576, sink);
                load(&bytes, 20479, 24575, sink);
                load(&bytes[..bytes.len() - 1], 20480, 24576, sink);
                load(&[&bytes[..], &[0]].concat(), 20480, 24576, sink);
            }
        }
    }
    // The least ids there are, the last of them twice.
    let mut least: Vec<u128> = (0..1024).collect();
    load(&file(&kept(&least), &[]), 20460, 0, sink);
    load(&file(&kept(&least), &[]), 20480, 0, sink);
    least[1023] = 1022;
    load(&file(&kept(&least), &[]), 20480, 0, sink);
}

/// Files of small layers into every room; layers that are none.
fn writes(sink: Sink) {
    let cells = row(4);
    for flags in 0..4usize {
        for values in 0..4usize {
            let table = table(Of::Flags, &kept(&cells[..flags]), 20 * flags + flags);
            let other = exact(Of::Values, &kept(&cells[..values]));
            let numbers = [flags as u64, values as u64];
            for room in 0..=16 + 20 * flags + 24 * values + 3 {
                let out = garbage(room);
                for null in [false, true] {
                    let request = Request::new(Call::Write, &numbers, &[&table, &other, &out]);
                    sink(Request { null, ..request });
                }
            }
            for [more, others] in [[1, 0], [0, 1], [1, 1]] {
                let numbers = [numbers[0] + more, numbers[1] + others];
                let buffers = [&table[..], &other[..], &garbage(200)[..]];
                sink(Request::new(Call::Write, &numbers, &buffers));
            }
        }
    }
    let unsorted = kept(&[cells[1], cells[0]]);
    for room in [0, 200] {
        for [flags, values] in [[0, 2], [2, 0], [1, 2], [2, 1], [1, 1], [2, 2]] {
            sink(Request::new(
                Call::Write,
                &[flags, values],
                &[
                    &exact(Of::Flags, &unsorted),
                    &exact(Of::Values, &unsorted),
                    &garbage(room),
                ],
            ));
        }
    }
    let full = kept(&row(1024));
    for room in [45071, 45072, 45073, 70000] {
        sink(Request::new(
            Call::Write,
            &[1024, 1024],
            &[
                &exact(Of::Flags, &full),
                &exact(Of::Values, &full),
                &garbage(room),
            ],
        ));
    }
}

/// The calls on flags alone.
fn flags(sink: Sink) {
    let mut words = vec![0, 0xFFFF_FFFF, 0xA5A5_5A5A, 15, 14, 3, 6, 0x7FFF_FFFF];
    words.extend((0..32).map(|bit| 1u64 << bit));
    for &flags in &words {
        sink(Request::new(Call::IsBlocked, &[flags], &[]));
        for &flag in &words {
            for call in [Call::HasFlag, Call::SetFlag, Call::ClearFlag] {
                sink(Request::new(call, &[flags, flag], &[]));
            }
        }
    }
}
