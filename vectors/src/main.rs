//! Writes four fixed lists of the oracle's answers, which the crate `replay` replays with no Rust at hand.
//! No library is involved, and the files are the same each time.
//!
//!     vectors [FOLDER]      answers.bin, layers.bin, paths.bin and searches.bin, in crates/replay/data unless named
//!     vectors FOLDER calls  answers.calls, .. there instead: the calls of each list in one batch, as the programs of
//!                           compare/*.c take it, so that two archives can be asked the same
//!
//! `layers.bin` is described in layers.rs, `paths.bin` in paths.rs, `searches.bin` in searches.rs. `answers.bin` is records of 64 bytes, at most 1,024, all numbers big-endian:
//!
//! | bytes | what |
//! |---|---|
//! | 0 | the call's number, below |
//! | 1 | which element of a listed answer this record is about, from 0; else 0 |
//! | 2 | length of the first cell slice in bytes; 0 where the call takes none |
//! | 3 | length of the second; likewise |
//! | 4 | length of the output buffer in elements (i32 for 5 and 6, else bytes); 0 where it has none |
//! | 5 | expected refusal number; 0 where the call answers |
//! | 6 | expected room, of refusal 10 |
//! | 7 | 0 |
//! | 8..39 | arguments in the order of include/tishkolan.h, without lengths and buffers: bits of a double 8 bytes, i32 and u32 4, u8 1; the rest 0. The first cell slice begins at byte 8, the second at byte 24, and each has its length of bytes, whatever lies there; the resolution of 21 is byte 24 |
//! | 40..63 | the answer, the rest 0; where the call refuses, x, y, z of refusal 1, else 0 |
//!
//! Labels do not fit so. Of 25 the label that is the answer is at 24..60. Of 26 the label that is read begins at byte 8 and has
//! its length, byte 2, at most 40; the answer is at 48..63, and where the call refuses its place, 8 bytes at 48. Neither
//! carries coordinates. Their answers are those of compare/src/labels/reading.rs, to which the Rust is held.
//!
//! | no | call | answer |
//! |---|---|---|
//! | 1 | square_root(bits) | bits, 8 bytes |
//! | 2 | parity(x, y, z) | i32 |
//! | 3 | opposite(parity) | i32 |
//! | 4 | is_valid_lattice_point(x, y, z) | i32, 0 or 1 |
//! | 5 | lattice_neighbors(x, y, z) | x, y, z of element 0..13 |
//! | 6 | lattice_children(x, y, z) | x, y, z of element 0..7 |
//! | 7 | lattice_parent(x, y, z) | x, y, z |
//! | 8 | physical_to_lattice(x, y, z, resolution) | x, y, z |
//! | 9 | to_physical(x, y, z) | bits of x, y, z, 24 bytes |
//! | 10 | lattice_distance(ax, ay, az, bx, by, bz) | bits |
//! | 11 | lattice_manhattan_distance(ax, ay, az, bx, by, bz) | i32 |
//! | 12 | cell_new(frame, resolution, x, y, z, exponent, flags) | the cell, 16 bytes |
//! | 13 | cell_from_coords(frame, resolution, x, y, z) | the cell |
//! | 14 | cell_fields(cell) | frame, resolution, exponent, flags, reserved (1 byte each), x, y, z |
//! | 15 | cell_lattice_coord(cell) | x, y, z |
//! | 16 | cell_compare(first, second) | i32: -1, 0 or 1 |
//! | 17 | cell_is_plain(cell) | i32, 0 or 1 |
//! | 18 | cell_neighbors(cell) | the cell of element 0..13 |
//! | 19 | cell_children(cell) | the cell of element 0..7 |
//! | 20 | cell_parent(cell) | the cell |
//! | 21 | cell_ancestor(cell, resolution) | the cell |
//! | 22 | cell_between(first, second) | nothing |
//! | 23 | cell_distance(first, second) | bits |
//! | 24 | cell_manhattan_distance(first, second) | i32 |
//! | 25 | cell_to_bech32m(cell) | the label, 37 bytes |
//! | 26 | cell_from_bech32m(label) | the cell |

mod layers;
mod paths;
mod searches;

use compare::calls::{Call, Parameter, Request};
use compare::expected::{expected, quiet, Answer};
use compare::labels::reading::{self, BECH32, BECH32M};
use compare::random::Random;
use compare::side_by_side::Asked;

const RECORD: usize = 64;
const MOST_LABEL: usize = 40;
const MIN: i64 = i32::MIN as i64;
const MAX: i64 = i32::MAX as i64;

type Point = [i64; 3];

/// The records made so far, and the calls that they are about.
struct List {
    bytes: Vec<u8>,
    calls: Vec<u8>,
}

impl List {
    /// One record, or one for each element of a listed answer.
    fn add(&mut self, request: Request) {
        request.send(&mut self.calls);
        let answer = expected(&request);
        let elements = match request.call {
            Call::LatticeNeighbors | Call::CellNeighbors if answer.refusal.number == 0 => 14,
            Call::LatticeChildren | Call::CellChildren if answer.refusal.number == 0 => 8,
            _ => 1,
        };
        for index in 0..elements {
            let record = record(&request, &answer, index);
            self.bytes.extend(record);
        }
    }

    /// One element only of a listed answer.
    fn add_element(&mut self, request: Request, index: usize) {
        request.send(&mut self.calls);
        let record = record(&request, &expected(&request), index);
        self.bytes.extend(record);
    }
}

fn record(request: &Request, answer: &Answer, index: usize) -> [u8; RECORD] {
    let (first, second) = (request.first.slice(), request.second.slice());
    let mut record = [0; RECORD];
    record[0] = request.call.number();
    record[1] = index as u8;
    record[2] = first.len() as u8;
    record[3] = second.len() as u8;
    record[4] = u8::try_from(request.room).unwrap();
    record[5] = answer.refusal.number as u8;
    record[6] = answer.refusal.room as u8;

    let mut arguments = Vec::new();
    let mut next = 0;
    for parameter in request.call.parameters() {
        let number = request.numbers[next];
        next += 1;
        match parameter {
            Parameter::Bits => arguments.extend(number.to_be_bytes()),
            Parameter::I32 => arguments.extend((number as i32).to_be_bytes()),
            Parameter::U32 => arguments.extend((number as u32).to_be_bytes()),
            Parameter::U8 => arguments.push(number as u8),
            Parameter::Cell => {
                let slice = if arguments.is_empty() { first } else { second };
                let mut cell = [0; 16];
                let length = slice.len().min(16);
                cell[..length].copy_from_slice(&slice[..length]);
                arguments.extend(cell);
                next -= 1;
            }
            Parameter::Label => {
                assert!(first.len() <= MOST_LABEL);
                arguments.extend(first);
                next -= 1;
            }
        }
    }
    record[8..8 + arguments.len()].copy_from_slice(&arguments);

    let said = if answer.refusal.number == 0 {
        payload(request.call, answer, index)
    } else if request.call == Call::CellFromBech32m {
        answer.values[0].to_be_bytes().to_vec()
    } else {
        let refusal = answer.refusal;
        [refusal.x, refusal.y, refusal.z]
            .map(i32::to_be_bytes)
            .concat()
    };
    let at = match request.call {
        Call::CellToBech32m => 24,
        Call::CellFromBech32m => 48,
        _ => 40,
    };
    record[at..at + said.len()].copy_from_slice(&said);
    record
}

fn payload(call: Call, answer: &Answer, index: usize) -> Vec<u8> {
    let i32_at = |place: usize| (answer.values[place] as i32).to_be_bytes();
    let bits_at = |place: usize| answer.values[place].to_be_bytes();
    match call {
        Call::SquareRoot | Call::LatticeDistance | Call::CellDistance => bits_at(0).to_vec(),
        Call::Parity
        | Call::Opposite
        | Call::IsValidLatticePoint
        | Call::LatticeManhattanDistance
        | Call::CellManhattanDistance
        | Call::CellCompare
        | Call::CellIsPlain => i32_at(0).to_vec(),
        Call::LatticeParent | Call::PhysicalToLattice | Call::CellLatticeCoord => {
            [0, 1, 2].map(i32_at).concat()
        }
        Call::ToPhysical => [0, 1, 2].map(bits_at).concat(),
        Call::CellFields => {
            let mut fields: Vec<u8> = answer.values[..5].iter().map(|&byte| byte as u8).collect();
            fields.extend([5, 6, 7].map(i32_at).concat());
            fields
        }
        // The oracle's i32 are written little-endian to a buffer.
        Call::LatticeNeighbors | Call::LatticeChildren => answer.front[12 * index..][..12]
            .chunks(4)
            .flat_map(|word| word.iter().rev().copied())
            .collect(),
        Call::CellNeighbors | Call::CellChildren => answer.front[16 * index..][..16].to_vec(),
        Call::CellNew
        | Call::CellFromCoords
        | Call::CellParent
        | Call::CellAncestor
        | Call::CellToBech32m
        | Call::CellFromBech32m => answer.front.clone(),
        Call::CellBetween => Vec::new(),
    }
}

// ---- the list

/// The 16 bytes of a cell; `rest` is reserved, flags and exponent, bits 28 down to 16.
fn cell(frame: u8, resolution: u8, point: Point, rest: u16) -> [u8; 16] {
    let [x, y, z] = point.map(|number| (number as i32).to_be_bytes());
    let mut bytes = [0; 16];
    bytes[0..4].copy_from_slice(&z);
    bytes[4..8].copy_from_slice(&y);
    bytes[8..12].copy_from_slice(&x);
    bytes[12..14].copy_from_slice(&rest.to_be_bytes());
    bytes[14] = resolution;
    bytes[15] = frame;
    bytes
}

fn roots(list: &mut List) {
    let mut values = vec![
        0.0, -0.0, 1.0, 2.0, 3.0, 4.0, 5.0, 12.0, 15.0, 16.0, 17.0, 24.0, 99.0, 100.0, 101.0, 0.5,
        1.5, 2.25, -1.0, -4.0, 1e300, 0.999, 1e19,
    ];
    for power in [26, 31, 32, 51, 52, 53, 54, 62, 63, 64] {
        let value = 2.0f64.powi(power);
        values.extend([
            value.next_down(),
            value,
            value.next_up(),
            value - 1.0,
            value + 1.0,
        ]);
    }
    // Squares near 2^64 and 2^53, and beside the middle of two roots.
    for number in [94906265u64, 94906266, 4294967295, 4294967294, 3037000500] {
        let square = number * number;
        values.extend([square as f64, (square - 1) as f64, (square + number) as f64]);
    }
    for value in values {
        list.add(Request::new(Call::SquareRoot, &[value.to_bits() as i64]));
    }
    for bits in [
        0x7FF0_0000_0000_0000u64,
        0xFFF0_0000_0000_0000,
        0x7FF8_0000_0000_0000,
        0xFFF8_0000_0000_0000,
        0x7FF0_0000_0000_0001,
        0x7FFF_FFFF_FFFF_FFFF,
        0xFFFF_FFFF_FFFF_FFFF,
        0x0000_0000_0000_0001,
        0x8000_0000_0000_0001,
        0x000F_FFFF_FFFF_FFFF,
        0x0010_0000_0000_0000,
    ] {
        list.add(Request::new(Call::SquareRoot, &[bits as i64]));
    }
}

const POINTS: [Point; 20] = [
    [0, 0, 0],
    [1, 1, 1],
    [-1, -1, -1],
    [4, 2, 2],
    [-2, 0, 0],
    [-3, 1, -1],
    [3, -5, 7],
    [-4, 6, -10],
    [0, 1, 0],
    [1, 0, 0],
    [0, 0, -1],
    [-1, -1, -2],
    [MIN, MIN, MIN],
    [MAX, MAX, MAX],
    [MIN, 0, 2],
    [MAX, -1, MIN + 1],
    [MAX - 1, MIN, 0],
    [MAX, MIN, 0],
    [1073741824, -1073741824, 2],
    [-1073741823, 1073741823, 1],
];

/// The last point that neighbours and children allow and the first that they do not, by axis.
fn edges() -> Vec<Point> {
    let mut edges = Vec::new();
    for axis in 0..3 {
        for number in [MAX - 2, MAX - 1, MIN + 1, MIN + 2] {
            let mut point = [number & 1; 3];
            point[axis] = number;
            edges.push(point);
        }
        for number in [
            1073741822,
            1073741823,
            -1073741823,
            -1073741824,
            -1073741825,
        ] {
            let mut point = [number & 1; 3];
            point[axis] = number;
            edges.push(point);
        }
    }
    edges
}

fn lattice(list: &mut List) {
    for point in POINTS {
        list.add(Request::new(Call::Parity, &point));
        list.add(Request::new(Call::IsValidLatticePoint, &point));
        list.add(Request::new(Call::LatticeParent, &point));
        list.add(Request::new(Call::ToPhysical, &point));
    }
    for parity in [0, 1, 2, 3, 256, 0xFFFF_FFFF] {
        list.add(Request::new(Call::Opposite, &[parity]));
    }
    // Parents of all kinds: the eight children of an even and of an odd point on either side.
    for x in -2..=2 {
        for [y, z] in [[x, x], [x + 2, x - 2]] {
            list.add(Request::new(Call::LatticeParent, &[x, y, z]));
        }
    }
    for call in [Call::LatticeNeighbors, Call::LatticeChildren] {
        let exact = call.buffer().unwrap().1;
        for point in [[0, 0, 0], [-3, 1, -1], [0, 1, 0]] {
            list.add(Request::new(call, &point));
        }
        for point in edges() {
            list.add_element(Request::new(call, &point), 0);
        }
        for room in [0, 1, exact - 1, exact + 1] {
            list.add_element(Request::new(call, &[4, 2, 2]).room(room), 3);
        }
    }
}

fn snaps(list: &mut List) {
    let snap = |list: &mut List, point: [f64; 3], resolution: i64| {
        let [x, y, z] = point.map(|value| value.to_bits() as i64);
        list.add(Request::new(
            Call::PhysicalToLattice,
            &[x, y, z, resolution],
        ));
    };
    for point in [
        [0.5, 0.5, 0.5],
        [-1.0, 0.0, 0.0],
        [1.0, 0.0, 0.0],
        [0.0, -1.0, 0.0],
        [0.0, 0.0, 1.0],
        [2147483646.0, 0.0, 0.0],
        [2147483646.5, 0.0, 0.0],
        [0.0, 2147483646.0f64.next_up(), 0.0],
        [0.0, 0.0, -2147483646.0],
        [0.0, 0.0, -2147483646.0f64.next_up()],
        [2147483645.5, -2147483645.5, 2147483645.5],
        [2147483646.0, 2147483646.0, 2147483646.0],
        [-2147483646.0, -2147483646.0, -2147483645.0],
        [2147483645.0, 2147483645.0, 2147483646.0],
        [-0.0, -0.0, -0.0],
        [0.5, 0.5, 0.5f64.next_up()],
        [0.5, 0.5, 0.5f64.next_down()],
        [-0.5, -0.5, -0.5],
        [-0.5, 0.5, -0.5f64.next_up()],
        [1.5, 1.5, 1.5],
        [0.75, 0.25, 0.5],
        [0.1, 0.2, 1.2],
        [0.75, 0.03125, 0.71875f64.next_up()],
        [0.0, 1.0, 1.0],
        [2.0, 1.0, 1.0],
        [-2.0, 1.0, -1.0],
        [1.0, 0.0, 3.0],
        [-1.0, 1.0, -4.0],
        [1000000.1, 999999.9, 1000000.5],
        [f64::NAN, 0.0, 0.0],
        [0.0, -f64::NAN, 0.0],
        [0.0, 0.0, f64::from_bits(0x7FF0_0000_0000_0001)],
        [f64::INFINITY, 0.0, 0.0],
        [0.0, f64::NEG_INFINITY, 0.0],
        [f64::MAX, 0.0, 0.0],
        [f64::from_bits(1), -f64::from_bits(1), f64::MIN_POSITIVE],
    ] {
        snap(list, point, 0);
    }
    for point in rounded_ties() {
        snap(list, point, 0);
    }
    // A grid of halves.
    for place in 0..27 {
        let half = |place: i32| f64::from(place % 3 - 1) * 0.5 + 1.0;
        snap(list, [half(place), half(place / 3), -half(place / 9)], 0);
    }
    for resolution in [1, 2, 7, 31, 32, 127, 128, 254, 255] {
        let scale = 2.0f64.powi(resolution as i32);
        for point in [
            [0.5, 0.5, 0.5],
            [3.0, -2.75, 5.25],
            [2147483646.0, 1.0, -1.0],
        ] {
            snap(list, point.map(|value| value / scale), resolution);
        }
        snap(
            list,
            [2147483646.0f64.next_up() / scale, 0.0, 0.0],
            resolution,
        );
        snap(list, [0.0, f64::from_bits(1), 1.0], resolution);
    }
}

/// Points about as far from (0, 0, 0) as from (1, 1, 1), where another way to sum the squares
/// would choose the other point: four for the sum from the other end, four for fused products.
fn rounded_ties() -> Vec<[f64; 3]> {
    let plain = |[x, y, z]: [f64; 3]| x * x + y * y + z * z;
    let other_end = |[x, y, z]: [f64; 3]| z * z + y * y + x * x;
    let fused = |[x, y, z]: [f64; 3]| z.mul_add(z, y.mul_add(y, x * x));
    let mut random = Random::new(1);
    let mut found = [Vec::new(), Vec::new()];
    while found.iter().any(|points| points.len() < 4) {
        let [x, y] = [(); 2].map(|()| (random.next() >> 11) as f64 / (1u64 << 53) as f64);
        let even = [x, y, 1.5 - x - y];
        let odd = even.map(|number| 1.0 - number);
        let chosen = plain(even) <= plain(odd);
        for (points, sum) in found
            .iter_mut()
            .zip([&other_end as &dyn Fn(_) -> f64, &fused])
        {
            if (sum(even) <= sum(odd)) != chosen
                && even[2] > 0.0
                && even[2] < 1.0
                && points.len() < 4
            {
                points.push(even);
            }
        }
    }
    found.concat()
}

/// Pairs whose distance would be another if the squares were summed from the other end.
fn rounded_pairs() -> Vec<[Point; 2]> {
    let mut random = Random::new(2);
    let mut found = Vec::new();
    while found.len() < 6 {
        let point = [(); 3].map(|()| ((random.next() as i32) >> 1 & !1) as i64);
        let [x, y, z] = point.map(|number| number as f64);
        let sums = [x * x + y * y + z * z, z * z + y * y + x * x];
        if sums[0].sqrt() != sums[1].sqrt() {
            found.push([point, [0, 0, 0]]);
        }
    }
    found
}

const PAIRS: [[Point; 2]; 22] = [
    [[0, 0, 0], [0, 0, 0]],
    [[0, 0, 0], [1, 1, 1]],
    [[0, 0, 0], [2, 0, 0]],
    [[1, -1, 1], [0, 0, -2]],
    [[-7, 3, 5], [4, -12, 100]],
    [[0, 1, 0], [0, 0, 3]],
    [[0, 0, 0], [0, 0, 3]],
    [[0, 1, 0], [0, 0, 0]],
    [[MIN, 0, 0], [0, 0, 0]],
    [[0, 0, 0], [MIN, 0, 0]],
    [[MAX, 1, 1], [0, 0, 0]],
    [[MAX, 1, 1], [1, 1, 1]],
    [[0, MAX - 1, 0], [0, 0, 0]],
    [[0, MAX - 1, 0], [2, 0, 0]],
    [[MAX, 1, 1], [-1, 1, 1]],
    [[-1, -1, -1], [-1, MAX, -1]],
    [[MAX, 1, 1], [MIN + 1, 1, 1]],
    [[715827883, 715827883, 715827881], [0, 0, 0]],
    [[715827883, 715827883, 715827883], [0, 0, 0]],
    [[1073741823, -1073741823, 1], [-1, 1, 1]],
    [[MAX, MAX, MAX], [0, 0, 0]],
    [
        [123456789, -987654321, 192837465],
        [-192837464, 987654320, -123456788],
    ],
];

fn distances(list: &mut List) {
    for [first, second] in PAIRS.into_iter().chain(rounded_pairs()) {
        let numbers = [first, second].concat();
        list.add(Request::new(Call::LatticeDistance, &numbers));
        list.add(Request::new(Call::LatticeManhattanDistance, &numbers));
        // Frame, resolution, flags take no part in these.
        let one = cell(1, 4, first, 0);
        let other = cell(2, 4, second, 0x0A5C);
        for call in [
            Call::CellDistance,
            Call::CellManhattanDistance,
            Call::CellBetween,
            Call::CellCompare,
        ] {
            list.add(Request::cells(call, &one, &other));
        }
    }
    let mixed = cell(1, 4, [0, 1, 0], 0);
    let finer = cell(1, 5, [0, 1, 0], 0);
    let even = cell(1, 4, [0, 0, 0], 0);
    list.add(Request::cells(Call::CellBetween, &mixed, &finer));
    list.add(Request::cells(Call::CellBetween, &finer, &mixed));
    list.add(Request::cells(
        Call::CellDistance,
        &even,
        &cell(1, 5, [1, 1, 1], 0),
    ));
    for call in [
        Call::CellDistance,
        Call::CellManhattanDistance,
        Call::CellBetween,
        Call::CellCompare,
    ] {
        for [first, second] in [[0, 16], [15, 16], [16, 15], [17, 16], [16, 0]] {
            let long = [even, even].concat();
            list.add(Request::cells(call, &long[..first], &long[..second]));
        }
    }
    // One bit of every field.
    for bit in [0, 7, 8, 15, 16, 19, 20, 27, 28, 31, 32, 63, 64, 95, 96, 127] {
        let other = (1u128 << bit).to_be_bytes();
        list.add(Request::cells(Call::CellCompare, &even, &other));
    }
}

fn cells(list: &mut List) {
    for fields in [
        [0, 3, 1, -1, 1, 28, 165],
        [0, 0, 0, 0, 0, 0, 0],
        [255, 255, MAX, MAX, MAX, 255, 255],
        [1, 2, MIN, MIN, MIN, 16, 1],
        [7, 9, 4, 2, 2, 15, 128],
        [7, 9, 4, 2, 2, 16, 0],
        [7, 9, 0, 1, 0, 15, 128],
        [7, 9, -1, -1, 0, 0, 0],
        [0, 1, 0, 0, MAX, 0, 0],
        [9, 0, -2, 4, -6, 1, 16],
    ] {
        list.add(Request::new(Call::CellNew, &fields));
        list.add(Request::new(Call::CellFromCoords, &fields[..5]));
    }
    for room in [0, 1, 15, 17, 40] {
        list.add(Request::new(Call::CellNew, &[0, 3, 1, -1, 1, 28, 165]).room(room));
        list.add(Request::new(Call::CellFromCoords, &[0, 3, 0, 1, 0]).room(room));
        list.add(Request::new(Call::CellFromCoords, &[0, 3, 2, 4, 0]).room(room));
    }

    let some = [
        cell(0, 3, [1, -1, 1], 0x0A5C),
        cell(0, 0, [0, 0, 0], 0),
        cell(255, 255, [-1, -1, -1], 0xFFFF),
        cell(7, 9, [4, 2, 2], 0x1000),
        cell(7, 9, [-3, 1, -1], 0x0100),
        cell(7, 9, [-2, 0, 0], 0x0010),
        cell(7, 1, [MAX, MAX, MAX], 0x0001),
        cell(7, 254, [MIN, MIN, MIN], 0),
        cell(7, 9, [0, 1, 0], 0),
        cell(7, 0, [0, 1, 0], 0x8000),
        cell(7, 255, [0, 1, 0], 0x0008),
        cell(0x12, 0x34, [0x12345678, -0x12345678, 0x7654320], 0x89AB),
    ];
    for bytes in some {
        for call in [
            Call::CellFields,
            Call::CellLatticeCoord,
            Call::CellIsPlain,
            Call::CellParent,
        ] {
            list.add(Request::cell(call, &bytes));
        }
        for call in [Call::CellNeighbors, Call::CellChildren] {
            list.add_element(Request::cell(call, &bytes), 5);
        }
        for resolution in [0, 1, 8, 9, 10, 254, 255] {
            let mut request = Request::cell(Call::CellAncestor, &bytes);
            request.numbers[0] = resolution;
            list.add(request);
        }
    }
    for call in [Call::CellNeighbors, Call::CellChildren] {
        list.add(Request::cell(call, &some[3]));
        list.add(Request::cell(call, &some[4]));
        for point in edges() {
            list.add_element(Request::cell(call, &cell(3, 254, point, 0)), 7);
        }
    }
    for call in [
        Call::CellFields,
        Call::CellLatticeCoord,
        Call::CellIsPlain,
        Call::CellNeighbors,
        Call::CellChildren,
        Call::CellParent,
        Call::CellAncestor,
    ] {
        let exact = call.buffer().map_or(0, |(_, exact)| exact);
        for length in [0, 15, 17] {
            let long = [some[8], some[8]].concat();
            list.add(Request::cell(call, &long[..length]).room(exact));
        }
        if exact > 0 {
            for room in [0, exact - 1, exact + 1] {
                list.add_element(Request::cell(call, &some[4]).room(room), 0);
            }
            // A refusal of the cell comes before the room.
            list.add(Request::cell(call, &some[8]).room(0));
        }
    }
}

/// Labels of cells, written and read in both cases; then each refusal, in the order of the tests.
fn labels(list: &mut List) {
    for bytes in [
        [0; 16],
        [0xFF; 16],
        cell(0, 3, [1, -1, 1], 0x0A5C),
        cell(0, 3, [0, 0, 0], 0),
        cell(7, 255, [0, 1, 0], 0xF008),
        cell(255, 9, [MIN, MAX, 0x12345678], 0),
        1u128.to_be_bytes(),
        (1u128 << 127).to_be_bytes(),
    ] {
        list.add(Request::cell(Call::CellToBech32m, &bytes));
        let label = reading::write(bytes);
        for label in [label.clone(), label.to_ascii_uppercase()] {
            list.add(Request::cell(Call::CellFromBech32m, &label));
        }
    }
    let zero = reading::write([0; 16]);
    for (length, room) in [(16, 0), (16, 36), (16, 38), (0, 0), (15, 37), (17, 37)] {
        list.add(Request::cell(Call::CellToBech32m, &[0; 17][..length]).room(room));
    }
    for room in [0, 15, 17] {
        list.add(Request::cell(Call::CellFromBech32m, &zero).room(room));
    }

    let with = |place: usize, byte: u8| {
        let mut label = zero.clone();
        label[place] = byte;
        label
    };
    let and = |more: &[u8]| [&zero[..], more].concat();
    let padded = |padding, constant| {
        let values = reading::values([0; 16], padding);
        reading::string(b"cx3d", &values, constant)
    };
    for label in [
        b"".to_vec(),
        b"cx".to_vec(),
        b"cx3D".to_vec(),
        b"cX4d1".to_vec(),
        [b" ", &zero[..]].concat(),
        with(4, b'l'),
        with(1, b'X'),
        with(20, b'B'),
        with(36, b'T'),
        and(b"Q"),
        with(5, b'1'),
        with(20, b'b'),
        with(30, b'q' + 128),
        and(b"!"),
        and(b"\0"),
        b"cx3d1".to_vec(),
        zero[..36].to_vec(),
        and(b"q"),
        reading::string(b"cx3d", &[0; 27], BECH32M),
        with(5, b'p'),
        with(36, b'q'),
        padded(0, BECH32),
        padded(1, BECH32),
        padded(1, BECH32M),
        padded(2, BECH32M),
        padded(3, BECH32M).to_ascii_uppercase(),
    ] {
        list.add(Request::cell(Call::CellFromBech32m, &label));
    }
    // A refusal of the label comes before the room.
    list.add(Request::cell(Call::CellFromBech32m, &padded(1, BECH32M)).room(15));
}

/// Writes a file.
fn write(folder: &str, name: &str, bytes: &[u8]) {
    let file = format!("{folder}/{name}");
    if let Err(error) = std::fs::write(&file, bytes) {
        eprintln!("vectors: {file}: {error}");
        std::process::exit(2);
    }
    println!("{file}: {} bytes", bytes.len());
}

fn main() {
    let mut words = std::env::args().skip(1);
    let folder = words
        .next()
        .unwrap_or_else(|| "crates/replay/data".to_string());
    let calls = words.next().as_deref() == Some("calls");
    quiet();
    let mut list = List {
        bytes: Vec::new(),
        calls: Vec::new(),
    };
    roots(&mut list);
    lattice(&mut list);
    snaps(&mut list);
    distances(&mut list);
    cells(&mut list);
    labels(&mut list);
    let answers = (list.bytes.len() / RECORD, list.bytes, list.calls);
    for (name, (records, bytes, batch), most) in [
        ("answers", answers, 1024),
        ("layers", layers::records(), 400),
        ("paths", paths::records(), 100),
        ("searches", searches::records(), 120),
    ] {
        assert!(records <= most, "{records} records do not fit the format");
        if calls {
            let length = u32::try_from(batch.len()).unwrap().to_le_bytes();
            write(
                &folder,
                &format!("{name}.calls"),
                &[&length[..], &batch].concat(),
            );
        } else {
            write(&folder, &format!("{name}.bin"), &bytes);
        }
    }
}
