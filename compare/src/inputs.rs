//! The inputs: every limit that the specification names with one off on each side, all small
//! inputs, and random ones.

use crate::calls::{Call, Request};
use crate::labels;
use crate::random::Random;

type Sink<'a> = crate::side_by_side::Sink<'a, Request>;

const MIN: i64 = i32::MIN as i64;
const MAX: i64 = i32::MAX as i64;

/// The calls on one point, and those on two.
const ON_A_POINT: [Call; 6] = [
    Call::Parity,
    Call::IsValidLatticePoint,
    Call::LatticeNeighbors,
    Call::LatticeChildren,
    Call::LatticeParent,
    Call::ToPhysical,
];
const ON_A_CELL: [Call; 7] = [
    Call::CellFields,
    Call::CellLatticeCoord,
    Call::CellIsPlain,
    Call::CellNeighbors,
    Call::CellChildren,
    Call::CellParent,
    Call::CellToBech32m,
];
const ON_TWO_CELLS: [Call; 4] = [
    Call::CellCompare,
    Call::CellBetween,
    Call::CellDistance,
    Call::CellManhattanDistance,
];

pub(crate) type Point = [i64; 3];

/// The 16 bytes of a cell; `rest` is exponent, flags and reserved, bits 16 to 31.
pub(crate) fn cell(frame: u8, resolution: u8, point: Point, rest: u16) -> [u8; 16] {
    let mut bytes = [0; 16];
    bytes[0..4].copy_from_slice(&(point[2] as i32).to_be_bytes());
    bytes[4..8].copy_from_slice(&(point[1] as i32).to_be_bytes());
    bytes[8..12].copy_from_slice(&(point[0] as i32).to_be_bytes());
    bytes[12..14].copy_from_slice(&rest.to_be_bytes());
    bytes[14] = resolution;
    bytes[15] = frame;
    bytes
}

/// Every call on one point, also as a cell.
fn on_a_point(point: Point, resolution: u8, sink: Sink) {
    let [x, y, z] = point;
    for call in ON_A_POINT {
        sink(Request::new(call, &point));
    }
    let bytes = cell(3, resolution, point, 0);
    for call in ON_A_CELL {
        sink(Request::cell(call, &bytes));
    }
    ancestor(&bytes, 1, 16, sink);
    sink(Request::new(
        Call::CellNew,
        &[7, resolution.into(), x, y, z, 28, 165],
    ));
    sink(Request::new(
        Call::CellFromCoords,
        &[255, resolution.into(), x, y, z],
    ));
}

fn ancestor(cell: &[u8], resolution: u8, room: usize, sink: Sink) {
    let mut request = Request::cell(Call::CellAncestor, cell).room(room);
    request.numbers[0] = resolution.into();
    sink(request);
}

/// Every call on two points, also as cells.
fn on_two_points(first: Point, second: Point, resolutions: [u8; 2], sink: Sink) {
    let numbers = [first, second].concat();
    sink(Request::new(Call::LatticeDistance, &numbers));
    sink(Request::new(Call::LatticeManhattanDistance, &numbers));
    let one = cell(0, resolutions[0], first, 0);
    let other = cell(0, resolutions[1], second, 0);
    for call in ON_TWO_CELLS {
        sink(Request::cells(call, &one, &other));
    }
}

fn snap(x: f64, y: f64, z: f64, resolution: u8, sink: Sink) {
    let bits = [x, y, z].map(|value| value.to_bits() as i64);
    sink(Request::new(
        Call::PhysicalToLattice,
        &[bits[0], bits[1], bits[2], resolution.into()],
    ));
}

fn root(bits: u64, sink: Sink) {
    sink(Request::new(Call::SquareRoot, &[bits as i64]));
}

/// Doubles that are no numbers, or hardly.
pub(crate) fn odd_doubles() -> Vec<f64> {
    let mut bits = vec![
        0x7FF0_0000_0000_0000, // infinity
        0x7FF0_0000_0000_0001, // signalling NaN, least payload
        0x7FF7_FFFF_FFFF_FFFF,
        0x7FF8_0000_0000_0000, // quiet NaN
        0x7FF8_0000_DEAD_BEEF,
        0x7FFF_FFFF_FFFF_FFFF,
        0x0000_0000_0000_0000,
        0x0000_0000_0000_0001, // subnormals
        0x000F_FFFF_FFFF_FFFF,
        0x0010_0000_0000_0000, // least normal
        0x7FEF_FFFF_FFFF_FFFF, // largest
    ];
    bits.extend(bits.clone().iter().map(|bits| bits | 1 << 63));
    bits.into_iter().map(f64::from_bits).collect()
}

/// The value, with the doubles one and two steps off on each side.
fn around(value: f64) -> [f64; 5] {
    [
        value.next_down().next_down(),
        value.next_down(),
        value,
        value.next_up(),
        value.next_up().next_up(),
    ]
}

// ---- the limits

pub fn limits(sink: Sink) {
    point_limits(sink);
    pair_limits(sink);
    snap_limits(sink);
    root_limits(sink);
    lengths(sink);
    labels::inputs::limits(sink);
    for parity in (0..300).chain([u32::MAX, u32::MAX - 1, 1 << 31, 1 << 8, 1 << 16, 1 << 24]) {
        sink(Request::new(Call::Opposite, &[parity.into()]));
    }
}

fn point_limits(sink: Sink) {
    let edges = [
        MIN,
        MIN + 1,
        MIN + 2,
        MIN + 3,
        -1073741826,
        -1073741825,
        -1073741824,
        -1073741823,
        -1073741822,
        -3,
        -2,
        -1,
        0,
        1,
        2,
        3,
        1073741821,
        1073741822,
        1073741823,
        1073741824,
        1073741825,
        MAX - 3,
        MAX - 2,
        MAX - 1,
        MAX,
    ];
    let mut turn = 0;
    for x in edges {
        for y in edges {
            for z in edges {
                // The resolutions of the refusals, in turn.
                let resolution = [5, 1, 254, 0, 255][turn % 5];
                turn += 1;
                on_a_point([x, y, z], resolution, sink);
            }
        }
    }
    // Each limit with each resolution that matters, one axis at a time.
    for resolution in [0, 1, 2, 253, 254, 255] {
        for edge in edges {
            for axis in 0..3 {
                let mut point = [edge & 1; 3];
                point[axis] = edge;
                on_a_point(point, resolution, sink);
                point[axis] = edge ^ 1;
                on_a_point(point, resolution, sink);
            }
        }
    }
}

fn pair_limits(sink: Sink) {
    // On each axis: two numbers whose difference, or the sum of whose differences, is at a limit.
    let differences = [
        0,
        1,
        2,
        715827882,
        715827883,
        1073741823,
        1073741824,
        MAX - 2,
        MAX - 1,
        MAX,
        MAX + 1,
        MAX + 2,
        2 * MAX,
        2 * MAX + 1,
    ];
    let mut axis: Vec<[i64; 2]> = Vec::new();
    for difference in differences {
        for low in [MIN, MIN + 1, -difference / 2, 0, 1] {
            let high = low + difference;
            if high <= MAX {
                axis.push([low, high]);
                axis.push([high, low]);
            }
        }
    }
    axis.sort();
    axis.dedup();
    let few: Vec<[i64; 2]> = vec![
        [0, 0],
        [1, 1],
        [0, 1],
        [1, 0],
        [0, 2],
        [MIN, 0],
        [0, MIN],
        [MAX, 0],
        [-1, MAX],
        [1, -1],
        [MAX, MIN],
    ];
    for x in &axis {
        for y in &few {
            for z in &few {
                for turned in 0..3 {
                    let at = |place: usize| [x, y, z][(place + turned) % 3];
                    on_two_points(
                        [at(0)[0], at(1)[0], at(2)[0]],
                        [at(0)[1], at(1)[1], at(2)[1]],
                        [4, 4],
                        sink,
                    );
                }
            }
        }
    }
    // Sums at 2147483647, one and two off on each side, in many splits.
    for sum in [MAX - 2, MAX - 1, MAX, MAX + 1, MAX + 2] {
        for first in [
            0,
            1,
            2,
            3,
            715827881,
            715827882,
            715827883,
            1 << 30,
            MAX - 3,
            MAX - 2,
            MAX - 1,
            MAX,
        ] {
            for second in [0, 1, 2, 3, 715827881, 715827882, 715827883, (1 << 30) - 1] {
                let third = sum - first - second;
                if !(0..=MAX).contains(&third) {
                    continue;
                }
                for signs in 0..8 {
                    for begin in [0, 1, -1] {
                        let sign = |bit: i64| if signs >> bit & 1 == 0 { 1 } else { -1 };
                        let d = [first * sign(0), second * sign(1), third * sign(2)];
                        // Half on either side of nothing, of one parity.
                        let low = d.map(|number| -(number / 2) & !1 | begin & 1);
                        let high = [0, 1, 2].map(|axis| low[axis] + d[axis]);
                        if low.iter().chain(&high).all(|n| (MIN..=MAX).contains(n)) {
                            on_two_points(low, high, [0, 0], sink);
                        }
                    }
                }
            }
        }
    }
    // Resolutions that differ, over parities and mixed points.
    let ends = [
        [0, 0, 0],
        [2, 0, 0],
        [1, 1, 1],
        [0, 1, 0],
        [MIN, 0, 0],
        [MAX - 1, 0, 0],
    ];
    for first in ends {
        for second in ends {
            for resolutions in [[0, 0], [0, 1], [1, 0], [255, 255], [254, 255], [255, 0]] {
                on_two_points(first, second, resolutions, sink);
            }
        }
    }
}

fn snap_limits(sink: Sink) {
    let mut values = odd_doubles();
    for value in [
        0.25,
        0.5,
        0.75,
        1.0,
        1.5,
        2.0,
        2147483644.0,
        2147483645.0,
        2147483645.5,
        2147483646.0,
        2147483646.5,
        2147483647.0,
        2147483648.0,
        4294967296.0,
        1e300,
    ] {
        values.extend([value, -value]);
    }
    values.extend(around(2147483646.0));
    values.extend(around(-2147483646.0));
    values.extend(around(0.5));
    values.extend(around(-1.0));
    for &x in &values {
        for &y in &values {
            for z in [
                0.0,
                -0.5,
                1.0,
                2147483646.0,
                -2147483646.0,
                f64::NAN,
                f64::INFINITY,
            ] {
                snap(x, y, z, 0, sink);
                snap(z, x, y, 0, sink);
            }
        }
    }
    // All resolutions: the same products, and the plain values themselves.
    for resolution in 0..=255u8 {
        let scale = 2.0f64.powi(resolution.into());
        for &value in &values {
            for other in [0.0, 0.5, -1.0] {
                let (scaled, beside) = (value / scale, other / scale);
                snap(scaled, beside, beside, resolution, sink);
                snap(beside, scaled, -beside, resolution, sink);
                snap(beside, beside, scaled, resolution, sink);
                snap(value, other, other, resolution, sink);
            }
        }
    }
}

fn root_limits(sink: Sink) {
    for value in odd_doubles() {
        root(value.to_bits(), sink);
    }
    for power in -2..=70 {
        for value in around(2.0f64.powi(power)) {
            root(value.to_bits(), sink);
            root((-value).to_bits(), sink);
            for off in [-2.0, -1.0, -0.5, 0.5, 1.0, 2.0] {
                root((value + off).to_bits(), sink);
            }
        }
    }
    // Squares and what lies beside them, from both ends.
    for number in (0..6000u64).chain((1u64 << 32) - 6000..=1 << 32) {
        let square = u128::from(number) * u128::from(number);
        for near in [
            square.saturating_sub(1),
            square,
            square + 1,
            square + u128::from(number), // just below the middle of two roots
            square + u128::from(number) + 1,
        ] {
            for value in [
                near as f64,
                (near as f64).next_up(),
                (near as f64).next_down(),
            ] {
                root(value.to_bits(), sink);
            }
        }
    }
    for number in 0..50000u64 {
        root((number as f64).to_bits(), sink);
    }
}

/// Cells of every length from 0 to 40, and buffers of every length up to some more than needed.
fn lengths(sink: Sink) {
    let even = cell(1, 9, [4, 2, 2], 0);
    let mixed = cell(1, 9, [0, 1, 0], 0xFFFF);
    let edge = cell(1, 9, [MAX - 1, 0, 0], 0x1230);
    let low = cell(1, 9, [MIN, MIN, MIN], 0);
    let root = cell(1, 0, [4, 2, 2], 0);
    let leaf = cell(1, 255, [4, 2, 2], 0);
    let kinds = [even, mixed, edge, low, root, leaf];

    for kind in kinds {
        let long = [kind, kind, kind].concat();
        for length in 0..=40 {
            for null in [false, true] {
                for call in ON_A_CELL.into_iter().chain([Call::CellAncestor]) {
                    let exact = call.buffer().map_or(0, |(_, exact)| exact);
                    for room in [exact, 0] {
                        let mut request = Request::cell(call, &long[..length]).room(room);
                        request.null = null;
                        request.numbers[0] = if call == Call::CellAncestor { 4 } else { 0 };
                        sink(request);
                    }
                }
            }
            for other in 0..=40 {
                for call in ON_TWO_CELLS {
                    let mut request = Request::cells(call, &long[..length], &long[..other]);
                    request.null = length % 2 == 0;
                    sink(request);
                }
            }
        }
    }
    for call in Call::ALL {
        let Some((_, exact)) = call.buffer() else {
            continue;
        };
        if call == Call::CellFromBech32m {
            continue; // a label has inputs of its own
        }
        for room in 0..=exact + 24 {
            for null in [false, true] {
                for fill in [0x00, 0xA5, 0xFF] {
                    let lend = |request: Request| Request {
                        null,
                        fill,
                        ..request.room(room)
                    };
                    if call.cells() == 0 {
                        for [x, y, z] in
                            [[4, 2, 2], [0, 1, 0], [MAX, 1, 1], [MIN, 0, 0], [-3, 1, -1]]
                        {
                            let numbers: &[i64] = match call {
                                Call::CellNew => &[1, 9, x, y, z, 28, 165],
                                Call::CellFromCoords => &[1, 9, x, y, z],
                                _ => &[x, y, z],
                            };
                            sink(lend(Request::new(call, numbers)));
                        }
                    } else {
                        for kind in kinds {
                            let mut request = lend(Request::cell(call, &kind));
                            sink(request);
                            for resolution in [9, 10] {
                                request.numbers[0] = resolution;
                                if call == Call::CellAncestor {
                                    sink(request);
                                }
                            }
                        }
                    }
                }
            }
        }
    }
}

// ---- all small inputs

pub fn small(sink: Sink) {
    for x in -5..=5 {
        for y in -5..=5 {
            for z in -5..=5 {
                on_a_point([x, y, z], 7, sink);
            }
        }
    }
    for place in 0..5i64.pow(6) {
        let at = |axis: u32| place / 5i64.pow(axis) % 5 - 2;
        on_two_points([at(0), at(1), at(2)], [at(3), at(4), at(5)], [6, 6], sink);
    }
    for (step, reach) in [(0.25, 12), (0.125, 16)] {
        for x in -reach..=reach {
            for y in -reach..=reach {
                for z in -reach..=reach {
                    let [x, y, z] = [x, y, z].map(|number| f64::from(number) * step);
                    snap(x, y, z, 0, sink);
                    snap(x / 8.0, y / 8.0, z / 8.0, 3, sink);
                }
            }
        }
    }
    // All resolutions of a cell, and for the ancestor all of both.
    let points = [
        [4, 2, 2],
        [-3, 1, -1],
        [0, 1, 0],
        [MIN, MIN, MIN],
        [MAX, MAX, MAX],
    ];
    for resolution in 0..=255 {
        for point in points {
            for rest in [0, 0x1000, 0x0100, 0x0010, 0x0001, 0xFFFF] {
                let bytes = cell(resolution ^ 0x5A, resolution, point, rest);
                for call in ON_A_CELL {
                    sink(Request::cell(call, &bytes));
                }
            }
            // All targets for one point, for the others those nearby and every ninth.
            let bytes = cell(resolution, resolution, point, 0xA5C);
            for target in 0..=255u8 {
                if point == points[0] || target % 9 == 0 || target.abs_diff(resolution) < 3 {
                    ancestor(&bytes, target, 16, sink);
                }
            }
        }
    }
    // All values of the packed small fields.
    for number in 0..=255 {
        for frame in [0, 1, 128, 255] {
            sink(Request::new(
                Call::CellNew,
                &[frame, 3, 1, -1, 1, number, 165],
            ));
            sink(Request::new(
                Call::CellNew,
                &[frame, 3, 1, -1, 1, 28, number],
            ));
            sink(Request::new(
                Call::CellNew,
                &[number, 3, 1, -1, 1, 28, frame],
            ));
            sink(Request::new(
                Call::CellFromCoords,
                &[number, frame, 2, -4, 0],
            ));
            sink(Request::new(
                Call::CellFromCoords,
                &[frame, number, 2, -4, 0],
            ));
        }
    }
    // Every single bit of a cell, and of two compared ones.
    for bit in 0..128 {
        let one = (1u128 << bit).to_be_bytes();
        let all = (!(1u128 << bit)).to_be_bytes();
        for bytes in [one, all] {
            for call in ON_A_CELL {
                sink(Request::cell(call, &bytes));
            }
            for other in 0..128 {
                for call in ON_TWO_CELLS {
                    sink(Request::cells(
                        call,
                        &bytes,
                        &(1u128 << other).to_be_bytes(),
                    ));
                }
            }
        }
    }
}

// ---- random inputs

impl Random {
    fn coordinate(&mut self) -> i64 {
        let limit = [MIN, MAX, -1073741824, 1073741823, 0];
        let number = match self.below(5) {
            0 => self.between(-9, 9),
            1 => i64::from(self.next() as i32),
            2 => self.one_of(&limit) + self.between(-4, 4),
            3 => {
                let power = 1 << self.below(32);
                self.one_of(&[power, -power]) + self.between(-2, 2)
            }
            _ => self.between(-1073741824, 1073741823),
        };
        number.clamp(MIN, MAX)
    }

    /// Mostly of one parity.
    fn point(&mut self) -> Point {
        let point = if self.below(3) == 0 {
            [(); 3].map(|()| self.between(-1000, 1000))
        } else {
            [(); 3].map(|()| self.coordinate())
        };
        self.mostly_of_one_parity(point)
    }

    fn mostly_of_one_parity(&mut self, point: Point) -> Point {
        if self.below(8) == 0 {
            return point;
        }
        point.map(|number| number & !1 | point[0] & 1)
    }

    /// A point near another, or at a difference that matters, or any.
    fn other(&mut self, point: Point) -> Point {
        let other = match self.below(4) {
            0 => point.map(|number| number + self.between(-3, 3)),
            1 => {
                let far = self.one_of(&[MAX, MAX + 1, -MAX, MIN, MIN - 1, 1 << 30]);
                let axis = self.below(3) as usize;
                let mut other = point;
                other[axis] += far + self.between(-2, 2);
                other
            }
            2 => {
                // A sum of differences near 2147483647.
                let first = self.between(0, MAX);
                let second = self.between(0, MAX - first);
                let third = MAX + self.between(-3, 3) - first - second;
                let split = [first, second, third];
                [0, 1, 2].map(|axis| {
                    point[axis]
                        + if point[axis] < 0 {
                            split[axis]
                        } else {
                            -split[axis]
                        }
                })
            }
            _ => self.point(),
        };
        let other = other.map(|number| number.clamp(MIN, MAX));
        self.mostly_of_one_parity(other)
    }

    fn resolution(&mut self) -> u8 {
        match self.below(3) {
            0 => self.one_of(&[0, 1, 254, 255]),
            _ => self.next() as u8,
        }
    }

    fn cell_at(&mut self, point: Point) -> [u8; 16] {
        let resolution = self.resolution();
        let rest = match self.below(3) {
            0 => 0,
            1 => 1 << self.below(16),
            _ => self.next() as u16,
        };
        cell(self.next() as u8, resolution, point, rest)
    }

    pub(crate) fn cell(&mut self) -> [u8; 16] {
        if self.below(8) == 0 {
            let high = self.next();
            return (u128::from(high) << 64 | u128::from(self.next())).to_be_bytes();
        }
        let point = self.point();
        self.cell_at(point)
    }

    /// Mostly 16 bytes.
    fn lent(&mut self, cell: [u8; 16]) -> Vec<u8> {
        if self.below(32) > 0 {
            return cell.to_vec();
        }
        let mut long = [cell, cell, cell].concat();
        long.truncate(self.below(41) as usize);
        long
    }

    /// Mostly exact; else none, one short, longer.
    fn room(&mut self, call: Call) -> usize {
        let exact = call.buffer().map_or(0, |(_, exact)| exact);
        match self.below(8) {
            0 => self.one_of(&[0, exact.saturating_sub(1), exact + 1]),
            1 => self.below(exact as u64 + 40) as usize,
            _ => exact,
        }
    }

    fn lend(&mut self, request: Request) -> Request {
        Request {
            fill: self.next() as u8,
            null: self.below(2) == 0,
            ..request.room(self.room(request.call))
        }
    }

    /// A coordinate, as it is after the product with 2^resolution.
    fn scaled(&mut self) -> f64 {
        let small = self.between(-40, 40) as f64;
        match self.below(8) {
            // Any bits.
            0 => f64::from_bits(self.next()),
            // Any magnitude within the range.
            1 => {
                let part = self.next() as f64 / 2.0f64.powi(64);
                let magnitude = part * 2.0f64.powi(self.between(-60, 32) as i32);
                self.one_of(&[magnitude, -magnitude])
            }
            // Between two steps of the lattice.
            2 => small * 0.5,
            3 => small * 0.125,
            // Beside such a place.
            4 => self.one_of(&around(small * 0.5)),
            // Large, with a fraction.
            5 => self.between(-MAX, MAX) as f64 + self.one_of(&[0.0, 0.5, -0.5, 0.25]),
            // At the end of the range.
            6 => {
                let end = self.one_of(&[2147483646.0, -2147483646.0]);
                let near = end + small * 0.5;
                self.one_of(&around(near))
            }
            _ => self.between(-1000000, 1000000) as f64 / 1024.0,
        }
    }

    /// A point near which the even and the odd candidate are about equally far.
    fn tied(&mut self) -> [f64; 3] {
        let base = [(); 3].map(|()| self.between(-1000, 1000) as f64 * 2.0);
        // The distances to (0,0,0) and (1,1,1) agree where x + y + z = 3/2. With few digits the
        // squares are exact; with many the rounding decides.
        let digits = self.one_of(&[4, 20, 30, 53, 53]);
        let part = |random: &mut Random| {
            (random.next() >> (64 - digits)) as f64 / 2.0f64.powi(digits as i32)
        };
        let (x, y) = (part(self), part(self));
        let turned = self.below(3) as usize;
        let mut point = [x, y, 1.5 - x - y];
        point.rotate_left(turned);
        let sign = [(); 3].map(|()| self.one_of(&[1.0, -1.0]));
        let far = self.one_of(&[0.0, 0.0, 0.0, 1.0, 1000.0, 100000.0]);
        [0, 1, 2].map(|axis| {
            let at = base[axis] * far + point[axis] * sign[axis];
            self.one_of(&[at, at, at.next_up(), at.next_down()])
        })
    }

    fn whole(&mut self) -> f64 {
        match self.below(6) {
            // Of every size.
            0 => (self.next() >> self.below(64)) as f64,
            // Beside a square.
            1 => {
                let number = self.next() >> self.between(32, 63);
                let square = u128::from(number) * u128::from(number);
                (square as f64) + self.between(-1, 1) as f64
            }
            // Beside the square of the middle between two neighbouring roots.
            2 => {
                let low =
                    f64::from_bits((1023 + self.between(26, 31) as u64) << 52 | self.next() >> 12);
                let product = low * low.next_up();
                self.one_of(&around(product)).round()
            }
            3 => {
                let value =
                    f64::from_bits((1023 + self.between(0, 63) as u64) << 52 | self.next() >> 12);
                value.floor()
            }
            4 => self.between(0, 1000000) as f64,
            _ => f64::from_bits((1023 + self.between(52, 64) as u64) << 52 | self.next() >> 12),
        }
    }
}

/// A round of random requests to every call.
pub fn random(random: &mut Random, sink: Sink) {
    for _ in 0..128 {
        for call in Call::ALL {
            for _ in 0..4 {
                let request = one(random, call);
                sink(request);
            }
        }
    }
}

fn one(random: &mut Random, call: Call) -> Request {
    match call {
        Call::SquareRoot => {
            let value = if random.below(4) == 0 {
                f64::from_bits(random.next())
            } else {
                random.whole()
            };
            let value = if random.below(32) == 0 { -value } else { value };
            Request::new(call, &[value.to_bits() as i64])
        }
        Call::Opposite => {
            let number = random.next() as u32 >> random.below(32);
            Request::new(call, &[number.into()])
        }
        Call::PhysicalToLattice => {
            let resolution = random.resolution();
            let scale = 2.0f64.powi(resolution.into());
            let point = match random.below(4) {
                0 | 1 => random.tied(),
                _ => [(); 3].map(|()| random.scaled()),
            };
            // As it stands now and then, else so that the product is this point.
            let point = if random.below(16) == 0 {
                point
            } else {
                point.map(|value| value / scale)
            };
            let [x, y, z] = point.map(|value| value.to_bits() as i64);
            Request::new(call, &[x, y, z, resolution.into()])
        }
        Call::LatticeDistance | Call::LatticeManhattanDistance => {
            let first = random.point();
            let second = random.other(first);
            Request::new(call, &[first, second].concat())
        }
        Call::CellNew | Call::CellFromCoords => {
            let [x, y, z] = random.point();
            let byte = |random: &mut Random| i64::from(random.next() as u8);
            let mut numbers = vec![byte(random), byte(random), x, y, z];
            if call == Call::CellNew {
                numbers.extend([byte(random), byte(random)]);
            }
            let request = Request::new(call, &numbers);
            random.lend(request)
        }
        Call::CellFromBech32m => {
            let label = labels::inputs::random(random);
            random.lend(Request::cell(call, &label))
        }
        _ if call.cells() == 0 => {
            let point = random.point();
            let request = Request::new(call, &point);
            random.lend(request)
        }
        _ if call.cells() == 1 => {
            let cell = random.cell();
            let lent = random.lent(cell);
            let mut request = Request::cell(call, &lent);
            if call == Call::CellAncestor {
                let down = cell[14].wrapping_sub(random.below(6) as u8).wrapping_add(1);
                request.numbers[0] = match random.below(2) {
                    0 => down.into(),
                    _ => random.resolution().into(),
                };
            }
            random.lend(request)
        }
        _ => {
            let first = random.cell();
            let word =
                |at: usize| i64::from(i32::from_be_bytes(first[at..at + 4].try_into().unwrap()));
            let mut second = match random.below(8) {
                0 => first,
                1 => random.cell(),
                2 => (u128::from_be_bytes(first) ^ 1 << random.below(128)).to_be_bytes(),
                _ => {
                    let point = random.other([word(8), word(4), word(0)]);
                    random.cell_at(point)
                }
            };
            if random.below(4) > 0 {
                second[14] = first[14];
            }
            let (first, second) = (random.lent(first), random.lent(second));
            let request = Request::cells(call, &first, &second);
            random.lend(request)
        }
    }
}
