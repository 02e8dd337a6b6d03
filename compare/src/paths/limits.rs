//! The inputs that always come. Rings and shells: rooms exact and one less, small rooms in every
//! order, what may and may not be named, centres of every kind, the edges of the lattice, endless k.
//! Lines: every direction, skewed and long ones, the edges, ends of every kind, outputs around the
//! line's length.

#![allow(deprecated)]

use super::calls::{Call, Request, KNOWN_BYTES, MOST_ROOM};
use super::reading::{self, Rooms};
use crate::random::Random;
use crate::routes::limits::at;
use oracle::id::CellID;

type Sink<'a> = crate::side_by_side::Sink<'a, Request>;

/// The longest buffer of paths.c.
pub const LARGEST_BUFFER: usize = KNOWN_BYTES * MOST_ROOM as usize + 4096;

const BOTH: [Call; 2] = [Call::Ring, Call::Shell];
const MOST: i64 = i32::MAX as i64;
const LEAST: i64 = i32::MIN as i64;

/// Bytes that look random.
pub fn noise(length: usize, random: &mut Random) -> Vec<u8> {
    let mut bytes = Vec::with_capacity(length + 8);
    while bytes.len() < length {
        bytes.extend(random.next().to_le_bytes());
    }
    bytes.truncate(length);
    bytes
}

/// A ring or a shell that is asked for. Lengths are in bytes.
#[derive(Clone)]
pub struct Around {
    pub center: Vec<u8>,
    pub k: u64,
    pub known: u64,
    pub waiting: u64,
    pub workspace: usize,
    pub output: usize,
}

impl Around {
    /// With these rooms, and lent no more than they need.
    pub fn within(center: CellID, k: u64, rooms: Rooms) -> Around {
        Around {
            center: center.to_bytes().to_vec(),
            k,
            known: rooms.known as u64,
            waiting: rooms.waiting as u64,
            workspace: KNOWN_BYTES * rooms.known,
            output: 16 * rooms.output,
        }
    }

    /// What is lent is full of noise.
    pub fn ask(&self, call: Call, random: &mut Random) -> Request {
        let workspace = noise(self.workspace, random);
        let output = noise(self.output, random);
        Request::new(
            call,
            &[self.k, self.known, self.waiting],
            &[&self.center, &workspace, &output],
        )
    }
}

/// A line that is asked for, with an output of so many bytes.
pub fn line(start: &[u8], end: &[u8], output: usize, random: &mut Random) -> Request {
    Request::new(Call::Line, &[], &[start, end, &noise(output, random)])
}

pub fn limits(sink: Sink) {
    let mut random = Random::new(12);
    exact(&mut random, sink);
    small_rooms(&mut random, sink);
    named(&mut random, sink);
    centers(&mut random, sink);
    edges(&mut random, sink);
    endless(&mut random, sink);
    large(&mut random, sink);

    directions(&mut random, sink);
    skewed(&mut random, sink);
    long(&mut random, sink);
    ends(&mut random, sink);
    far(&mut random, sink);
    skipped(&mut random, sink);
    lengths(&mut random, sink);
}

// ---- rings and shells

/// Rooms that are exactly those that the walk takes, then one less or one more of each.
fn around_exact(call: Call, center: CellID, k: u64, random: &mut Random, sink: Sink) {
    let rooms = reading::taken(call == Call::Ring, center, k);
    let exact = Around::within(center, k, rooms);
    let less = |known: usize, waiting: usize, output: usize| {
        let less = Rooms {
            known: rooms.known - known,
            waiting: rooms.waiting - waiting,
            output: rooms.output.saturating_sub(output),
        };
        Around::within(center, k, less)
    };
    sink(exact.ask(call, random));
    for [known, waiting, output] in [[1, 0, 0], [0, 1, 0], [0, 0, 1]] {
        sink(less(known, waiting, output).ask(call, random));
    }
    if k > 4 {
        return;
    }
    for [known, waiting, output] in [[1, 1, 0], [1, 0, 1], [0, 1, 1], [1, 1, 1]] {
        sink(less(known, waiting, output).ask(call, random));
    }
    for more in [1, 15, 16, 100] {
        let mut around = exact.clone();
        around.output += more;
        around.workspace += more;
        sink(around.ask(call, random));
        around.output = exact.output.saturating_sub(more);
        sink(around.ask(call, random));
        if exact.workspace >= more {
            around = exact.clone();
            around.workspace -= more;
            sink(around.ask(call, random));
        }
    }
    for known in [0, 1] {
        for waiting in [0, 1] {
            let mut around = exact.clone();
            around.known += known;
            around.waiting += waiting;
            around.workspace += KNOWN_BYTES;
            sink(around.ask(call, random));
        }
    }
}

fn exact(random: &mut Random, sink: Sink) {
    for call in BOTH {
        for k in 0..=10 {
            around_exact(call, at(0, 0, [0, 0, 0], 0), k, random, sink);
        }
        for k in 0..=7 {
            around_exact(call, at(3, 9, [-3, 1, -1], 0x0010), k, random, sink);
        }
        for center in [
            at(255, 255, [8, -6, 1000], 0x0001),
            at(129, 0, [-777, 5, 3], 0x8000),
            at(1, 128, [123456788, -123456788, 2], 0xFFFF),
            at(0, 1, [0, 1, 0], 0),
            at(7, 7, [1, 1, -2], 0x0FF0),
            at(0, 0, [MOST, LEAST, 0], 0),
        ] {
            for k in 0..=3 {
                around_exact(call, center, k, random, sink);
            }
        }
    }
}

/// Every number of small rooms, and those around the numbers of k = 2.
fn small_rooms(random: &mut Random, sink: Sink) {
    let plain = at(0, 0, [0, 0, 0], 0);
    let flagged = at(0, 0, [1, 1, 1], 0x0020);
    let mut ask = |center, k, known, waiting, output| {
        let rooms = Rooms {
            known,
            waiting,
            output,
        };
        for call in BOTH {
            sink(Around::within(center, k, rooms).ask(call, random));
        }
    };
    for k in 0..=2 {
        for known in 1..=16 {
            for waiting in 1..=16 {
                for output in 0..=2 {
                    ask(plain, k, known, waiting, output);
                }
            }
        }
    }
    for center in [plain, flagged] {
        for known in 63..=66 {
            for waiting in 48..=52 {
                for output in [14, 15, 16, 49, 50, 51, 52, 64, 65, 66] {
                    ask(center, 2, known, waiting, output);
                }
            }
        }
    }
}

/// What may be named and what not, and workspaces around what that needs.
fn named(random: &mut Random, sink: Sink) {
    // 44 times the last of these is 28 modulo 2^64.
    let odd = [
        0,
        1,
        2,
        15,
        MOST_ROOM - 1,
        MOST_ROOM,
        MOST_ROOM + 1,
        1 << 31,
        1 << 32,
        (1 << 32) + 15,
        1 << 62,
        1 << 63,
        u64::MAX,
        u64::MAX / KNOWN_BYTES as u64 + 1,
    ];
    for call in BOTH {
        for known in odd {
            for waiting in odd {
                for k in [0, 1] {
                    let around = Around {
                        center: vec![0; 16],
                        k,
                        known,
                        waiting,
                        workspace: KNOWN_BYTES * 15,
                        output: 16 * 15,
                    };
                    sink(around.ask(call, random));
                }
            }
        }
        for known in [1, 2, 15, 16] {
            for workspace in 0..=4 {
                let need = KNOWN_BYTES * known as usize;
                for workspace in [
                    workspace,
                    need + workspace,
                    need - 1 - workspace,
                    need + 43 + workspace,
                ] {
                    let around = Around {
                        center: vec![0; 16],
                        k: 1,
                        known,
                        waiting: 14,
                        workspace,
                        output: 16 * 15,
                    };
                    for null in [false, true] {
                        let request = around.ask(call, random);
                        sink(Request { null, ..request });
                    }
                }
            }
        }
        // The largest rooms, and workspaces around them.
        let need = KNOWN_BYTES * MOST_ROOM as usize;
        for (waiting, workspace) in [
            (MOST_ROOM, need),
            (MOST_ROOM, need - 1),
            (MOST_ROOM + 1, need),
            (1, need + 4096),
            (14, need + 1),
        ] {
            let around = Around {
                center: vec![0; 16],
                k: 1,
                known: MOST_ROOM,
                waiting,
                workspace,
                output: 16 * 15,
            };
            sink(around.ask(call, random));
        }
    }
}

/// Centres of other lengths than 16, alone and with each fault that comes before or after.
fn centers(random: &mut Random, sink: Sink) {
    for call in BOTH {
        for length in [0, 1, 8, 15, 16, 17, 31, 32, 48] {
            for k in [0, 1, 2] {
                for (known, waiting, workspace, output) in [
                    (15, 14, 15, 15),
                    (15, 14, 14, 15),
                    (0, 14, 15, 15),
                    (15, 0, 15, 15),
                    (1, 1, 1, 0),
                    (15, 14, 15, 0),
                ] {
                    let around = Around {
                        center: vec![0; length],
                        k,
                        known,
                        waiting,
                        workspace: KNOWN_BYTES * workspace,
                        output: 16 * output,
                    };
                    for null in [false, true] {
                        let request = around.ask(call, random);
                        sink(Request { null, ..request });
                    }
                }
            }
        }
        // A mixed centre is found out where it is expanded: a ring lists it first.
        for (known, waiting, output) in [(1, 1, 0), (1, 1, 1), (15, 14, 15)] {
            for k in [0, 1, u64::MAX] {
                let rooms = Rooms {
                    known,
                    waiting,
                    output,
                };
                let around = Around::within(at(5, 5, [3, -4, 5], 0x0100), k, rooms);
                sink(around.ask(call, random));
            }
        }
    }
}

/// Centres on and near the edges: the overflow is met at the centre, or some steps away.
fn edges(random: &mut Random, sink: Sink) {
    for axis in 0..3 {
        for off in 0..=7 {
            for number in [MOST - off, LEAST + off] {
                let mut point = [number & 1; 3];
                point[axis] = number;
                for rest in [0, 0x0400] {
                    for call in BOTH {
                        for k in 0..=2 {
                            around_exact(call, at(2, 3, point, rest), k, random, sink);
                        }
                    }
                }
            }
        }
    }
    let near = [MOST - 6, LEAST + 6, MOST - 7, LEAST + 7];
    for x in near {
        for y in near {
            for z in near {
                if x & 1 == y & 1 && y & 1 == z & 1 {
                    around_exact(Call::Ring, at(0, 0, [x, y, z], 0), 4, random, sink);
                    around_exact(Call::Shell, at(0, 0, [x, y, z], 1), 3, random, sink);
                }
            }
        }
    }
}

/// A k that no room is large enough for.
fn endless(random: &mut Random, sink: Sink) {
    for k in [
        1 << 31,
        1 << 32,
        (1 << 32) + 1,
        1 << 63,
        u64::MAX - 1,
        u64::MAX,
    ] {
        for call in BOTH {
            for (known, waiting, output) in [
                (1, 1, 0),
                (1, 1, 1),
                (2, 1, 1),
                (15, 14, 15),
                (15, 14, 0),
                (100, 14, 15),
                (65, 50, 65),
                (200, 200, 3),
                (200, 200, 200),
                (500, 50, 500),
                (500, 500, 65),
            ] {
                let rooms = Rooms {
                    known,
                    waiting,
                    output,
                };
                for center in [
                    at(0, 0, [0, 0, 0], 0),
                    at(9, 4, [-5, 7, 7], 0x2000),
                    at(0, 0, [MOST - 4, 0, 0], 0),
                    at(0, 0, [MOST, 1, 1], 0),
                ] {
                    sink(Around::within(center, k, rooms).ask(call, random));
                }
            }
        }
    }
}

/// The largest ring that fits, and one that does not.
fn large(random: &mut Random, sink: Sink) {
    let plain = at(0, 0, [0, 0, 0], 0);
    let flagged = at(3, 9, [-3, 1, -1], 0x0010);
    around_largest(Call::Ring, plain, 24, random, sink);
    around_largest(Call::Shell, flagged, 24, random, sink);
    around_largest(Call::Ring, flagged, 25, random, sink);
}

fn around_largest(call: Call, center: CellID, k: u64, random: &mut Random, sink: Sink) {
    let rooms = Rooms {
        known: MOST_ROOM as usize,
        waiting: MOST_ROOM as usize,
        output: MOST_ROOM as usize,
    };
    sink(Around::within(center, k, rooms).ask(call, random));
}

// ---- lines

/// A line with outputs around its length.
fn along_exact(start: CellID, end: CellID, random: &mut Random, sink: Sink) {
    let cells = reading::along(start, end, usize::MAX).map_or(2, |cells| cells.len());
    let exact = 16 * cells;
    for output in [exact, exact - 16, exact - 1, exact + 1, exact + 31, 0] {
        sink(line(&start.to_bytes(), &end.to_bytes(), output, random));
    }
}

/// Every end near a start, in both orders.
fn directions(random: &mut Random, sink: Sink) {
    for start in [[0, 0, 0], [1, 1, 1], [-3, 1, -1]] {
        for x in -5..=5 {
            for y in -5..=5 {
                for z in -5..=5 {
                    if x & 1 == y & 1 && y & 1 == z & 1 {
                        let (start, end) = (at(1, 2, start, 0), at(1, 2, [x, y, z], 0));
                        along_exact(start, end, random, sink);
                        along_exact(end, start, random, sink);
                    }
                }
            }
        }
    }
}

/// Directions that are no multiples of small ones.
fn skewed(random: &mut Random, sink: Sink) {
    for _ in 0..300 {
        let mut point = || [(); 3].map(|()| random.between(-60, 60) & !1);
        let (start, end) = (point(), point());
        let odd = random.below(2) as i64;
        let (start, end) = (
            at(0, 0, start.map(|number| number + 100_000_001 * odd), 0),
            at(0, 0, end.map(|number| number + 100_000_001 * odd), 0),
        );
        along_exact(start, end, random, sink);
    }
}

/// To 100,000 steps.
fn long(random: &mut Random, sink: Sink) {
    for (start, by) in [
        ([0, 0, 0], [500, 0, 0]),
        ([1, 1, 1], [0, -500, 0]),
        ([0, 0, 0], [-500, 500, 500]),
        ([-3, 1, -1], [500, 333, -17]),
        ([2147483000, 0, -2147483000], [-4999, 1, 4999]),
        ([0, 0, 0], [5000, 4998, -3332]),
        ([1073741824, -1073741824, 0], [7, -5001, 1]),
    ] {
        let end = [0, 1, 2].map(|axis| start[axis] + by[axis]);
        along_exact(at(0, 4, start, 0), at(0, 4, end, 0), random, sink);
    }
    for (start, by) in [
        ([0, 0, 0], [50_000, 0, 0]),
        ([-25_001, 777, 13], [50_000, -33_334, 1234]),
        ([1, 1, 1], [-50_000, 50_000, 50_000]),
    ] {
        let end = [0, 1, 2].map(|axis| start[axis] + by[axis]);
        let (start, end) = (at(0, 4, start, 0), at(0, 4, end, 0));
        let cells = reading::along(start, end, usize::MAX).unwrap().len();
        for output in [16 * cells, 16 * cells - 1] {
            sink(line(&start.to_bytes(), &end.to_bytes(), output, random));
        }
    }
}

/// Flagged and foreign ends, mixed ones, and the same coordinates with other bits.
fn ends(random: &mut Random, sink: Sink) {
    let points = [
        [0, 0, 0],
        [2, 2, 0],
        [2, 0, 0],
        [1, 1, 1],
        [-3, 1, -1],
        [4, 10, -6],
        [0, 1, 0],
        [1, 0, 0],
        [-1, -1, -2],
        [MOST, LEAST, 0],
    ];
    let labels = [
        (0, 0, 0),
        (0, 0, 0x0010),
        (0, 0, 0x0001),
        (0, 0, 0x8000),
        (1, 0, 0),
        (0, 255, 0),
        (200, 100, 0xFFFF),
    ];
    for from in points {
        for to in points {
            for one in labels {
                for other in labels {
                    let (start, end) = (
                        at(one.0, one.1, from, one.2),
                        at(other.0, other.1, to, other.2),
                    );
                    if reading::steps(start, end) < 100 {
                        along_exact(start, end, random, sink);
                    } else {
                        sink(line(&start.to_bytes(), &end.to_bytes(), 32, random));
                    }
                }
            }
        }
    }
}

/// Differences that just fit and just do not, mostly in one order only. No line of these can be
/// listed: each refuses, and soon.
fn far(random: &mut Random, sink: Sink) {
    for axis in 0..3 {
        for low in [LEAST, LEAST + 1, LEAST + 2, LEAST + 3, -2, -1] {
            for high in [0, 1, 2, 3, MOST - 2, MOST - 1, MOST] {
                if (high - low) & 1 != 0 {
                    continue;
                }
                for other in [0, 2, -2000000000, 2000000000] {
                    let point = |number: i64, other: i64| {
                        let mut point = [other + (number & 1); 3];
                        point[axis] = number;
                        at(0, 0, point, 0).to_bytes()
                    };
                    let (start, end) = (point(low, 0), point(high, other));
                    for output in [0, 15, 16, 32, 47, 160] {
                        sink(line(&start, &end, output, random));
                        sink(line(&end, &start, output, random));
                    }
                }
            }
        }
    }
}

/// Lines on the edges: samples above 2147483646 in magnitude are skipped, and a snapped coordinate
/// may leave that range.
fn skipped(random: &mut Random, sink: Sink) {
    for edge in [MOST, MOST - 1, MOST - 2, LEAST, LEAST + 1, LEAST + 2] {
        for axis in 0..3 {
            for by in [1, 2, 3, 8, 50] {
                for inward in [0, 1, 2, 3, 8] {
                    let parity = edge & 1;
                    let mut from = [parity; 3];
                    from[axis] = edge;
                    let mut to = from.map(|number| number + 2 * by);
                    to[axis] = edge - edge.signum() * 2 * inward;
                    let (start, end) = (at(0, 0, from, 0), at(0, 0, to, 0));
                    along_exact(start, end, random, sink);
                    along_exact(end, start, random, sink);
                    // Across to the other parity, where that is on the lattice.
                    let across = to.map(|number| number - edge.signum());
                    along_exact(start, at(0, 0, across, 0x0010), random, sink);
                    along_exact(at(0, 0, across, 0x0010), start, random, sink);
                }
            }
        }
        // A whole edge and a corner, both walked along.
        let along = |number: i64| at(6, 6, [edge, number & !1 | edge & 1, edge], 0);
        for (from, to) in [(-9, 9), (40, -400), (1_000, -1_000)] {
            along_exact(along(from), along(to), random, sink);
        }
    }
}

/// Lengths of the two ends and of the output.
fn lengths(random: &mut Random, sink: Sink) {
    let lent = [0, 1, 8, 15, 16, 17, 32, 48];
    for one in lent {
        for other in lent {
            for null in [false, true] {
                for output in [0, 16, 48] {
                    let (start, end) = (noise(one, random), noise(other, random));
                    // 16 bytes of noise are mixed, nearly always; these are not.
                    for (start, end) in [(start, end), (vec![0; one], vec![2; other])] {
                        let request = line(&start, &end, output, random);
                        sink(Request { null, ..request });
                    }
                }
            }
        }
    }
    let (start, end) = (at(0, 0, [0, 0, 0], 0), at(0, 0, [2, 2, 0], 0));
    for output in 0..=65 {
        for (start, end) in [(start, end), (start, start), (end, start)] {
            for null in [false, true] {
                let request = line(&start.to_bytes(), &end.to_bytes(), output, random);
                sink(Request { null, ..request });
            }
        }
    }
}
