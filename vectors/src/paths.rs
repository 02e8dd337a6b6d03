//! The list of calls on rings and lines, `paths.bin`. Each record is one call by itself: every byte
//! of the workspace and of the output is 0xAA before it.
//!
//! The file is records of 64 bytes, at most 100, all numbers big-endian:
//!
//! | bytes | what |
//! |---|---|
//! | 0 | the call's number: 1 k_ring, 2 k_shell, 3 trace_line |
//! | 1 | length of the centre or of the start in bytes, at most 17 |
//! | 2 | length of the end in bytes, at most 17; of 1 and 2: 0 |
//! | 3 | expected refusal number; 0 where the call answers |
//! | 4..5 | length of the output in bytes, at most 3,200 |
//! | 6..7 | length of the workspace in bytes, at most 8,000; of 3: 0 |
//! | 8..39 | the centre or the start begins at byte 8, the end at byte 24, and each has its length of bytes, whatever lies there; of 1 and 2: k at 24..31, known at 32..35, waiting at 36..39 |
//! | 40 | 0 |
//! | 41 | expected room, of refusal 10 |
//! | 42..43 | expected count; 0 where the call refuses |
//! | 44..55 | x, y, z of refusal 1; else 0 |
//! | 56..63 | expected check number of the output after the call: the sum over i of (i + 1) * byte i |
//!
//! After the call the workspace is all zero; of refusal 11 it is as it was.

#![allow(deprecated)]

use crate::{cell, MAX, MIN, RECORD};
use compare::lent::Called;
use compare::paths::calls::{Call, Request, KNOWN_BYTES};
use compare::paths::limits::Around;
use compare::paths::reading::{along, taken, Rooms};
use compare::side_by_side::Asked;
use oracle::id::CellID;

type Cell = [u8; 16];

pub const BEFORE: u8 = 0xAA;
pub const MOST_CELL: usize = 17;
const MOST_OUTPUT: usize = 3200;
const MOST_WORKSPACE: usize = 8000;

/// The records made so far, and the calls that they are about.
struct List {
    bytes: Vec<u8>,
    calls: Vec<u8>,
}

impl List {
    fn add(&mut self, request: Request) {
        request.send(&mut self.calls);
        let answer = Call::expected(&request);
        let [first, second, output] = &request.buffers[..] else {
            unreachable!()
        };
        assert!(first.len() <= MOST_CELL && output.len() <= MOST_OUTPUT);
        let mut record = [0; RECORD];
        record[0] = request.call.number();
        record[1] = first.len() as u8;
        record[3] = answer.refusal.number as u8;
        record[4..6].copy_from_slice(&(output.len() as u16).to_be_bytes());
        put_cell(&mut record[8..24], first);
        if request.call == Call::Line {
            assert!(second.len() <= MOST_CELL);
            record[2] = second.len() as u8;
            put_cell(&mut record[24..40], second);
        } else {
            let [k, known, waiting] = request.numbers[..] else {
                unreachable!()
            };
            assert!(second.len() <= MOST_WORKSPACE);
            record[6..8].copy_from_slice(&(second.len() as u16).to_be_bytes());
            record[24..32].copy_from_slice(&k.to_be_bytes());
            record[32..36].copy_from_slice(&u32::try_from(known).unwrap().to_be_bytes());
            record[36..40].copy_from_slice(&u32::try_from(waiting).unwrap().to_be_bytes());
        }
        record[41] = answer.refusal.room as u8;
        record[42..44].copy_from_slice(&(answer.values[0] as u16).to_be_bytes());
        record[44..48].copy_from_slice(&answer.refusal.x.to_be_bytes());
        record[48..52].copy_from_slice(&answer.refusal.y.to_be_bytes());
        record[52..56].copy_from_slice(&answer.refusal.z.to_be_bytes());
        record[56..64].copy_from_slice(&check_number(&answer.buffers[2]).to_be_bytes());
        self.bytes.extend(record);
    }

    fn around(&mut self, call: Call, around: Around) {
        self.add(Request::new(
            call,
            &[around.k, around.known, around.waiting],
            &[
                &around.center,
                &vec![BEFORE; around.workspace],
                &vec![BEFORE; around.output],
            ],
        ));
    }

    fn line(&mut self, start: &[u8], end: &[u8], output: usize) {
        self.add(Request::new(
            Call::Line,
            &[],
            &[start, end, &vec![BEFORE; output]],
        ));
    }

    /// A line with an output that it fills.
    fn whole_line(&mut self, start: Cell, end: Cell) {
        let cells = along(of(start), of(end), MOST_OUTPUT / 16).unwrap();
        self.line(&start, &end, 16 * cells.len());
    }
}

fn of(cell: Cell) -> CellID {
    CellID::from_bytes(cell)
}

/// As many bytes of a cell as there is place for.
pub fn put_cell(place: &mut [u8], cell: &[u8]) {
    let length = cell.len().min(place.len());
    place[..length].copy_from_slice(&cell[..length]);
}

fn check_number(bytes: &[u8]) -> u64 {
    let weighed = |(place, &byte): (usize, &u8)| (place as u64 + 1) * u64::from(byte);
    bytes.iter().enumerate().map(weighed).sum()
}

const BOTH: [Call; 2] = [Call::Ring, Call::Shell];

/// The rooms that a walk takes.
fn exact(call: Call, center: Cell, k: u64) -> Around {
    let rooms = taken(call == Call::Ring, of(center), k);
    Around::within(of(center), k, rooms)
}

fn rooms(known: usize, waiting: usize, output: usize) -> Rooms {
    Rooms {
        known,
        waiting,
        output,
    }
}

fn answered(list: &mut List) {
    let plain = cell(0, 0, [0, 0, 0], 0);
    let flagged = cell(0, 0, [0, 0, 0], 0x0010);
    for call in BOTH {
        for center in [plain, cell(3, 9, [-3, 1, -1], 0), flagged] {
            for k in [1, 2] {
                list.around(call, exact(call, center, k));
            }
        }
        // k = 0 is the centre, unchecked.
        list.around(call, exact(call, cell(7, 9, [0, 1, 0], 0x8001), 0));
        list.around(call, exact(call, cell(7, 9, [MAX, MIN, 0], 0), 0));
        list.around(call, exact(call, plain, 3));
        // The last centres that have all neighbours.
        list.around(call, exact(call, cell(1, 2, [MAX - 2, 1, 1], 0xFFFF), 1));
        list.around(call, exact(call, cell(1, 2, [0, MIN + 2, 0], 0), 1));
    }
    let mut longer = exact(Call::Ring, flagged, 2);
    longer.workspace += 45;
    longer.output += 31;
    list.around(Call::Ring, longer);
}

fn refused(list: &mut List) {
    let plain = cell(0, 0, [0, 0, 0], 0);
    for call in BOTH {
        for less in 0..3 {
            let mut around = exact(call, plain, 2);
            match less {
                0 => around.known -= 1,
                1 => around.waiting -= 1,
                _ => around.output -= 1,
            }
            list.around(call, around);
        }
        // A ring lists the centre before it expands it.
        let no_output = Around::within(of(plain), 1, rooms(1, 1, 0));
        list.around(call, no_output);
        list.around(call, Around::within(of(plain), 2, rooms(15, 14, 15)));
        list.around(call, Around::within(of(plain), u64::MAX, rooms(65, 65, 65)));
        list.around(call, exact(call, cell(7, 9, [0, -1, 0], 0), 1));
        // An overflow at the centre, and one step away.
        list.around(call, exact(call, cell(0, 0, [0, 0, MAX - 1], 0), 1));
        list.around(call, exact(call, cell(0, 0, [MIN + 3, 1, 1], 0), 2));
    }
    for (known, waiting, workspace, center) in [
        (0, 14, 15 * KNOWN_BYTES, 16),
        (65_537, 14, MOST_WORKSPACE, 16),
        (15, 0, 15 * KNOWN_BYTES, 16),
        (15, 65_537, 15 * KNOWN_BYTES, 16),
        (15, 14, 15 * KNOWN_BYTES - 1, 16),
        (15, 14, 15 * KNOWN_BYTES - 1, 15),
        (15, 14, 15 * KNOWN_BYTES, 15),
        (15, 14, 15 * KNOWN_BYTES, 0),
        (15, 65_536, 15 * KNOWN_BYTES, 17),
    ] {
        let around = Around {
            center: vec![0; center],
            k: 1,
            known,
            waiting,
            workspace,
            output: 240,
        };
        list.around(Call::Ring, around);
    }
}

fn lines(list: &mut List) {
    let zero = cell(0, 0, [0, 0, 0], 0);
    let two = cell(0, 0, [2, 2, 0], 0);
    let at = |x, y, z| cell(0, 0, [x, y, z], 0);
    for (start, end) in [
        (zero, two),
        (two, zero),
        (zero, zero),
        (zero, cell(0, 0, [0, 0, 0], 0x0010)),
        (cell(5, 6, [0, 0, 0], 0x0010), cell(7, 8, [2, 0, 0], 0)),
        (
            cell(5, 6, [1, 1, 1], 0xFFFF),
            cell(5, 6, [-5, 9, 3], 0x0001),
        ),
        (at(0, 1, 0), at(0, 1, 0)),
        (at(-3, 1, -1), at(27, -15, 43)),
        (at(100, 0, -100), at(13, 41, 7)),
        // Where another order of rounding lists other cells.
        (at(4, -4, 4), at(-3, 1, -1)),
        (at(42, 14, -34), at(34, 34, -58)),
        (at(MAX, -9, 1), at(MAX, 9, 1)),
        (at(MAX, MIN + 1, -3), at(MAX - 8, MIN + 5, 3)),
        (at(MIN, 0, 2), at(MIN + 6, 14, 0)),
    ] {
        list.whole_line(start, end);
    }
    for (start, end, output) in [
        (zero, two, 47),
        (zero, two, 32),
        (zero, zero, 15),
        (zero, two, 63),
        (at(0, 1, 0), at(1, 0, 0), 48),
        (zero, at(1, 0, 0), 48),
        (at(MIN, 0, 0), zero, 48),
        (zero, at(MIN, 0, 0), 48),
        (zero, at(MAX - 1, 2, 0), 0),
    ] {
        list.line(&start, &end, output);
    }
    list.line(&zero[..15], &two, 48);
    list.line(&zero, &[two, two].concat()[..17], 48);
    list.line(&[], &[], 0);
}

/// How many records there are, all of them in order, and their calls.
pub fn records() -> (usize, Vec<u8>, Vec<u8>) {
    let mut list = List {
        bytes: Vec::new(),
        calls: Vec::new(),
    };
    answered(&mut list);
    refused(&mut list);
    lines(&mut list);
    (list.bytes.len() / RECORD, list.bytes, list.calls)
}
