//! What each call has to answer: the oracle's answer, a panic of it counted as the refusal that
//! the specification names; where the Rust has no such call, the specification's own words. Of labels
//! BIP 350 decides, by labels/reading.rs, and the oracle is held to that.

#![allow(deprecated)]

use crate::calls::{Call, Request};
use crate::labels::reading;
use oracle::error::Error;
use oracle::id::CellID;
use oracle::lattice::{Lattice, LatticeCoord, Parity};
use std::cell::Cell;
use std::panic::{catch_unwind, AssertUnwindSafe};

pub const INVALID_PARITY: u32 = 1;
pub const NO_PARENT: u32 = 2;
pub const NO_CHILDREN: u32 = 3;
pub const OUT_OF_RANGE: u32 = 4;
pub const NO_VALUES: u32 = 5;
pub const HAS_NAN: u32 = 6;
pub const COORD_OVERFLOW: u32 = 9;
pub const NO_ROOM: u32 = 10;
pub const BAD_WORKSPACE: u32 = 11;
pub const BAD_FILE: u32 = 12;
pub const BAD_LIST: u32 = 13;
pub const BAD_LAYER: u32 = 14;
pub const BAD_RULE: u32 = 15;
pub const LABEL_PREFIX: u32 = 30;
pub const LABEL_MIXED_CASE: u32 = 31;
pub const LABEL_CHARACTER: u32 = 32;
pub const LABEL_LENGTH: u32 = 33;
pub const LABEL_CHECKSUM: u32 = 34;
pub const LABEL_PADDING: u32 = 35;

/// A refusal with everything that it carries; all zero where the call answers.
#[derive(Debug, Clone, Copy, PartialEq, Eq, Default)]
pub struct Refusal {
    pub number: u32,
    pub room: u32,
    pub x: i32,
    pub y: i32,
    pub z: i32,
}

impl Refusal {
    pub fn plain(number: u32) -> Refusal {
        Refusal {
            number,
            ..Refusal::default()
        }
    }

    pub fn no_room(room: u32) -> Refusal {
        Refusal {
            room,
            ..Refusal::plain(NO_ROOM)
        }
    }

    /// The 20 bytes of a refusal, as C has them.
    pub fn read(bytes: &[u8]) -> Refusal {
        let word = |at: usize| u32::from_le_bytes(bytes[at..at + 4].try_into().unwrap());
        Refusal {
            number: word(0),
            room: word(4),
            x: word(8) as i32,
            y: word(12) as i32,
            z: word(16) as i32,
        }
    }

    pub fn mixed(x: i32, y: i32, z: i32) -> Refusal {
        Refusal {
            number: INVALID_PARITY,
            room: 0,
            x,
            y,
            z,
        }
    }
}

/// All that a call says.
#[derive(Debug, Clone, PartialEq, Eq, Default)]
pub struct Answer {
    pub refusal: Refusal,
    /// The value's numbers: one, three of a point, or the eight fields of a cell. Of a refusal the
    /// place that it has in an answer of its own.
    pub values: [i64; 8],
    /// The bytes written to the front of the buffer, each element little-endian.
    pub front: Vec<u8>,
}

type Said = Result<Answer, Refusal>;

fn value(value: i64) -> Said {
    values(&[value])
}

fn values(numbers: &[i64]) -> Said {
    let mut answer = Answer::default();
    answer.values[..numbers.len()].copy_from_slice(numbers);
    Ok(answer)
}

fn coord(coord: LatticeCoord) -> Said {
    values(&[coord.x.into(), coord.y.into(), coord.z.into()])
}

fn listed(front: Vec<u8>) -> Said {
    Ok(Answer {
        front,
        ..Answer::default()
    })
}

fn points(points: Vec<LatticeCoord>) -> Said {
    listed(
        points
            .iter()
            .flat_map(|point| [point.x, point.y, point.z])
            .flat_map(i32::to_le_bytes)
            .collect(),
    )
}

fn cells(cells: Vec<CellID>) -> Said {
    listed(cells.iter().flat_map(CellID::to_bytes).collect())
}

impl From<Error> for Refusal {
    fn from(error: Error) -> Refusal {
        match error {
            Error::InvalidParity { x, y, z } => Refusal::mixed(x, y, z),
            Error::NoParent => Refusal::plain(NO_PARENT),
            Error::NoChildren => Refusal::plain(NO_CHILDREN),
            // Its text is not carried over.
            Error::OutOfRange(_) => Refusal::plain(OUT_OF_RANGE),
            other => panic!("an error of another module: {other:?}"),
        }
    }
}

thread_local! {
    /// Whether the oracle is at work.
    static RUNNING: Cell<bool> = const { Cell::new(false) };
}

/// Runs the Rust. An overflow is CoordOverflow; an `unwrap` of InvalidParity is that refusal, with
/// the coordinates that the panic names.
pub(crate) fn run<T>(call: impl FnOnce() -> T) -> Result<T, Refusal> {
    RUNNING.set(true);
    let ran = catch_unwind(AssertUnwindSafe(call));
    RUNNING.set(false);
    ran.map_err(|panic| {
        let text = match (panic.downcast_ref::<&str>(), panic.downcast_ref::<String>()) {
            (Some(text), _) => text.to_string(),
            (_, Some(text)) => text.clone(),
            _ => String::new(),
        };
        if text.starts_with("attempt to ") && text.ends_with(" with overflow") {
            return Refusal::plain(COORD_OVERFLOW);
        }
        let named: Vec<i32> = match text.split_once("InvalidParity") {
            Some((_, rest)) => rest
                .split(|letter: char| letter != '-' && !letter.is_ascii_digit())
                .filter_map(|word| word.parse().ok())
                .collect(),
            None => Vec::new(),
        };
        match named[..] {
            [x, y, z] => Refusal::mixed(x, y, z),
            _ => panic!("the oracle panicked otherwise: {text}"),
        }
    })
}

/// Silences the panics that `run` catches.
pub fn quiet() {
    let loud = std::panic::take_hook();
    std::panic::set_hook(Box::new(move |panic| {
        if !RUNNING.get() {
            loud(panic);
        }
    }));
}

/// The root, which the Rust does not have: the machine's own, where the specification allows it.
fn square_root(bits: u64) -> Said {
    let square = f64::from_bits(bits);
    let whole = square >= 1.0 && square <= 18446744073709551616.0 && square.trunc() == square;
    if bits == 0 || whole {
        value(square.sqrt().to_bits() as i64)
    } else {
        Err(Refusal::plain(OUT_OF_RANGE))
    }
}

fn distance(first: LatticeCoord, second: LatticeCoord) -> Said {
    let distance = run(|| first.distance_to(&second))?;
    value(distance.to_bits() as i64)
}

fn manhattan(first: LatticeCoord, second: LatticeCoord) -> Said {
    value(run(|| first.manhattan_distance_to(&second))?.into())
}

/// The ancestor, which the Rust does not have: parents of parents.
fn ancestor(cell: CellID, resolution: u8) -> Said {
    if resolution > cell.resolution() {
        return Err(Refusal::plain(NO_PARENT));
    }
    let mut at = cell;
    while at.resolution() != resolution {
        at = at.parent()?;
    }
    cells(vec![at])
}

/// A label, which the reading of BIP 350 and the Rust write the same.
fn label_of(cell: [u8; 16]) -> Said {
    let label = reading::write(cell);
    assert!(
        reading::agrees_in_writing(cell, &label),
        "the reading departs from the oracle: the label of {cell:?}"
    );
    listed(label)
}

/// BIP 350 decides: the cell by the reading, which the Rust is held to but for its named differences.
fn labelled(label: &[u8]) -> Said {
    assert!(
        reading::agrees_in_reading(label),
        "the oracle differs from the reading otherwise than docs/DIFFERENCES.md says: \"{}\"",
        label.escape_ascii()
    );
    match reading::read(label) {
        Ok(cell) => listed(cell.to_vec()),
        Err(fault) => {
            let mut answer = Answer {
                refusal: Refusal::plain(fault.number),
                ..Answer::default()
            };
            answer.values[0] = fault.place as i64;
            Ok(answer)
        }
    }
}

fn say(request: &Request) -> Said {
    let call = request.call;
    // A cell of another length than 16 comes before anything else.
    let cell = |lent: &crate::calls::Lent| match lent.cell() {
        Some(bytes) => Ok(CellID::from_bytes(bytes)),
        None => Err(Refusal::plain(BAD_LIST)),
    };
    let zero = CellID::from_bytes([0; 16]);
    let first = if call.cells() > 0 {
        cell(&request.first)?
    } else {
        zero
    };
    let second = if call.cells() > 1 {
        cell(&request.second)?
    } else {
        zero
    };
    let (x, y, z) = (request.i32(0), request.i32(1), request.i32(2));
    let other = || LatticeCoord::new(request.i32(3), request.i32(4), request.i32(5));

    match call {
        Call::SquareRoot => square_root(request.bits(0)),
        Call::Parity => match Parity::from_coords(x, y, z)? {
            Parity::Even => value(0),
            Parity::Odd => value(1),
        },
        Call::Opposite => {
            let parity = match request.numbers[0] {
                0 => Parity::Even,
                1 => Parity::Odd,
                // The Rust has no other parity; the header says what another number gives.
                _ => return Err(Refusal::plain(OUT_OF_RANGE)),
            };
            match parity.opposite() {
                Parity::Even => value(0),
                Parity::Odd => value(1),
            }
        }
        Call::IsValidLatticePoint => value(Lattice::is_valid_lattice_point(x, y, z).into()),
        Call::LatticeNeighbors => {
            let point = LatticeCoord::new(x, y, z)?;
            points(run(|| Lattice::get_neighbors(&point))?)
        }
        Call::LatticeChildren => {
            let point = LatticeCoord::new(x, y, z)?;
            points(run(|| Lattice::get_children(&point))?)
        }
        Call::LatticeParent => {
            let point = LatticeCoord::new(x, y, z)?;
            coord(run(|| Lattice::get_parent(&point))?)
        }
        Call::PhysicalToLattice => coord(run(|| {
            Lattice::physical_to_lattice(
                request.double(0),
                request.double(1),
                request.double(2),
                request.u8(3),
            )
        })??),
        Call::ToPhysical => {
            let (x, y, z) = LatticeCoord::new(x, y, z)?.to_physical();
            values(&[x, y, z].map(|number| number.to_bits() as i64))
        }
        Call::LatticeDistance => distance(LatticeCoord::new(x, y, z)?, other()?),
        Call::LatticeManhattanDistance => manhattan(LatticeCoord::new(x, y, z)?, other()?),
        Call::CellNew => cells(vec![CellID::new(
            request.u8(0),
            request.u8(1),
            request.i32(2),
            request.i32(3),
            request.i32(4),
            request.u8(5),
            request.u8(6),
        )?]),
        Call::CellFromCoords => cells(vec![CellID::from_coords(
            request.u8(0),
            request.u8(1),
            request.i32(2),
            request.i32(3),
            request.i32(4),
        )?]),
        Call::CellFields => values(&[
            first.frame().into(),
            first.resolution().into(),
            first.exponent().into(),
            first.flags().into(),
            // The Rust reads no reserved field: bits 28 to 31.
            (first.to_bytes()[12] >> 4).into(),
            first.x().into(),
            first.y().into(),
            first.z().into(),
        ]),
        Call::CellLatticeCoord => coord(first.lattice_coord()?),
        Call::CellCompare => value(first.cmp(&second) as i64),
        // The Rust does not ask: bits 16 to 31 are zero.
        Call::CellIsPlain => value((first.to_bytes()[12..14] == [0, 0]).into()),
        Call::CellNeighbors => cells(run(|| first.neighbors())?),
        Call::CellChildren => cells(run(|| first.children())??),
        Call::CellParent => cells(vec![run(|| first.parent())??]),
        Call::CellAncestor => ancestor(first, request.u8(0)),
        Call::CellBetween => match run(|| first.cell_between(second))? {
            None => value(0),
            // The face has no way to hand a cell back, since there never is one.
            Some(cell) => panic!("the oracle found a cell between: {cell:?}"),
        },
        Call::CellDistance => distance(first.lattice_coord()?, second.lattice_coord()?),
        Call::CellManhattanDistance => manhattan(first.lattice_coord()?, second.lattice_coord()?),
        Call::CellToBech32m => label_of(first.to_bytes()),
        Call::CellFromBech32m => labelled(request.first.slice()),
    }
}

/// What the call has to say.
pub fn expected(request: &Request) -> Answer {
    let mut said = say(request);
    let size = request.call.buffer().map_or(0, |(size, _)| size);
    if said
        .as_ref()
        .is_ok_and(|answer| answer.front.len() > usize::from(request.room) * size)
    {
        // The output room, last of all.
        said = Err(Refusal::no_room(3));
    }
    said.unwrap_or_else(|refusal| Answer {
        refusal,
        ..Answer::default()
    })
}

/// The refusal's number by the ranges that the specification writes out, where it writes some:
/// a second opinion on the panics of the oracle. It looks neither at lengths nor at rooms.
pub fn by_the_ranges(request: &Request) -> Option<u32> {
    let mixed = |point: [i64; 3]| {
        let odd = point.map(|number| number.rem_euclid(2));
        odd[0] != odd[1] || odd[1] != odd[2]
    };
    let within = |number: i64, low: i64, high: i64| low <= number && number <= high;
    let of = |cell: [u8; 16]| {
        let word = |at: usize| i32::from_be_bytes(cell[at..at + 4].try_into().unwrap());
        [word(8), word(4), word(0)].map(i64::from)
    };
    let numbers = |from: usize| [0, 1, 2].map(|place| i64::from(request.i32(from + place)));
    let (first, second) = match request.call.cells() {
        0 => (numbers(0), numbers(3)),
        1 => (of(request.first.cell()?), [0; 3]),
        _ => (of(request.first.cell()?), of(request.second.cell()?)),
    };
    let resolution = |lent: &crate::calls::Lent| lent.slice()[14];

    let neighbors = |point: [i64; 3]| {
        if mixed(point) {
            INVALID_PARITY
        } else if point
            .iter()
            .any(|&number| !within(number, -2147483646, 2147483645))
        {
            COORD_OVERFLOW
        } else {
            0
        }
    };
    let children = |point: [i64; 3]| {
        if mixed(point) {
            INVALID_PARITY
        } else if !within(point[0], -1073741824, 1073741822)
            || !within(point[1], -1073741823, 1073741822)
            || !within(point[2], -1073741823, 1073741822)
        {
            COORD_OVERFLOW
        } else {
            0
        }
    };
    let difference = [0, 1, 2].map(|axis| first[axis] - second[axis]);
    let sum: i64 = difference.iter().map(|number| number.abs()).sum();
    let leaves = difference
        .iter()
        .any(|&number| !within(number, -2147483648, 2147483647));
    let distance = |overflow: bool| {
        if mixed(first) || mixed(second) {
            INVALID_PARITY
        } else if overflow {
            COORD_OVERFLOW
        } else {
            0
        }
    };
    Some(match request.call {
        Call::LatticeNeighbors | Call::CellNeighbors => neighbors(first),
        Call::LatticeChildren => children(first),
        Call::CellChildren if resolution(&request.first) == 255 => NO_CHILDREN,
        Call::CellChildren => children(first),
        Call::LatticeDistance | Call::CellDistance => distance(leaves),
        Call::LatticeManhattanDistance | Call::CellManhattanDistance => distance(sum > 2147483647),
        Call::CellBetween if resolution(&request.first) != resolution(&request.second) => 0,
        Call::CellBetween if mixed(first) || mixed(second) => INVALID_PARITY,
        Call::CellBetween if (first[0] - second[0]) % 2 != 0 => 0,
        Call::CellBetween => distance(sum > 2147483647),
        _ => return None,
    })
}
