//! What a call says where it does not answer.

use std::fmt;

use crate::face::{LoadAnswer, PlaceAnswer, SearchAnswer, Told};
use crate::Cell;

/// Which room a call would have needed more of.
#[derive(Clone, Copy, PartialEq, Eq, Hash, Debug)]
pub enum Room {
    /// For known cells of a ring or a search.
    Known = 1,
    /// For waiting cells of a ring, or waiting entries of a search.
    Waiting = 2,
    /// In the buffer for the answer.
    Output = 3,
    /// In the table of a layer.
    Layer = 4,
}

/// What is wrong with a label, in the order of the tests.
#[derive(Clone, Copy, PartialEq, Eq, Hash, Debug)]
pub enum LabelFault {
    /// It does not begin with `cx3d1`, case aside; or it ends before, and the place is its length.
    Prefix = 30,
    /// The letter at the place is not of the case of those before it.
    MixedCase = 31,
    /// The character at the place is in no label.
    Character = 32,
    /// It does not have 37 characters; the place is how many it has.
    Length = 33,
    /// Its checksum is wrong, as where a character is mistyped for another; the place is its length.
    Checksum = 34,
    /// The two bits behind the cell's are not zero; the place is 30.
    Padding = 35,
}

/// Why a call did not answer. A call that refuses changes no layer and no output.
///
/// Some refusals of the library cannot be met through this crate, because its types leave no way to
/// ask for them: a rule or an aggregate that is none, or a cell of another length than 16 bytes.
///
/// ```
/// use tishkolan::{Coord, Refusal};
///
/// let refused = Coord::new(0, 1, 0).parent().unwrap_err();
/// assert_eq!(refused, Refusal::InvalidParity { x: 0, y: 1, z: 0 });
/// assert_eq!(refused.number(), 1);
/// assert_eq!(refused.to_string(), "the coordinates (0, 1, 0) are neither all even nor all odd");
/// ```
#[derive(Clone, Copy, PartialEq, Eq, Hash, Debug)]
pub enum Refusal {
    /// The coordinates of this point are neither all even nor all odd.
    InvalidParity {
        /// The point's x.
        x: i32,
        /// The point's y.
        y: i32,
        /// The point's z.
        z: i32,
    },
    /// A cell of resolution 0 has no parent, and no cell has an ancestor of a finer resolution.
    NoParent,
    /// A cell of resolution 255 has no children.
    NoChildren,
    /// A number is outside what the call takes.
    OutOfRange,
    /// There is no value to aggregate.
    NoValues,
    /// A value to aggregate is a NaN.
    HasNan,
    /// The search would have closed more cells than its limit.
    SearchLimitExceeded {
        /// The cells closed, the one that was too many included.
        expansions: u64,
        /// The limit that was given.
        limit: u64,
    },
    /// No route leads from one end to the other.
    NoPathFound {
        /// Where the search began.
        start: Cell,
        /// Where it was to end.
        goal: Cell,
    },
    /// A coordinate, or a difference of two, leaves the 32-bit numbers.
    CoordOverflow,
    /// What was lent is full.
    NoRoom(Room),
    /// The rooms of a workspace are not from 1 to 65,536, or its buffers are too short for them.
    BadWorkspace,
    /// The bytes are not a survey file.
    BadFile {
        /// The byte at which that was seen: of records that do not ascend, the first of the record that is not above
        /// the one before it.
        place: u64,
    },
    /// The number of bytes of a list of cells is not a multiple of 16.
    BadList,
    /// The records of a table, as many as its count says, are not those of a layer.
    BadLayer,
    /// The rule is neither of the two.
    BadRule,
    /// The bytes are not a label.
    BadLabel {
        /// Why not.
        fault: LabelFault,
        /// The place of the first character at fault, from 0, or what the fault says.
        place: u64,
    },
    /// A number that this crate does not know: the archive is another version's.
    Other(u32),
}

impl Refusal {
    /// The refusal's number in include/tishkolan.h.
    pub const fn number(&self) -> u32 {
        match self {
            Refusal::InvalidParity { .. } => 1,
            Refusal::NoParent => 2,
            Refusal::NoChildren => 3,
            Refusal::OutOfRange => 4,
            Refusal::NoValues => 5,
            Refusal::HasNan => 6,
            Refusal::SearchLimitExceeded { .. } => 7,
            Refusal::NoPathFound { .. } => 8,
            Refusal::CoordOverflow => 9,
            Refusal::NoRoom(_) => 10,
            Refusal::BadWorkspace => 11,
            Refusal::BadFile { .. } => 12,
            Refusal::BadList => 13,
            Refusal::BadLayer => 14,
            Refusal::BadRule => 15,
            Refusal::BadLabel { fault, .. } => *fault as u32,
            Refusal::Other(number) => *number,
        }
    }

    /// What was told, unless that is an answer or carries more than `Told` has.
    fn of(told: Told) -> Refusal {
        match told.number {
            1 => Refusal::InvalidParity {
                x: told.x,
                y: told.y,
                z: told.z,
            },
            2 => Refusal::NoParent,
            3 => Refusal::NoChildren,
            4 => Refusal::OutOfRange,
            5 => Refusal::NoValues,
            6 => Refusal::HasNan,
            9 => Refusal::CoordOverflow,
            10 => match told.room {
                1 => Refusal::NoRoom(Room::Known),
                2 => Refusal::NoRoom(Room::Waiting),
                3 => Refusal::NoRoom(Room::Output),
                4 => Refusal::NoRoom(Room::Layer),
                _ => Refusal::Other(10),
            },
            11 => Refusal::BadWorkspace,
            13 => Refusal::BadList,
            14 => Refusal::BadLayer,
            15 => Refusal::BadRule,
            number => Refusal::Other(number),
        }
    }
}

impl Told {
    /// The answer, or the refusal in its place.
    pub(crate) fn answer<T>(self, answer: T) -> Result<T, Refusal> {
        match self.number {
            0 => Ok(answer),
            _ => Err(Refusal::of(self)),
        }
    }
}

impl PlaceAnswer {
    pub(crate) fn answer<T>(self, answer: T) -> Result<T, Refusal> {
        let fault = match self.refusal.number {
            30 => LabelFault::Prefix,
            31 => LabelFault::MixedCase,
            32 => LabelFault::Character,
            33 => LabelFault::Length,
            34 => LabelFault::Checksum,
            35 => LabelFault::Padding,
            _ => return self.refusal.answer(answer),
        };
        Err(Refusal::BadLabel {
            fault,
            place: self.place,
        })
    }
}

impl LoadAnswer {
    pub(crate) fn answer(&self) -> Result<(), Refusal> {
        match self.refusal.number {
            12 => Err(Refusal::BadFile { place: self.place }),
            _ => self.refusal.answer(()),
        }
    }
}

impl SearchAnswer {
    pub(crate) fn answer(&self) -> Result<(), Refusal> {
        match self.refusal.number {
            7 => Err(Refusal::SearchLimitExceeded {
                expansions: self.expansions,
                limit: self.limit,
            }),
            8 => Err(Refusal::NoPathFound {
                start: Cell::of_words(self.start_high, self.start_low),
                goal: Cell::of_words(self.goal_high, self.goal_low),
            }),
            _ => self.refusal.answer(()),
        }
    }
}

impl fmt::Display for Refusal {
    fn fmt(&self, to: &mut fmt::Formatter<'_>) -> fmt::Result {
        match self {
            Refusal::InvalidParity { x, y, z } => {
                write!(
                    to,
                    "the coordinates ({x}, {y}, {z}) are neither all even nor all odd"
                )
            }
            Refusal::NoParent => to.write_str("the cell has no parent"),
            Refusal::NoChildren => to.write_str("the cell has no children"),
            Refusal::OutOfRange => to.write_str("a number is out of range"),
            Refusal::NoValues => to.write_str("there are no values"),
            Refusal::HasNan => to.write_str("a value is a NaN"),
            Refusal::SearchLimitExceeded { expansions, limit } => {
                write!(
                    to,
                    "the search closed {expansions} cells, its limit is {limit}"
                )
            }
            Refusal::NoPathFound { start, goal } => {
                write!(to, "there is no route from {start:?} to {goal:?}")
            }
            Refusal::CoordOverflow => {
                to.write_str("a coordinate or a difference of two leaves the 32-bit numbers")
            }
            Refusal::NoRoom(Room::Known) => to.write_str("there is no room for another known cell"),
            Refusal::NoRoom(Room::Waiting) => {
                to.write_str("there is no room for another waiting entry")
            }
            Refusal::NoRoom(Room::Output) => to.write_str("the answer does not fit its buffer"),
            Refusal::NoRoom(Room::Layer) => to.write_str("the layer is full"),
            Refusal::BadWorkspace => {
                to.write_str("the workspace does not have the rooms that were named")
            }
            Refusal::BadFile { place } => write!(to, "not a survey file, seen at byte {place}"),
            Refusal::BadList => to.write_str("the bytes are not a list of cells"),
            Refusal::BadLayer => to.write_str("the table and its count are not a layer"),
            Refusal::BadRule => to.write_str("the rule is neither of the two"),
            Refusal::BadLabel { fault, place } => match fault {
                LabelFault::Prefix => {
                    write!(
                        to,
                        "the label does not begin with cx3d1, seen at place {place}"
                    )
                }
                LabelFault::MixedCase => {
                    write!(
                        to,
                        "the letter at place {place} is not of the case of those before it"
                    )
                }
                LabelFault::Character => write!(to, "no label has the character at place {place}"),
                LabelFault::Length => write!(to, "a label has 37 characters, not {place}"),
                LabelFault::Checksum => to.write_str("the label's checksum is wrong"),
                LabelFault::Padding => to.write_str("the label's padding is not zero"),
            },
            Refusal::Other(number) => {
                write!(to, "refusal {number}, which this crate does not know")
            }
        }
    }
}

impl std::error::Error for Refusal {}
