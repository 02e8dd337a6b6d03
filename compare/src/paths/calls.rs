//! The calls of include/tishkolan.h on rings and lines: their numbers, requests for them, and what
//! each has to say.

#![allow(deprecated)]

use super::reading::{self, Rooms};
use crate::expected::{run, Refusal, BAD_WORKSPACE, NO_ROOM};
use crate::layers::expected::one_cell;
use crate::lent::{self, values, Answer, Called};
use crate::side_by_side::Asked;
use oracle::id::CellID;
use oracle::path::{k_ring, k_shell, trace_line};

#[derive(Debug, Clone, Copy, PartialEq, Eq)]
pub enum Call {
    Ring,
    Shell,
    Line,
}

pub type Request = lent::Request<Call>;

/// The workspace's bytes for each known cell.
pub const KNOWN_BYTES: usize = 44;

/// The most that may be named of either room.
pub const MOST_ROOM: u64 = 65_536;

/// A line of more steps is not traced by the oracle where it cannot be listed anyway.
const ORACLE_STEPS: u64 = 1_000_000;

impl Called for Call {
    const BUFFERS: usize = 3;
    const COUNTED: &'static str = "answered, refused";

    fn all() -> Vec<(u8, &'static str)> {
        vec![(1, "k_ring"), (2, "k_shell"), (3, "trace_line")]
    }

    fn number(self) -> u8 {
        match self {
            Call::Ring => 1,
            Call::Shell => 2,
            Call::Line => 3,
        }
    }

    fn numbers(self) -> &'static [&'static str] {
        match self {
            Call::Ring | Call::Shell => &["k", "known", "waiting"],
            Call::Line => &[],
        }
    }

    fn buffers(self) -> &'static [&'static str] {
        match self {
            Call::Ring | Call::Shell => &["center", "workspace", "output"],
            Call::Line => &["start", "end", "output"],
        }
    }

    /// "A refusal changes no output." "The workspace ... is all zero at return, answered or
    /// refused; only BadWorkspace leaves it untouched." "Successful output fills the front of its
    /// buffer; the rest is unchanged."
    fn expected(request: &Request) -> Answer {
        let mut buffers = request.buffers.clone();
        let said = match request.call {
            Call::Ring => around(request, true),
            Call::Shell => around(request, false),
            Call::Line => along(request),
        };
        if request.call != Call::Line && said != Err(Refusal::plain(BAD_WORKSPACE)) {
            buffers[1].fill(0);
        }
        let (refusal, count) = match said {
            Ok(cells) => {
                let bytes: Vec<u8> = cells.iter().flat_map(CellID::to_bytes).collect();
                buffers[2][..bytes.len()].copy_from_slice(&bytes);
                (Refusal::default(), cells.len() as u64)
            }
            Err(refusal) => (refusal, 0),
        };
        Answer {
            refusal,
            values: values(&[count]),
            buffers,
        }
    }

    fn counted(answer: &Answer) -> u32 {
        answer.refusal.number
    }
}

/// The plain reading is held to the oracle.
fn agree(
    request: &Request,
    said: &Result<Vec<CellID>, Refusal>,
    read: &Result<Vec<CellID>, Refusal>,
) {
    assert!(
        said == read,
        "the reading departs from the oracle: {}",
        request.words()
    );
}

/// BadWorkspace, then BadList; then the oracle's own answer. Where a room is too small, which the
/// oracle does not know, the plain reading's; everywhere else the two must agree.
fn around(request: &Request, every: bool) -> Result<Vec<CellID>, Refusal> {
    let [k, known, waiting] = request.numbers[..] else {
        unreachable!()
    };
    let fits = |room: u64| (1..=MOST_ROOM).contains(&room);
    if !fits(known) || !fits(waiting) || request.buffers[1].len() < KNOWN_BYTES * known as usize {
        return Err(Refusal::plain(BAD_WORKSPACE));
    }
    let center = one_cell(&request.buffers[0])?;
    let rooms = Rooms {
        known: known as usize,
        waiting: waiting as usize,
        output: request.buffers[2].len() / 16,
    };
    let read = reading::around(every, center, k, rooms);
    if matches!(read, Err(refusal) if refusal.number == NO_ROOM) {
        return read;
    }
    let said = run(|| match every {
        true => k_ring(center, k as usize),
        false => k_shell(center, k as usize),
    });
    agree(request, &said, &read);
    said
}

/// BadList of either end; then the oracle's own answer, which is NoRoom 3 where it is too long.
fn along(request: &Request) -> Result<Vec<CellID>, Refusal> {
    let start = one_cell(&request.buffers[0])?;
    let end = one_cell(&request.buffers[1])?;
    let room = request.buffers[2].len() / 16;
    let read = reading::along(start, end, room);
    if matches!(read, Err(refusal) if refusal.number == NO_ROOM)
        && reading::steps(start, end) > ORACLE_STEPS
    {
        return read;
    }
    let said = run(|| trace_line(start, end))
        .and_then(|line| line.map_err(Refusal::from))
        .and_then(|line| match line.len() <= room {
            true => Ok(line),
            false => Err(Refusal::no_room(3)),
        });
    agree(request, &said, &read);
    said
}
