//! Lists of cells in lent buffers: lines, rings and shells.

use crate::face;
use crate::{Cell, Refusal};

/// The cells at the front of a buffer, as many as were told.
fn listed(said: face::CountAnswer, out: &[Cell]) -> Result<&[Cell], Refusal> {
    said.refusal.answer(())?;
    Ok(&out[..said.count as usize])
}

/// The cells along the line from start to end, both listed; equal ends are one cell, whatever their
/// parity. Those between have the start's frame and resolution and are plain.
///
/// [`Refusal::InvalidParity`] of start, then of end; [`Refusal::CoordOverflow`] where a coordinate of end
/// less that of start leaves `i32`; [`Refusal::NoRoom`] of the output. There are two samples for each unit
/// of the largest difference, so a line between far ends takes long.
///
/// ```
/// use tishkolan::{trace_line, Cell, Coord, Refusal};
///
/// let at = |x, y, z| Cell::from_coords(0, 3, Coord::new(x, y, z)).unwrap();
/// let mut out = [Cell::default(); 8];
/// let line = trace_line(&at(0, 0, 0), &at(2, 2, 0), &mut out)?;
/// assert_eq!(line, [at(0, 0, 0), at(1, 1, -1), at(2, 2, 0)]);
/// # Ok::<(), Refusal>(())
/// ```
pub fn trace_line<'o>(
    start: &Cell,
    end: &Cell,
    out: &'o mut [Cell],
) -> Result<&'o [Cell], Refusal> {
    listed(face::trace_line(start, end, out), out)
}

/// What is lent to a ring or a shell: a buffer, which may hold anything, and the rooms that it has.
///
/// Known cells are all that the walk has seen; waiting cells those that it has seen and not expanded.
/// A call is [`Refusal::BadWorkspace`], before anything else, where a room is not from 1 to 65,536
/// or the buffer is shorter than [`bytes`](RingWorkspace::bytes) says; that leaves the buffer as it was. Every other answer or
/// refusal leaves all of it zero.
#[derive(Debug)]
pub struct RingWorkspace<'w> {
    /// Room for known cells.
    pub known: usize,
    /// Room for waiting cells, which take no bytes of their own.
    pub waiting: usize,
    /// The buffer.
    pub buffer: &'w mut [u8],
}

/// No workspace has more room than this.
pub(crate) const fn most(room: usize) -> usize {
    if room < 65_536 {
        room
    } else {
        65_536
    }
}

impl<'w> RingWorkspace<'w> {
    /// This buffer with all the room that it has for known cells, 65,536 at most, and as much for waiting ones.
    pub const fn new(buffer: &'w mut [u8]) -> RingWorkspace<'w> {
        let known = most(buffer.len() / 44);
        RingWorkspace {
            known,
            waiting: known,
            buffer,
        }
    }

    /// The bytes of a buffer with room for so many known cells.
    pub const fn bytes(known: usize) -> usize {
        known.saturating_mul(44)
    }
}

/// The cells within k steps of a centre, the centre first, in the order of first sight.
///
/// [`Refusal::BadWorkspace`]; then, as the walk meets them, [`Refusal::InvalidParity`] and
/// [`Refusal::CoordOverflow`] of cells at fewer than k steps, [`Refusal::NoRoom`] of the output for a cell
/// to be listed, of known cells and then of waiting ones for a cell not seen before.
///
/// ```
/// use tishkolan::{k_ring, k_shell, Cell, Coord, Refusal, RingWorkspace};
///
/// let mut buffer = [0; RingWorkspace::bytes(65)];
/// let mut workspace = RingWorkspace::new(&mut buffer);
/// let center = Cell::from_coords(0, 3, Coord::new(0, 0, 0))?;
/// let mut out = [Cell::default(); 65];
///
/// assert_eq!(k_ring(&center, 1, &mut workspace, &mut out)?[1..], center.neighbors()?);
/// assert_eq!(k_ring(&center, 2, &mut workspace, &mut out)?.len(), 65);
/// assert_eq!(k_shell(&center, 2, &mut workspace, &mut out)?.len(), 50);
/// # Ok::<(), Refusal>(())
/// ```
pub fn k_ring<'o>(
    center: &Cell,
    k: u64,
    workspace: &mut RingWorkspace<'_>,
    out: &'o mut [Cell],
) -> Result<&'o [Cell], Refusal> {
    let rooms = (workspace.known, workspace.waiting);
    listed(face::k_ring(center, k, rooms, workspace.buffer, out), out)
}

/// The cells at exactly k steps of a centre; else as [`k_ring`], but only they are listed.
pub fn k_shell<'o>(
    center: &Cell,
    k: u64,
    workspace: &mut RingWorkspace<'_>,
    out: &'o mut [Cell],
) -> Result<&'o [Cell], Refusal> {
    let rooms = (workspace.known, workspace.waiting);
    listed(face::k_shell(center, k, rooms, workspace.buffer, out), out)
}
