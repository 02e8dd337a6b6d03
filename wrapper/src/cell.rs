//! Cells: 16 bytes each.

use std::cmp::Ordering;
use std::fmt;

use crate::face;
use crate::{Coord, Label, Refusal};

/// A cell: 16 bytes, big-endian: z, y, x (32 bits each, two's complement), then reserved (4 bits),
/// flags (8), exponent (4), resolution (8), frame (8). All 16 bytes make a cell; two cells are one
/// where all of their bits are.
///
/// A *plain* cell has exponent, flags and reserved 0, and so have all cells of an answer, unless a call
/// says otherwise. Cells are ordered by their 128 bits.
///
/// ```
/// use tishkolan::{Cell, Coord, Refusal};
///
/// let cell = Cell::new(0, 3, Coord::new(1, -1, 1), 28, 165)?;
/// assert_eq!(cell.0, *b"\0\0\0\x01\xFF\xFF\xFF\xFF\0\0\0\x01\x0A\x5C\x03\x00");
/// assert_eq!(cell.fields().exponent, 12);
/// assert_eq!(cell.lattice_coord()?, Coord::new(1, -1, 1));
///
/// let parent = cell.parent()?;
/// assert_eq!(parent, Cell::from_coords(0, 2, Coord::new(0, 0, 0))?);
/// assert!(parent.is_plain() && !cell.is_plain());
/// # Ok::<(), Refusal>(())
/// ```
#[repr(transparent)]
#[derive(Clone, Copy, PartialEq, Eq, PartialOrd, Ord, Hash, Default)]
pub struct Cell(pub [u8; 16]);

/// What is packed in a cell.
#[derive(Clone, Copy, PartialEq, Eq, Hash, Debug)]
pub struct Fields {
    /// The frame of reference.
    pub frame: u8,
    /// The resolution: 0 is the coarsest.
    pub resolution: u8,
    /// The exponent, 0 to 15.
    pub exponent: u8,
    /// The flags of the cell itself. What a layer keeps of a cell is another thing.
    pub flags: u8,
    /// The reserved bits, 0 to 15.
    pub reserved: u8,
    /// The coordinates, not tested.
    pub coord: Coord,
}

impl Cell {
    /// The cell of these fields, the exponent taken modulo 16, reserved 0.
    ///
    /// [`Refusal::InvalidParity`].
    pub fn new(
        frame: u8,
        resolution: u8,
        at: Coord,
        exponent: u8,
        flags: u8,
    ) -> Result<Cell, Refusal> {
        let mut out = Cell::default();
        face::cell_new(frame, resolution, at, exponent, flags, &mut out).answer(out)
    }

    /// The plain cell at a lattice point.
    ///
    /// [`Refusal::InvalidParity`].
    pub fn from_coords(frame: u8, resolution: u8, at: Coord) -> Result<Cell, Refusal> {
        let mut out = Cell::default();
        face::cell_from_coords(frame, resolution, at, &mut out).answer(out)
    }

    /// The list of cells that stands in bytes, as a route that came over the radio.
    ///
    /// [`Refusal::BadList`] where the number of bytes is not a multiple of 16. (No call is made.)
    ///
    /// ```
    /// use tishkolan::{Cell, Refusal};
    ///
    /// assert_eq!(Cell::list(&[7; 32])?, [Cell([7; 16]); 2]);
    /// assert_eq!(Cell::list(&[7; 31]), Err(Refusal::BadList));
    /// # Ok::<(), Refusal>(())
    /// ```
    pub fn list(bytes: &[u8]) -> Result<&[Cell], Refusal> {
        face::cells(bytes).ok_or(Refusal::BadList)
    }

    pub(crate) fn of_words(high: u64, low: u64) -> Cell {
        Cell((u128::from(high) << 64 | u128::from(low)).to_be_bytes())
    }

    /// The fields, as they were packed.
    pub fn fields(&self) -> Fields {
        let said = face::cell_fields(self);
        Fields {
            frame: said.frame,
            resolution: said.resolution,
            exponent: said.exponent,
            flags: said.flags,
            reserved: said.reserved,
            coord: said.coord,
        }
    }

    /// The coordinates, tested.
    ///
    /// [`Refusal::InvalidParity`].
    pub fn lattice_coord(&self) -> Result<Coord, Refusal> {
        let said = face::cell_lattice_coord(self);
        said.refusal.answer(said.coord)
    }

    /// The order of two cells over all 128 bits, which is also that of `<` and `==`.
    ///
    /// ```
    /// use std::cmp::Ordering;
    /// use tishkolan::Cell;
    ///
    /// assert_eq!(Cell([0; 16]).compare(&Cell([255; 16])), Ordering::Less);
    /// ```
    pub fn compare(&self, other: &Cell) -> Ordering {
        face::cell_compare(self, other).value.cmp(&0)
    }

    /// Whether exponent, flags and reserved are 0.
    pub fn is_plain(&self) -> bool {
        face::cell_is_plain(self).value != 0
    }

    /// The 14 neighbours, in the same frame and resolution.
    ///
    /// [`Refusal::InvalidParity`]; [`Refusal::CoordOverflow`] as of [`Coord::neighbors`].
    pub fn neighbors(&self) -> Result<[Cell; Coord::NEIGHBORS], Refusal> {
        let mut out = [Cell::default(); Coord::NEIGHBORS];
        face::cell_neighbors(self, &mut out).answer(out)
    }

    /// The 8 children.
    ///
    /// [`Refusal::NoChildren`] at resolution 255; [`Refusal::InvalidParity`];
    /// [`Refusal::CoordOverflow`] as of [`Coord::children`].
    pub fn children(&self) -> Result<[Cell; Coord::CHILDREN], Refusal> {
        let mut out = [Cell::default(); Coord::CHILDREN];
        face::cell_children(self, &mut out).answer(out)
    }

    /// The parent.
    ///
    /// [`Refusal::NoParent`] at resolution 0; [`Refusal::InvalidParity`].
    pub fn parent(&self) -> Result<Cell, Refusal> {
        let mut out = Cell::default();
        face::cell_parent(self, &mut out).answer(out)
    }

    /// The ancestor at a resolution: the cell itself, unchanged, at its own, else the parent of the
    /// parent, as often as it takes.
    ///
    /// [`Refusal::NoParent`] where the resolution is finer than the cell's; [`Refusal::InvalidParity`],
    /// but not at the cell's own resolution.
    pub fn ancestor(&self, resolution: u8) -> Result<Cell, Refusal> {
        let mut out = Cell::default();
        face::cell_ancestor(self, resolution, &mut out).answer(out)
    }

    /// Asks for the cell between two. There never is one, so an answer says just that.
    ///
    /// Where the resolutions are the same: [`Refusal::InvalidParity`] of this cell, then of the other;
    /// and where the parities are the same too, [`Refusal::CoordOverflow`] as of
    /// [`Coord::manhattan_distance`].
    pub fn between(&self, other: &Cell) -> Result<(), Refusal> {
        face::cell_between(self, other).answer(())
    }

    /// The Euclidean distance, by the coordinates alone: as of [`Coord::distance`].
    pub fn distance(&self, other: &Cell) -> Result<f64, Refusal> {
        let said = face::cell_distance(self, other);
        said.refusal.answer(f64::from_bits(said.bits))
    }

    /// The Manhattan distance, by the coordinates alone: as of [`Coord::manhattan_distance`].
    pub fn manhattan_distance(&self, other: &Cell) -> Result<i32, Refusal> {
        let said = face::cell_manhattan_distance(self, other);
        said.refusal.answer(said.value)
    }

    /// The cell's name on paper. Every cell has one, of mixed parity and with marks too.
    ///
    /// ```
    /// use tishkolan::{Cell, LabelFault, Refusal};
    ///
    /// let cell = Cell(*b"\0\0\0\x01\xFF\xFF\xFF\xFF\0\0\0\x01\x0A\x5C\x03\x00");
    /// let label = cell.to_bech32m();
    /// assert_eq!(label.as_str(), "cx3d1qqqqqq0lllll7qqqqqqs5hqrqq75s4gn");
    /// assert_eq!(Cell::from_bech32m(label), Ok(cell));
    ///
    /// // An o for the 0 that stands behind the q's.
    /// let refused = Cell::from_bech32m("cx3d1qqqqqqolllll7qqqqqqs5hqrqq75s4gn").unwrap_err();
    /// assert_eq!(refused, Refusal::BadLabel { fault: LabelFault::Character, place: 11 });
    /// assert_eq!(refused.to_string(), "no label has the character at place 11");
    /// ```
    pub fn to_bech32m(&self) -> Label {
        let mut out = Label([0; Label::LENGTH]);
        face::cell_to_bech32m(self, &mut out);
        out
    }

    /// The cell that a label names, which may be any bytes, in lower or in upper case.
    ///
    /// [`Refusal::BadLabel`], with the first fault in the order of [`LabelFault`](crate::LabelFault).
    pub fn from_bech32m(label: impl AsRef<[u8]>) -> Result<Cell, Refusal> {
        let mut out = Cell::default();
        face::cell_from_bech32m(label.as_ref(), &mut out).answer(out)
    }
}

/// The 16 bytes in hexadecimal.
impl fmt::Debug for Cell {
    fn fmt(&self, to: &mut fmt::Formatter<'_>) -> fmt::Result {
        write!(to, "Cell({:032X})", u128::from_be_bytes(self.0))
    }
}
