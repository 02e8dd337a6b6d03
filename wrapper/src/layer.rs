//! Layers: what is kept of cells, in lent tables; aggregates and rollups.

use std::fmt;
use std::marker::PhantomData;

use crate::face;
use crate::{Cell, Refusal};

/// The most cells that a layer keeps something of.
pub const MOST_CELLS: usize = 1024;

/// The flags that a layer keeps of a cell. A cell is blocked by bit 0 and by nothing else.
///
/// ```
/// use tishkolan::Flags;
///
/// let flags = Flags::NO_FLY.set_flag(Flags::WATER);
/// assert_eq!(flags, Flags(6));
/// assert!(flags.has_flag(Flags::NO_FLY) && !flags.is_blocked());
/// assert!(flags.set_flag(Flags::BLOCKED).is_blocked());
/// assert_eq!(flags.clear_flag(Flags::WATER), Flags::NO_FLY);
/// ```
#[derive(Clone, Copy, PartialEq, Eq, Hash, Debug, Default)]
pub struct Flags(pub u32);

impl Flags {
    /// No flag.
    pub const NONE: Flags = Flags(0);
    /// No route that avoids blocked cells enters it.
    pub const BLOCKED: Flags = Flags(1);
    /// A mark for the planner; it blocks nothing.
    pub const NO_FLY: Flags = Flags(2);
    /// A mark for the planner; it blocks nothing.
    pub const WATER: Flags = Flags(4);
    /// A mark for the planner; it blocks nothing.
    pub const BOUNDARY: Flags = Flags(8);

    /// Whether a flag is among these.
    pub fn has_flag(self, flag: Flags) -> bool {
        face::tishkolan_has_flag(self.0, flag.0)
    }

    /// These flags and another.
    #[must_use]
    pub fn set_flag(self, flag: Flags) -> Flags {
        Flags(face::tishkolan_set_flag(self.0, flag.0))
    }

    /// These flags without another.
    #[must_use]
    pub fn clear_flag(self, flag: Flags) -> Flags {
        Flags(face::tishkolan_clear_flag(self.0, flag.0))
    }

    /// Whether they have bit 0.
    pub fn is_blocked(self) -> bool {
        face::tishkolan_is_blocked(self.0)
    }
}

/// What a layer keeps of a cell: [`Flags`], or an `f64`.
pub trait Kept: calls::Calls {
    /// The bytes of a record: the cell's, and those of what is kept.
    const RECORD: usize;
}

impl Kept for Flags {
    const RECORD: usize = 20;
}

impl Kept for f64 {
    const RECORD: usize = 24;
}

mod calls {
    use super::{face, Cell, Flags};
    use face::{CountAnswer, KeptAnswer, NumberAnswer};

    /// The eight calls of a layer of one kind, and how what is kept is told.
    pub trait Calls: Copy {
        fn told(bits: u64) -> Self;
        fn read(record: &[u8]) -> Self;
        fn set(table: &mut [u8], count: usize, cell: &Cell, kept: Self) -> CountAnswer;
        fn get(table: &[u8], count: usize, cell: &Cell) -> KeptAnswer;
        fn remove(table: &mut [u8], count: usize, cell: &Cell) -> KeptAnswer;
        fn contains(table: &[u8], count: usize, cell: &Cell) -> NumberAnswer;
        fn count(table: &[u8], count: usize) -> CountAnswer;
        fn is_empty(table: &[u8], count: usize) -> NumberAnswer;
        fn clear(table: &mut [u8]);
        fn list(table: &[u8], count: usize, out: &mut [u8]) -> CountAnswer;
    }

    /// The calls of `face` under a name, which only `set` takes a value for.
    macro_rules! calls_of {
        ($layer:ident) => {
            fn get(table: &[u8], count: usize, cell: &Cell) -> KeptAnswer {
                face::$layer::get(table, count, cell)
            }
            fn remove(table: &mut [u8], count: usize, cell: &Cell) -> KeptAnswer {
                face::$layer::remove(table, count, cell)
            }
            fn contains(table: &[u8], count: usize, cell: &Cell) -> NumberAnswer {
                face::$layer::contains(table, count, cell)
            }
            fn count(table: &[u8], count: usize) -> CountAnswer {
                face::$layer::count(table, count)
            }
            fn is_empty(table: &[u8], count: usize) -> NumberAnswer {
                face::$layer::is_empty(table, count)
            }
            fn clear(table: &mut [u8]) {
                face::$layer::clear(table)
            }
            fn list(table: &[u8], count: usize, out: &mut [u8]) -> CountAnswer {
                face::$layer::list(table, count, out)
            }
        };
    }

    impl Calls for Flags {
        fn told(bits: u64) -> Flags {
            Flags(bits as u32)
        }
        fn read(kept: &[u8]) -> Flags {
            Flags(
                kept.iter()
                    .fold(0, |word, byte| word << 8 | u32::from(*byte)),
            )
        }
        fn set(table: &mut [u8], count: usize, cell: &Cell, kept: Flags) -> CountAnswer {
            face::flags::set(table, count, cell, kept.0)
        }
        calls_of!(flags);
    }

    impl Calls for f64 {
        fn told(bits: u64) -> f64 {
            f64::from_bits(bits)
        }
        fn read(kept: &[u8]) -> f64 {
            f64::from_bits(
                kept.iter()
                    .fold(0, |word, byte| word << 8 | u64::from(*byte)),
            )
        }
        fn set(table: &mut [u8], count: usize, cell: &Cell, kept: f64) -> CountAnswer {
            face::values::set(table, count, cell, kept.to_bits())
        }
        calls_of!(values);
    }
}

/// A layer: a table that you lend, and how many of its records are in use, which the layer keeps.
///
/// It is a [`FlagLayer`] or a [`ValueLayer`]. A record is a cell and what is kept of it, big-endian; the
/// records in use stand at the front, strictly ascending by cell. A table holds at most
/// [`MOST_CELLS`] records, fewer where it is shorter.
///
/// Every call tests the whole table and is [`Refusal::BadLayer`] where it is not a layer's, which
/// cannot be met here: [`over`](Layer::over) has tested it, and nobody else writes to it.
pub struct Layer<'a, K: Kept> {
    table: &'a mut [u8],
    count: usize,
    kept: PhantomData<K>,
}

/// A layer of flags.
///
/// ```
/// use tishkolan::{Cell, Coord, FlagLayer, Flags, Refusal};
///
/// let mut table = [0; FlagLayer::bytes(2)];
/// let mut layer = FlagLayer::new(&mut table);
/// let cell = Cell::from_coords(0, 3, Coord::new(1, 1, 1))?;
///
/// layer.set(&cell, Flags::BLOCKED)?;
/// assert_eq!(layer.get(&cell)?, Some(Flags::BLOCKED));
/// assert!(layer.contains(&cell)? && layer.count()? == 1);
/// assert_eq!(layer.remove(&cell)?, Some(Flags::BLOCKED));
/// assert!(layer.is_empty()?);
/// # Ok::<(), Refusal>(())
/// ```
pub type FlagLayer<'a> = Layer<'a, Flags>;

/// A layer of values, such as thickness readings.
///
/// ```
/// use tishkolan::{Aggregate, Cell, Coord, Refusal, ValueLayer};
///
/// let mut table = [0; ValueLayer::bytes(2)];
/// let mut layer = ValueLayer::new(&mut table);
/// let [one, other] = [1, 3].map(|x| Cell::from_coords(0, 3, Coord::new(x, 1, 1)).unwrap());
///
/// layer.set(&one, 9.5)?;
/// layer.set(&other, 10.5)?;
/// assert_eq!(layer.aggregate(&[one, other, other], Aggregate::Median)?, 10.5);
///
/// let mut coarse_table = [0; ValueLayer::bytes(2)];
/// let mut coarse = ValueLayer::new(&mut coarse_table);
/// layer.rollup(Aggregate::Mean, &mut coarse)?;
/// assert_eq!(coarse.get(&one.parent()?)?, Some(9.5));
/// # Ok::<(), Refusal>(())
/// ```
pub type ValueLayer<'a> = Layer<'a, f64>;

impl<'a, K: Kept> Layer<'a, K> {
    /// The bytes that a table for so many cells has.
    pub const fn bytes(cells: usize) -> usize {
        cells.saturating_mul(K::RECORD)
    }

    /// An empty layer in a table, which may hold anything and stays as it is.
    pub fn new(table: &'a mut [u8]) -> Layer<'a, K> {
        Layer {
            table,
            count: 0,
            kept: PhantomData,
        }
    }

    /// The layer that stands in a table, as [`into_table`](Layer::into_table) handed it back.
    ///
    /// [`Refusal::BadLayer`] where the table holds fewer records than the count, or they do not ascend.
    ///
    /// ```
    /// use tishkolan::{FlagLayer, Refusal};
    ///
    /// assert!(FlagLayer::over(&mut [0; 20], 1).is_ok());
    /// assert!(matches!(FlagLayer::over(&mut [0; 40], 2), Err(Refusal::BadLayer)));
    /// ```
    pub fn over(table: &'a mut [u8], count: usize) -> Result<Layer<'a, K>, Refusal> {
        K::count(table, count).refusal.answer(())?;
        Ok(Layer {
            table,
            count,
            kept: PhantomData,
        })
    }

    /// The table, and how many of its records are in use.
    pub fn into_table(self) -> (&'a mut [u8], usize) {
        (self.table, self.count)
    }

    /// Keeps something of a cell, in place of what was kept of it before.
    ///
    /// [`Refusal::NoRoom`] of the layer, for a new cell in a full table.
    pub fn set(&mut self, cell: &Cell, kept: K) -> Result<(), Refusal> {
        let said = K::set(self.table, self.count, cell, kept);
        self.count = said.count as usize;
        said.refusal.answer(())
    }

    /// What is kept of a cell.
    pub fn get(&self, cell: &Cell) -> Result<Option<K>, Refusal> {
        let said = K::get(self.table, self.count, cell);
        let kept = (said.found != 0).then(|| K::told(said.kept));
        said.refusal.answer(kept)
    }

    /// Forgets a cell, says what was kept of it, and zeroes the record that is free now.
    pub fn remove(&mut self, cell: &Cell) -> Result<Option<K>, Refusal> {
        let said = K::remove(self.table, self.count, cell);
        self.count = said.count as usize;
        let kept = (said.found != 0).then(|| K::told(said.kept));
        said.refusal.answer(kept)
    }

    /// Whether anything is kept of a cell.
    pub fn contains(&self, cell: &Cell) -> Result<bool, Refusal> {
        let said = K::contains(self.table, self.count, cell);
        said.refusal.answer(said.value != 0)
    }

    /// Of how many cells something is kept.
    pub fn count(&self) -> Result<usize, Refusal> {
        let said = K::count(self.table, self.count);
        said.refusal.answer(said.count as usize)
    }

    /// Whether nothing is kept.
    pub fn is_empty(&self) -> Result<bool, Refusal> {
        let said = K::is_empty(self.table, self.count);
        said.refusal.answer(said.value != 0)
    }

    /// Forgets all cells and zeroes all records that the table holds.
    pub fn clear(&mut self) {
        K::clear(self.table);
        self.count = 0;
    }

    /// The records in use, ascending by cell, in a buffer; [`bytes`](Layer::bytes) says how long it
    /// must be.
    ///
    /// [`Refusal::NoRoom`] of the output.
    ///
    /// ```
    /// use tishkolan::{Cell, FlagLayer, Flags, Refusal};
    ///
    /// let mut table = [0; FlagLayer::bytes(2)];
    /// let mut layer = FlagLayer::new(&mut table);
    /// layer.set(&Cell([2; 16]), Flags::WATER)?;
    /// layer.set(&Cell([1; 16]), Flags::NONE)?;
    ///
    /// let mut out = [0; FlagLayer::bytes(2)];
    /// let records: Vec<_> = layer.list(&mut out)?.collect();
    /// assert_eq!(records, [(Cell([1; 16]), Flags::NONE), (Cell([2; 16]), Flags::WATER)]);
    /// # Ok::<(), Refusal>(())
    /// ```
    pub fn list<'o>(&self, out: &'o mut [u8]) -> Result<Records<'o, K>, Refusal> {
        let said = K::list(self.table, self.count, out);
        said.refusal.answer(())?;
        Ok(Records {
            bytes: &out[..Self::bytes(said.count as usize)],
            kept: PhantomData,
        })
    }

    pub(crate) fn lent(&self) -> face::Table<'_> {
        (self.table, self.count)
    }

    pub(crate) fn lent_mut(&mut self) -> face::TableMut<'_> {
        (self.table, self.count)
    }

    /// The count that a call told.
    pub(crate) fn recount(&mut self, told: u64) {
        self.count = told as usize;
    }
}

impl<K: Kept> fmt::Debug for Layer<'_, K> {
    fn fmt(&self, to: &mut fmt::Formatter<'_>) -> fmt::Result {
        write!(
            to,
            "Layer of {} cells in {} bytes",
            self.count,
            self.table.len()
        )
    }
}

/// The records that [`Layer::list`] listed, one after the other.
#[derive(Clone, Debug)]
pub struct Records<'o, K: Kept> {
    bytes: &'o [u8],
    kept: PhantomData<K>,
}

impl<'o, K: Kept> Records<'o, K> {
    /// The bytes of those records that were not taken yet.
    pub fn as_bytes(&self) -> &'o [u8] {
        self.bytes
    }
}

impl<K: Kept> Iterator for Records<'_, K> {
    type Item = (Cell, K);

    fn next(&mut self) -> Option<(Cell, K)> {
        let (record, rest) = self.bytes.split_at_checked(K::RECORD)?;
        let (cell, kept) = record.split_first_chunk()?;
        self.bytes = rest;
        Some((Cell(*cell), K::read(kept)))
    }
}

/// What is made of several values.
#[derive(Clone, Copy, PartialEq, Eq, Hash, Debug)]
pub enum Aggregate {
    /// How many they are.
    Count = 0,
    /// Their sum.
    Sum = 1,
    /// Their sum over how many they are.
    Mean = 2,
    /// The least of them.
    Min = 3,
    /// The greatest of them.
    Max = 4,
    /// The one in the middle, or half of the sum of the two in the middle.
    Median = 5,
}

impl ValueLayer<'_> {
    /// The aggregate of what is kept of the cells of a list, repeats counted, in list order.
    ///
    /// [`Refusal::NoValues`]; [`Refusal::HasNan`], but not of [`Aggregate::Count`]. A NaN that the
    /// operation made is 0x7FF8000000000000.
    pub fn aggregate(&self, cells: &[Cell], how: Aggregate) -> Result<f64, Refusal> {
        let said = face::values_aggregate(self.lent(), cells, how as u32);
        said.refusal.answer(f64::from_bits(said.bits))
    }

    /// Rolls the layer up to the parents of its cells, into another layer, whose contents it replaces.
    /// Cells of resolution 0 or of mixed parity are left out.
    ///
    /// [`Refusal::HasNan`]; [`Refusal::NoRoom`] of the other layer.
    pub fn rollup(&self, how: Aggregate, coarse: &mut ValueLayer<'_>) -> Result<(), Refusal> {
        let said = face::values_rollup(self.lent(), how as u32, coarse.lent_mut());
        coarse.recount(said.count);
        said.refusal.answer(())
    }
}
