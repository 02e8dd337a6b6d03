//! Points of the lattice, points in space, and the square root.

use crate::face;
use crate::Refusal;

/// The `f64` nearest to the square root of +0.0, or of a whole value from 1 to 2^64.
///
/// Anything else (-0.0, fractions, infinities, NaN) is [`Refusal::OutOfRange`].
///
/// ```
/// use tishkolan::{square_root, Refusal};
///
/// assert_eq!(square_root(3.0)?.to_bits(), 0x3FFB_B67A_E858_4CAA);
/// assert_eq!(square_root(0.5), Err(Refusal::OutOfRange));
/// # Ok::<(), Refusal>(())
/// ```
pub fn square_root(value: f64) -> Result<f64, Refusal> {
    let said = face::tishkolan_square_root(value.to_bits());
    said.refusal.answer(f64::from_bits(said.bits))
}

/// Whether the coordinates of a lattice point are even or odd.
#[derive(Clone, Copy, PartialEq, Eq, Hash, Debug)]
pub enum Parity {
    /// All three are even.
    Even = 0,
    /// All three are odd.
    Odd = 1,
}

impl Parity {
    fn of(number: i32) -> Parity {
        if number == 0 {
            Parity::Even
        } else {
            Parity::Odd
        }
    }

    /// The other one.
    ///
    /// ```
    /// use tishkolan::Parity;
    ///
    /// assert_eq!(Parity::Even.opposite(), Parity::Odd);
    /// ```
    pub fn opposite(self) -> Parity {
        Parity::of(face::tishkolan_opposite(self as u32).value)
    }
}

/// Three coordinates. They are a point of the lattice where they are all even or all odd; every other
/// call than [`is_valid_lattice_point`](Coord::is_valid_lattice_point) is
/// [`Refusal::InvalidParity`] with the point where they are not, before anything else.
///
/// ```
/// use tishkolan::{Coord, Parity, Refusal};
///
/// let point = Coord::new(4, 2, 2);
/// assert_eq!(point.parity()?, Parity::Even);
/// assert_eq!(point.parent()?, Coord::new(1, 1, 1));
/// assert_eq!(point.neighbors()?[0].manhattan_distance(point)?, 3);
/// # Ok::<(), Refusal>(())
/// ```
#[repr(C)]
#[derive(Clone, Copy, PartialEq, Eq, Hash, Debug, Default)]
pub struct Coord {
    /// The first coordinate.
    pub x: i32,
    /// The second.
    pub y: i32,
    /// The third.
    pub z: i32,
}

impl Coord {
    /// How many neighbours a point has.
    pub const NEIGHBORS: usize = 14;
    /// How many children a point has.
    pub const CHILDREN: usize = 8;

    /// The three coordinates, not tested.
    pub const fn new(x: i32, y: i32, z: i32) -> Coord {
        Coord { x, y, z }
    }

    /// Whether they are all even or all odd.
    pub fn is_valid_lattice_point(self) -> bool {
        face::tishkolan_is_valid_lattice_point(self.x, self.y, self.z)
    }

    /// Whether they are even or odd.
    pub fn parity(self) -> Result<Parity, Refusal> {
        let said = face::tishkolan_parity(self.x, self.y, self.z);
        said.refusal.answer(Parity::of(said.value))
    }

    /// The 14 neighbours, first the eight diagonal ones.
    ///
    /// [`Refusal::CoordOverflow`] unless each coordinate is in -2147483646..=2147483645.
    pub fn neighbors(self) -> Result<[Coord; Coord::NEIGHBORS], Refusal> {
        let mut out = [Coord::default(); Coord::NEIGHBORS];
        face::lattice_neighbors(self, &mut out).answer(out)
    }

    /// The 8 children, one resolution finer.
    ///
    /// [`Refusal::CoordOverflow`] unless x is in -1073741824..=1073741822 and y, z in
    /// -1073741823..=1073741822.
    pub fn children(self) -> Result<[Coord; Coord::CHILDREN], Refusal> {
        let mut out = [Coord::default(); Coord::CHILDREN];
        face::lattice_children(self, &mut out).answer(out)
    }

    /// The parent, one resolution coarser.
    pub fn parent(self) -> Result<Coord, Refusal> {
        let said = face::tishkolan_lattice_parent(self.x, self.y, self.z);
        said.refusal.answer(said.coord)
    }

    /// The coordinates as `f64`.
    pub fn to_physical(self) -> Result<Point, Refusal> {
        let said = face::tishkolan_to_physical(self.x, self.y, self.z);
        said.refusal.answer(Point {
            x: f64::from_bits(said.x),
            y: f64::from_bits(said.y),
            z: f64::from_bits(said.z),
        })
    }

    /// The Euclidean distance.
    ///
    /// The parity of this point is tested first, then that of the other; [`Refusal::CoordOverflow`]
    /// where a coordinate of this point less that of the other leaves `i32`.
    pub fn distance(self, other: Coord) -> Result<f64, Refusal> {
        let said =
            face::tishkolan_lattice_distance(self.x, self.y, self.z, other.x, other.y, other.z);
        said.refusal.answer(f64::from_bits(said.bits))
    }

    /// The Manhattan distance: the sum of the three differences.
    ///
    /// The parity of this point is tested first, then that of the other; [`Refusal::CoordOverflow`]
    /// where the sum passes 2147483647.
    pub fn manhattan_distance(self, other: Coord) -> Result<i32, Refusal> {
        let said = face::tishkolan_lattice_manhattan_distance(
            self.x, self.y, self.z, other.x, other.y, other.z,
        );
        said.refusal.answer(said.value)
    }
}

/// A point in space.
#[derive(Clone, Copy, PartialEq, Debug, Default)]
pub struct Point {
    /// The first coordinate.
    pub x: f64,
    /// The second.
    pub y: f64,
    /// The third.
    pub z: f64,
}

impl Point {
    /// The point of these coordinates.
    pub const fn new(x: f64, y: f64, z: f64) -> Point {
        Point { x, y, z }
    }

    /// The nearest point of the lattice, the coordinates multiplied by 2^resolution first.
    ///
    /// [`Refusal::OutOfRange`] where a product is a NaN, infinite, or above 2147483646 in magnitude.
    ///
    /// ```
    /// use tishkolan::{Coord, Point, Refusal};
    ///
    /// assert_eq!(Point::new(-1.0, 0.0, 0.0).to_lattice(0)?, Coord::new(-2, 0, 0));
    /// assert_eq!(Point::new(0.5, 0.5, 0.5).to_lattice(1)?, Coord::new(1, 1, 1));
    /// assert_eq!(Point::new(f64::NAN, 0.0, 0.0).to_lattice(0), Err(Refusal::OutOfRange));
    /// # Ok::<(), Refusal>(())
    /// ```
    pub fn to_lattice(self, resolution: u8) -> Result<Coord, Refusal> {
        let said = face::tishkolan_physical_to_lattice(
            self.x.to_bits(),
            self.y.to_bits(),
            self.z.to_bits(),
            resolution,
        );
        said.refusal.answer(said.coord)
    }
}
