//! The calls of include/tishkolan.h: their numbers, and one request for one of them.

/// Each call has the number under which answer.c and the vectors know it.
#[derive(Debug, Clone, Copy, PartialEq, Eq)]
#[repr(u8)]
pub enum Call {
    SquareRoot = 1,
    Parity = 2,
    Opposite = 3,
    IsValidLatticePoint = 4,
    LatticeNeighbors = 5,
    LatticeChildren = 6,
    LatticeParent = 7,
    PhysicalToLattice = 8,
    ToPhysical = 9,
    LatticeDistance = 10,
    LatticeManhattanDistance = 11,
    CellNew = 12,
    CellFromCoords = 13,
    CellFields = 14,
    CellLatticeCoord = 15,
    CellCompare = 16,
    CellIsPlain = 17,
    CellNeighbors = 18,
    CellChildren = 19,
    CellParent = 20,
    CellAncestor = 21,
    CellBetween = 22,
    CellDistance = 23,
    CellManhattanDistance = 24,
    CellToBech32m = 25,
    CellFromBech32m = 26,
}

/// What a parameter of a call is.
#[derive(Debug, Clone, Copy, PartialEq, Eq)]
pub enum Parameter {
    /// 64 bits of a double.
    Bits,
    I32,
    U32,
    U8,
    /// The next cell: a pointer and a length.
    Cell,
    /// The label, which is lent as the first cell is: bytes of any length.
    Label,
}

impl Call {
    pub const ALL: [Call; 26] = [
        Call::SquareRoot,
        Call::Parity,
        Call::Opposite,
        Call::IsValidLatticePoint,
        Call::LatticeNeighbors,
        Call::LatticeChildren,
        Call::LatticeParent,
        Call::PhysicalToLattice,
        Call::ToPhysical,
        Call::LatticeDistance,
        Call::LatticeManhattanDistance,
        Call::CellNew,
        Call::CellFromCoords,
        Call::CellFields,
        Call::CellLatticeCoord,
        Call::CellCompare,
        Call::CellIsPlain,
        Call::CellNeighbors,
        Call::CellChildren,
        Call::CellParent,
        Call::CellAncestor,
        Call::CellBetween,
        Call::CellDistance,
        Call::CellManhattanDistance,
        Call::CellToBech32m,
        Call::CellFromBech32m,
    ];

    pub fn number(self) -> u8 {
        self as u8
    }

    /// The name in the header, without `tishkolan_`.
    pub fn name(self) -> &'static str {
        match self {
            Call::SquareRoot => "square_root",
            Call::Parity => "parity",
            Call::Opposite => "opposite",
            Call::IsValidLatticePoint => "is_valid_lattice_point",
            Call::LatticeNeighbors => "lattice_neighbors",
            Call::LatticeChildren => "lattice_children",
            Call::LatticeParent => "lattice_parent",
            Call::PhysicalToLattice => "physical_to_lattice",
            Call::ToPhysical => "to_physical",
            Call::LatticeDistance => "lattice_distance",
            Call::LatticeManhattanDistance => "lattice_manhattan_distance",
            Call::CellNew => "cell_new",
            Call::CellFromCoords => "cell_from_coords",
            Call::CellFields => "cell_fields",
            Call::CellLatticeCoord => "cell_lattice_coord",
            Call::CellCompare => "cell_compare",
            Call::CellIsPlain => "cell_is_plain",
            Call::CellNeighbors => "cell_neighbors",
            Call::CellChildren => "cell_children",
            Call::CellParent => "cell_parent",
            Call::CellAncestor => "cell_ancestor",
            Call::CellBetween => "cell_between",
            Call::CellDistance => "cell_distance",
            Call::CellManhattanDistance => "cell_manhattan_distance",
            Call::CellToBech32m => "cell_to_bech32m",
            Call::CellFromBech32m => "cell_from_bech32m",
        }
    }

    /// The parameters before the buffer, in the order of the header.
    pub fn parameters(self) -> &'static [Parameter] {
        use Parameter::*;
        match self {
            Call::SquareRoot => &[Bits],
            Call::Opposite => &[U32],
            Call::Parity
            | Call::IsValidLatticePoint
            | Call::LatticeNeighbors
            | Call::LatticeChildren
            | Call::LatticeParent
            | Call::ToPhysical => &[I32, I32, I32],
            Call::PhysicalToLattice => &[Bits, Bits, Bits, U8],
            Call::LatticeDistance | Call::LatticeManhattanDistance => {
                &[I32, I32, I32, I32, I32, I32]
            }
            Call::CellNew => &[U8, U8, I32, I32, I32, U8, U8],
            Call::CellFromCoords => &[U8, U8, I32, I32, I32],
            Call::CellFields
            | Call::CellLatticeCoord
            | Call::CellIsPlain
            | Call::CellNeighbors
            | Call::CellChildren
            | Call::CellParent
            | Call::CellToBech32m => &[Cell],
            Call::CellFromBech32m => &[Label],
            Call::CellAncestor => &[Cell, U8],
            Call::CellCompare
            | Call::CellBetween
            | Call::CellDistance
            | Call::CellManhattanDistance => &[Cell, Cell],
        }
    }

    /// How many cells it takes.
    pub fn cells(self) -> usize {
        self.parameters()
            .iter()
            .filter(|&&parameter| parameter == Parameter::Cell)
            .count()
    }

    /// The bytes of an element of the buffer that it answers into, and the elements that an answer
    /// fills; nothing where it has no buffer.
    pub fn buffer(self) -> Option<(usize, usize)> {
        match self {
            Call::LatticeNeighbors => Some((4, 42)),
            Call::LatticeChildren => Some((4, 24)),
            Call::CellNew
            | Call::CellFromCoords
            | Call::CellParent
            | Call::CellAncestor
            | Call::CellFromBech32m => Some((1, 16)),
            Call::CellToBech32m => Some((1, 37)),
            Call::CellNeighbors => Some((1, 224)),
            Call::CellChildren => Some((1, 128)),
            _ => None,
        }
    }
}

/// The bytes lent as one cell or as a label: of any length up to this.
pub const LONGEST_LENT: usize = 128;

#[derive(Debug, Clone, Copy, PartialEq, Eq)]
pub struct Lent {
    bytes: [u8; LONGEST_LENT],
    length: u8,
}

impl Lent {
    pub const NONE: Lent = Lent {
        bytes: [0; LONGEST_LENT],
        length: 0,
    };

    pub fn of(slice: &[u8]) -> Lent {
        let mut bytes = [0; LONGEST_LENT];
        bytes[..slice.len()].copy_from_slice(slice);
        Lent {
            bytes,
            length: slice.len() as u8,
        }
    }

    pub fn slice(&self) -> &[u8] {
        &self.bytes[..usize::from(self.length)]
    }

    /// The cell, where the length is 16.
    pub fn cell(&self) -> Option<[u8; 16]> {
        self.slice().try_into().ok()
    }
}

/// One call with its arguments and its buffer.
#[derive(Debug, Clone, Copy)]
pub struct Request {
    pub call: Call,
    /// The arguments that are no cells, in order; bits of a double as they are.
    pub numbers: [i64; 7],
    pub first: Lent,
    pub second: Lent,
    /// The buffer's length in elements.
    pub room: u16,
    /// Chooses the bytes that the buffer holds before the call.
    pub fill: u8,
    /// Lend NULL where a length is 0.
    pub null: bool,
}

impl Request {
    /// A request on numbers alone, with a buffer of the exact length.
    pub fn new(call: Call, numbers: &[i64]) -> Request {
        let mut all = [0; 7];
        all[..numbers.len()].copy_from_slice(numbers);
        Request {
            call,
            numbers: all,
            first: Lent::NONE,
            second: Lent::NONE,
            room: call.buffer().map_or(0, |(_, exact)| exact as u16),
            fill: 0xA5,
            null: false,
        }
    }

    /// A request on one cell, or on a label.
    pub fn cell(call: Call, cell: &[u8]) -> Request {
        Request {
            first: Lent::of(cell),
            ..Request::new(call, &[])
        }
    }

    /// A request on two cells.
    pub fn cells(call: Call, first: &[u8], second: &[u8]) -> Request {
        Request {
            first: Lent::of(first),
            second: Lent::of(second),
            ..Request::new(call, &[])
        }
    }

    /// The same with a buffer of this length.
    pub fn room(self, room: usize) -> Request {
        Request {
            room: room as u16,
            ..self
        }
    }

    /// The bytes that the buffer and the 16 bytes on either side of it hold before the call.
    pub fn before(&self) -> Vec<u8> {
        let Some((size, _)) = self.call.buffer() else {
            return Vec::new();
        };
        (0..16 + usize::from(self.room) * size + 16)
            .map(|place| self.fill.wrapping_add((place as u8).wrapping_mul(37)))
            .collect()
    }

    pub fn i32(&self, place: usize) -> i32 {
        self.numbers[place] as i32
    }

    pub fn u8(&self, place: usize) -> u8 {
        self.numbers[place] as u8
    }

    pub fn bits(&self, place: usize) -> u64 {
        self.numbers[place] as u64
    }

    pub fn double(&self, place: usize) -> f64 {
        f64::from_bits(self.bits(place))
    }

    /// How far the input is from nothing: of two that differ, the smaller is shown.
    pub fn size(&self) -> u128 {
        let mut size = 0;
        let mut next = 0;
        for parameter in self.call.parameters() {
            if *parameter == Parameter::Cell {
                continue;
            }
            if *parameter == Parameter::Label {
                let bytes = self.first.slice().iter().map(|&byte| u128::from(byte));
                size += (u128::from(self.first.length) << 34) + bytes.sum::<u128>();
                continue;
            }
            size += match parameter {
                Parameter::Bits => {
                    let value = self.double(next).abs();
                    // A double counts by its magnitude, in eighths; NaN last.
                    if value.is_nan() {
                        u128::MAX >> 4
                    } else {
                        ((value * 8.0).ceil() as u128).min(u128::MAX >> 5)
                    }
                }
                _ => u128::from(self.numbers[next].unsigned_abs()),
            };
            next += 1;
        }
        for (lent, used) in [
            (&self.first, self.call.cells() > 0),
            (&self.second, self.call.cells() > 1),
        ] {
            if used {
                size += u128::from(lent.length.abs_diff(16)) << 34;
                for word in lent.slice().chunks(4) {
                    let mut bytes = [0; 4];
                    bytes[..word.len()].copy_from_slice(word);
                    size += u128::from(i32::from_be_bytes(bytes).unsigned_abs());
                }
            }
        }
        let exact = self.call.buffer().map_or(0, |(_, exact)| exact as u16);
        size + u128::from(self.room.abs_diff(exact))
    }

    /// The input in words.
    pub fn words(&self) -> String {
        let mut words = Vec::new();
        let mut next = 0;
        let mut cells = [&self.first, &self.second].into_iter();
        for parameter in self.call.parameters() {
            match parameter {
                Parameter::Cell => {
                    let lent = cells.next().unwrap().slice();
                    words.push(format!("{} ({})", hex(lent), lent.len()));
                }
                Parameter::Label => {
                    let lent = self.first.slice();
                    words.push(format!("\"{}\" ({})", lent.escape_ascii(), lent.len()));
                }
                Parameter::Bits => {
                    words.push(format!(
                        "0x{:016X} ({:?})",
                        self.bits(next),
                        self.double(next)
                    ));
                    next += 1;
                }
                _ => {
                    words.push(self.numbers[next].to_string());
                    next += 1;
                }
            }
        }
        if self.call.buffer().is_some() {
            words.push(format!("buffer of {}", self.room));
        }
        words.join(", ")
    }
}

/// Bytes in hexadecimal, in groups of four.
pub fn hex(bytes: &[u8]) -> String {
    bytes
        .chunks(4)
        .map(|word| word.iter().map(|byte| format!("{byte:02X}")).collect())
        .collect::<Vec<String>>()
        .join(" ")
}
