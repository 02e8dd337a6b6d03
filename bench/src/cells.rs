//! The calls on the root, on lattice points and on cells, each on the same 4,096 inputs as the Rust's.

#![allow(deprecated)]

use crate::face::*;
use crate::timing::{line, mix, mix_all, next, steady, times};
use original::id::CellID;
use original::lattice::{Lattice, LatticeCoord};
use std::hint::black_box;

pub const INPUTS: usize = 4096;

fn mix_point(x: i32, y: i32, z: i32) -> u64 {
    mix_all([x, y, z].map(|number| number as u64))
}

/// One line: the calls on all inputs.
pub fn row<T: Copy>(
    name: &str,
    inputs: &[T],
    mut library: impl FnMut(T) -> u64,
    mut rust: impl FnMut(T) -> u64,
) {
    for &input in inputs {
        assert_eq!(library(input), rust(input), "{name}: the answers differ");
    }
    let best = times(
        inputs.len(),
        &mut steady((), |()| over(inputs, &mut library)),
        &mut steady((), |()| over(inputs, &mut rust)),
    );
    println!("{}", line(name, best));
}

fn over<T: Copy>(inputs: &[T], call: &mut impl FnMut(T) -> u64) -> u64 {
    mix_all(
        inputs
            .iter()
            .map(|&input| black_box(call(black_box(input)))),
    )
}

/// A root that has to wait for the one before: its input takes a zero from that answer.
fn chained(root: impl Fn(u64) -> u64) -> impl FnMut(u64) -> u64 {
    let zero = black_box(0);
    let mut before = 0;
    move |bits| {
        before = root(bits | before & zero);
        before
    }
}

fn library_root(bits: u64) -> u64 {
    unsafe { tishkolan_square_root(bits) }.bits
}

fn rust_root(bits: u64) -> u64 {
    f64::from_bits(bits).sqrt().to_bits()
}

extern "C" {
    fn sqrt(value: f64) -> f64;
}

pub fn rows() {
    let mut state = 1;
    let mut points = Vec::new();
    let mut snaps = Vec::new();
    let mut small = Vec::new();
    let mut wide = Vec::new();
    for _ in 0..INPUTS {
        let word = next(&mut state);
        let odd = (word >> 60 & 1) as i32;
        let at = |shift: u32| ((word >> shift) as i32 % 1000) * 2 + odd;
        points.push([at(0), at(20), at(28)]);
        let fraction = |word: u64| (word >> 11) as f64 / (1u64 << 53) as f64 * 2000.0 - 1000.0;
        snaps.push([(); 3].map(|()| fraction(next(&mut state)).to_bits()));
        small.push(((next(&mut state) % 3000000) as f64).to_bits());
        let shift = next(&mut state) % 12;
        wide.push(((next(&mut state) >> shift) as f64).to_bits());
    }
    let pairs: Vec<[[i32; 3]; 2]> = (0..INPUTS)
        .map(|place| [points[place], points[(place * 7 + 1) % INPUTS]])
        .collect();
    let cell = |[x, y, z]: [i32; 3]| CellID::from_coords(1, 9, x, y, z).unwrap();
    let cells: Vec<CellID> = points.iter().map(|&point| cell(point)).collect();
    let cell_pairs: Vec<[CellID; 2]> = pairs.iter().map(|pair| pair.map(cell)).collect();
    let coord = |[x, y, z]: [i32; 3]| LatticeCoord::new(x, y, z).unwrap();

    let in_bytes = |bytes: &[u8]| {
        mix_all(
            bytes
                .chunks_exact(16)
                .map(|cell| u64::from_be_bytes(cell[..8].try_into().unwrap())),
        )
    };
    let in_cells =
        |cells: &[CellID]| mix_all(cells.iter().map(|cell| (cell.raw_value() >> 64) as u64));
    let in_numbers =
        |numbers: &[i32]| mix_all(numbers.chunks_exact(3).map(|point| point[2] as u64));
    let in_points = |points: &[LatticeCoord]| mix_all(points.iter().map(|point| point.z as u64));

    row(
        "cell_neighbors",
        &cells,
        |cell| {
            let mut out = [0; 224];
            let bytes = cell.to_bytes();
            unsafe { tishkolan_cell_neighbors(bytes.as_ptr(), 16, out.as_mut_ptr(), 224) };
            in_bytes(&out)
        },
        |cell| in_cells(&cell.neighbors()),
    );
    row(
        "cell_children",
        &cells,
        |cell| {
            let mut out = [0; 128];
            let bytes = cell.to_bytes();
            unsafe { tishkolan_cell_children(bytes.as_ptr(), 16, out.as_mut_ptr(), 128) };
            in_bytes(&out)
        },
        |cell| in_cells(&cell.children().unwrap()),
    );
    row(
        "cell_parent",
        &cells,
        |cell| {
            let mut out = [0; 16];
            let bytes = cell.to_bytes();
            unsafe { tishkolan_cell_parent(bytes.as_ptr(), 16, out.as_mut_ptr(), 16) };
            in_bytes(&out)
        },
        |cell| in_cells(&[cell.parent().unwrap()]),
    );
    row(
        "cell_distance",
        &cell_pairs,
        |[one, other]| {
            let (one, other) = (one.to_bytes(), other.to_bytes());
            unsafe { tishkolan_cell_distance(one.as_ptr(), 16, other.as_ptr(), 16) }.bits
        },
        |[one, other]| {
            let (one, other) = (one.lattice_coord().unwrap(), other.lattice_coord().unwrap());
            one.distance_to(&other).to_bits()
        },
    );
    row(
        "cell_manhattan_distance",
        &cell_pairs,
        |[one, other]| {
            let (one, other) = (one.to_bytes(), other.to_bytes());
            unsafe { tishkolan_cell_manhattan_distance(one.as_ptr(), 16, other.as_ptr(), 16) }.value
                as u64
        },
        |[one, other]| {
            let (one, other) = (one.lattice_coord().unwrap(), other.lattice_coord().unwrap());
            one.manhattan_distance_to(&other) as u64
        },
    );
    row(
        "cell_new (pack)",
        &points,
        |[x, y, z]| {
            let mut out = [0; 16];
            unsafe { tishkolan_cell_new(1, 9, x, y, z, 5, 165, out.as_mut_ptr(), 16) };
            in_bytes(&out)
        },
        |[x, y, z]| in_bytes(&CellID::new(1, 9, x, y, z, 5, 165).unwrap().to_bytes()),
    );
    row(
        "cell_fields (unpack)",
        &cells,
        |cell| {
            let bytes = cell.to_bytes();
            let fields = unsafe { tishkolan_cell_fields(bytes.as_ptr(), 16) };
            let small = [
                fields.frame,
                fields.resolution,
                fields.exponent,
                fields.flags,
            ];
            mix(
                mix_point(fields.x, fields.y, fields.z),
                mix_all(small.map(u64::from)),
            )
        },
        |cell| {
            // Through its bytes as well.
            let cell = CellID::from_bytes(black_box(cell.to_bytes()));
            let small = [
                cell.frame(),
                cell.resolution(),
                cell.exponent(),
                cell.flags(),
            ];
            mix(
                mix_point(cell.x(), cell.y(), cell.z()),
                mix_all(small.map(u64::from)),
            )
        },
    );
    row(
        "lattice_neighbors",
        &points,
        |[x, y, z]| {
            let mut out = [0; 42];
            unsafe { tishkolan_lattice_neighbors(x, y, z, out.as_mut_ptr(), 42) };
            in_numbers(&out)
        },
        |point| in_points(&Lattice::get_neighbors(&coord(point))),
    );
    row(
        "lattice_children",
        &points,
        |[x, y, z]| {
            let mut out = [0; 24];
            unsafe { tishkolan_lattice_children(x, y, z, out.as_mut_ptr(), 24) };
            in_numbers(&out)
        },
        |point| in_points(&Lattice::get_children(&coord(point))),
    );
    row(
        "lattice_parent",
        &points,
        |[x, y, z]| {
            let parent = unsafe { tishkolan_lattice_parent(x, y, z) };
            mix_point(parent.x, parent.y, parent.z)
        },
        |point| {
            let parent = Lattice::get_parent(&coord(point));
            mix_point(parent.x, parent.y, parent.z)
        },
    );
    for resolution in [0, 9] {
        row(
            &format!("physical_to_lattice, resolution {resolution}"),
            &snaps,
            |[x, y, z]| {
                let point =
                    unsafe { tishkolan_physical_to_lattice(x, y, z, black_box(resolution)) };
                mix_point(point.x, point.y, point.z)
            },
            |point| {
                let [x, y, z] = point.map(f64::from_bits);
                let point = Lattice::physical_to_lattice(x, y, z, black_box(resolution)).unwrap();
                mix_point(point.x, point.y, point.z)
            },
        );
    }
    row(
        "lattice_distance",
        &pairs,
        |[[ax, ay, az], [bx, by, bz]]| {
            unsafe { tishkolan_lattice_distance(ax, ay, az, bx, by, bz) }.bits
        },
        |[one, other]| coord(one).distance_to(&coord(other)).to_bits(),
    );
    row(
        "lattice_manhattan_distance",
        &pairs,
        |[[ax, ay, az], [bx, by, bz]]| {
            unsafe { tishkolan_lattice_manhattan_distance(ax, ay, az, bx, by, bz) }.value as u64
        },
        |[one, other]| coord(one).manhattan_distance_to(&coord(other)) as u64,
    );
    // Rust's root is one instruction in the loop; C's is a call, as the library's is.
    let called: unsafe extern "C" fn(f64) -> f64 = black_box(sqrt);
    let c_root = |bits: u64| unsafe { called(f64::from_bits(bits)) }.to_bits();
    for (inputs, which) in [(&small, "small"), (&wide, "to 2^64")] {
        let name = format!("square_root, {which}, streamed");
        row(&name, inputs, library_root, rust_root);
        row("  beside C's sqrt", inputs, library_root, c_root);
        let name = format!("square_root, {which}, chained");
        row(&name, inputs, chained(library_root), chained(rust_root));
        let name = "  beside C's sqrt";
        row(name, inputs, chained(library_root), chained(c_root));
    }
}
