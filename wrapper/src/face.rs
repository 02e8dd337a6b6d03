//! The calls of include/tishkolan.h, and a safe function over each that lends memory. All unsafe code
//! of the crate is here.
//!
//! Why it is sound: of every call it is proved that, for all numbers, bytes and lengths, it reads and
//! writes no other elements than those which a pointer and the length beside it name. Here each such
//! pair is of one slice, which is borrowed while the call lasts, as `&mut` where the call writes, so
//! that a slice which is written overlaps no other. What is handed back is numbers, for which every
//! pattern of bits is a value, or C's bool. The structs are those of the header, field by field.

use crate::{Cell, Coord, Label};

/// What a call says beside its answer.
#[repr(C)]
#[derive(Clone, Copy)]
pub struct Told {
    pub number: u32,
    pub room: u32,
    pub x: i32,
    pub y: i32,
    pub z: i32,
}

#[repr(C)]
pub struct NumberAnswer {
    pub refusal: Told,
    pub value: i32,
}

#[repr(C)]
pub struct BitsAnswer {
    pub refusal: Told,
    pub bits: u64,
}

#[repr(C)]
pub struct CoordAnswer {
    pub refusal: Told,
    pub coord: Coord,
}

#[repr(C)]
pub struct PointAnswer {
    pub refusal: Told,
    pub x: u64,
    pub y: u64,
    pub z: u64,
}

#[repr(C)]
pub struct FieldsAnswer {
    pub refusal: Told,
    pub frame: u8,
    pub resolution: u8,
    pub exponent: u8,
    pub flags: u8,
    pub reserved: u8,
    pub coord: Coord,
}

#[repr(C)]
pub struct PlaceAnswer {
    pub refusal: Told,
    pub place: u64,
}

#[repr(C)]
pub struct CountAnswer {
    pub refusal: Told,
    pub count: u64,
}

#[repr(C)]
pub struct KeptAnswer {
    pub refusal: Told,
    pub found: u32,
    pub kept: u64,
    pub count: u64,
}

#[repr(C)]
pub struct LoadAnswer {
    pub refusal: Told,
    pub place: u64,
    pub flags: u64,
    pub values: u64,
}

#[repr(C)]
pub struct LengthAnswer {
    pub refusal: Told,
    pub length: u64,
}

#[repr(C)]
pub struct SearchAnswer {
    pub refusal: Told,
    pub cells: u64,
    pub cost: u64,
    pub expansions: u64,
    pub limit: u64,
    pub start_high: u64,
    pub start_low: u64,
    pub goal_high: u64,
    pub goal_low: u64,
}

// Calls that take numbers alone.
#[rustfmt::skip]
unsafe extern "C" {
    pub safe fn tishkolan_version() -> u32;

    pub safe fn tishkolan_square_root(bits: u64) -> BitsAnswer;

    pub safe fn tishkolan_parity(x: i32, y: i32, z: i32) -> NumberAnswer;
    pub safe fn tishkolan_opposite(parity: u32) -> NumberAnswer;
    pub safe fn tishkolan_is_valid_lattice_point(x: i32, y: i32, z: i32) -> bool;
    pub safe fn tishkolan_lattice_parent(x: i32, y: i32, z: i32) -> CoordAnswer;
    pub safe fn tishkolan_physical_to_lattice(x: u64, y: u64, z: u64, resolution: u8) -> CoordAnswer;
    pub safe fn tishkolan_to_physical(x: i32, y: i32, z: i32) -> PointAnswer;
    pub safe fn tishkolan_lattice_distance(ax: i32, ay: i32, az: i32, bx: i32, by: i32, bz: i32) -> BitsAnswer;
    pub safe fn tishkolan_lattice_manhattan_distance(ax: i32, ay: i32, az: i32, bx: i32, by: i32, bz: i32) -> NumberAnswer;

    pub safe fn tishkolan_has_flag(flags: u32, flag: u32) -> bool;
    pub safe fn tishkolan_set_flag(flags: u32, flag: u32) -> u32;
    pub safe fn tishkolan_clear_flag(flags: u32, flag: u32) -> u32;
    pub safe fn tishkolan_is_blocked(flags: u32) -> bool;
}

// Calls that lend memory.
#[rustfmt::skip]
unsafe extern "C" {
    fn tishkolan_lattice_neighbors(x: i32, y: i32, z: i32, out: *mut i32, out_length: usize) -> Told;
    fn tishkolan_lattice_children(x: i32, y: i32, z: i32, out: *mut i32, out_length: usize) -> Told;

    fn tishkolan_cell_new(frame: u8, resolution: u8, x: i32, y: i32, z: i32, exponent: u8, flags: u8, out: *mut u8, out_length: usize) -> Told;
    fn tishkolan_cell_from_coords(frame: u8, resolution: u8, x: i32, y: i32, z: i32, out: *mut u8, out_length: usize) -> Told;
    fn tishkolan_cell_fields(cell: *const u8, cell_length: usize) -> FieldsAnswer;
    fn tishkolan_cell_lattice_coord(cell: *const u8, cell_length: usize) -> CoordAnswer;
    fn tishkolan_cell_compare(first: *const u8, first_length: usize, second: *const u8, second_length: usize) -> NumberAnswer;
    fn tishkolan_cell_is_plain(cell: *const u8, cell_length: usize) -> NumberAnswer;
    fn tishkolan_cell_neighbors(cell: *const u8, cell_length: usize, out: *mut u8, out_length: usize) -> Told;
    fn tishkolan_cell_children(cell: *const u8, cell_length: usize, out: *mut u8, out_length: usize) -> Told;
    fn tishkolan_cell_parent(cell: *const u8, cell_length: usize, out: *mut u8, out_length: usize) -> Told;
    fn tishkolan_cell_ancestor(cell: *const u8, cell_length: usize, resolution: u8, out: *mut u8, out_length: usize) -> Told;
    fn tishkolan_cell_between(first: *const u8, first_length: usize, second: *const u8, second_length: usize) -> Told;
    fn tishkolan_cell_distance(first: *const u8, first_length: usize, second: *const u8, second_length: usize) -> BitsAnswer;
    fn tishkolan_cell_manhattan_distance(first: *const u8, first_length: usize, second: *const u8, second_length: usize) -> NumberAnswer;

    fn tishkolan_cell_to_bech32m(cell: *const u8, cell_length: usize, out: *mut u8, out_length: usize) -> Told;
    fn tishkolan_cell_from_bech32m(label: *const u8, label_length: usize, out: *mut u8, out_length: usize) -> PlaceAnswer;

    fn tishkolan_flags_set(table: *mut u8, table_length: usize, count: usize, cell: *const u8, cell_length: usize, flags: u32) -> CountAnswer;
    fn tishkolan_flags_get(table: *const u8, table_length: usize, count: usize, cell: *const u8, cell_length: usize) -> KeptAnswer;
    fn tishkolan_flags_remove(table: *mut u8, table_length: usize, count: usize, cell: *const u8, cell_length: usize) -> KeptAnswer;
    fn tishkolan_flags_contains(table: *const u8, table_length: usize, count: usize, cell: *const u8, cell_length: usize) -> NumberAnswer;
    fn tishkolan_flags_count(table: *const u8, table_length: usize, count: usize) -> CountAnswer;
    fn tishkolan_flags_is_empty(table: *const u8, table_length: usize, count: usize) -> NumberAnswer;
    fn tishkolan_flags_clear(table: *mut u8, table_length: usize);
    fn tishkolan_flags_list(table: *const u8, table_length: usize, count: usize, out: *mut u8, out_length: usize) -> CountAnswer;

    fn tishkolan_values_set(table: *mut u8, table_length: usize, count: usize, cell: *const u8, cell_length: usize, bits: u64) -> CountAnswer;
    fn tishkolan_values_get(table: *const u8, table_length: usize, count: usize, cell: *const u8, cell_length: usize) -> KeptAnswer;
    fn tishkolan_values_remove(table: *mut u8, table_length: usize, count: usize, cell: *const u8, cell_length: usize) -> KeptAnswer;
    fn tishkolan_values_contains(table: *const u8, table_length: usize, count: usize, cell: *const u8, cell_length: usize) -> NumberAnswer;
    fn tishkolan_values_count(table: *const u8, table_length: usize, count: usize) -> CountAnswer;
    fn tishkolan_values_is_empty(table: *const u8, table_length: usize, count: usize) -> NumberAnswer;
    fn tishkolan_values_clear(table: *mut u8, table_length: usize);
    fn tishkolan_values_list(table: *const u8, table_length: usize, count: usize, out: *mut u8, out_length: usize) -> CountAnswer;

    fn tishkolan_values_aggregate(table: *const u8, table_length: usize, count: usize, cells: *const u8, cells_length: usize, how: u32) -> BitsAnswer;
    fn tishkolan_values_rollup(fine: *const u8, fine_length: usize, fine_count: usize, how: u32, coarse: *mut u8, coarse_length: usize, coarse_count: usize) -> CountAnswer;

    fn tishkolan_survey_load(file: *const u8, file_length: usize, flags: *mut u8, flags_length: usize, flags_count: usize, values: *mut u8, values_length: usize, values_count: usize) -> LoadAnswer;
    fn tishkolan_survey_write(flags: *const u8, flags_length: usize, flags_count: usize, values: *const u8, values_length: usize, values_count: usize, out: *mut u8, out_length: usize) -> LengthAnswer;

    fn tishkolan_trace_line(start: *const u8, start_length: usize, end: *const u8, end_length: usize, output: *mut u8, output_length: usize) -> CountAnswer;
    fn tishkolan_k_ring(center: *const u8, center_length: usize, k: u64, known: usize, waiting: usize, workspace: *mut u8, workspace_length: usize, out: *mut u8, out_length: usize) -> CountAnswer;
    fn tishkolan_k_shell(center: *const u8, center_length: usize, k: u64, known: usize, waiting: usize, workspace: *mut u8, workspace_length: usize, out: *mut u8, out_length: usize) -> CountAnswer;

    fn tishkolan_route_verdict(route: *const u8, route_length: usize, start: *const u8, start_length: usize, goal: *const u8, goal_length: usize, cost: u64, flags: *const u8, flags_length: usize, flags_count: usize, rule: u32) -> u32;
    fn tishkolan_route_choice(sent: *const u8, sent_length: usize, sent_start: *const u8, sent_start_length: usize, sent_goal: *const u8, sent_goal_length: usize, sent_cost: u64, homing: *const u8, homing_length: usize, homing_start: *const u8, homing_start_length: usize, homing_goal: *const u8, homing_goal_length: usize, homing_cost: u64, flags: *const u8, flags_length: usize, flags_count: usize, rule: u32) -> u32;

    fn tishkolan_astar_with_limit(start: *const u8, start_length: usize, goal: *const u8, goal_length: usize, flags: *const u8, flags_length: usize, flags_count: usize, rule: u32, limit: u64, known: usize, waiting: usize, known_workspace: *mut u8, known_workspace_length: usize, waiting_workspace: *mut u8, waiting_workspace_length: usize, out: *mut u8, out_length: usize) -> SearchAnswer;
    fn tishkolan_astar(start: *const u8, start_length: usize, goal: *const u8, goal_length: usize, flags: *const u8, flags_length: usize, flags_count: usize, rule: u32, known: usize, waiting: usize, known_workspace: *mut u8, known_workspace_length: usize, waiting_workspace: *mut u8, waiting_workspace_length: usize, out: *mut u8, out_length: usize) -> SearchAnswer;
}

// ---- lists of cells are their bytes: a cell is 16 bytes and nothing else

fn bytes(cells: &[Cell]) -> &[u8] {
    // SAFETY: Cell is transparent over [u8; 16]; the bytes are borrowed as the cells are.
    unsafe { std::slice::from_raw_parts(cells.as_ptr().cast(), size_of_val(cells)) }
}

fn bytes_mut(cells: &mut [Cell]) -> &mut [u8] {
    // SAFETY: as of bytes, and all bytes make a cell.
    unsafe { std::slice::from_raw_parts_mut(cells.as_mut_ptr().cast(), size_of_val(cells)) }
}

/// The cells that stand in bytes, if their number is a multiple of 16.
pub fn cells(bytes: &[u8]) -> Option<&[Cell]> {
    // SAFETY: as of bytes; a cell has no alignment of its own.
    bytes
        .len()
        .is_multiple_of(size_of::<Cell>())
        .then(|| unsafe {
            std::slice::from_raw_parts(bytes.as_ptr().cast(), bytes.len() / size_of::<Cell>())
        })
}

fn numbers(coords: &mut [Coord]) -> &mut [i32] {
    // SAFETY: Coord is three i32 in C's layout.
    unsafe { std::slice::from_raw_parts_mut(coords.as_mut_ptr().cast(), 3 * coords.len()) }
}

// ---- lattice

pub fn lattice_neighbors(of: Coord, out: &mut [Coord]) -> Told {
    let out = numbers(out);
    unsafe { tishkolan_lattice_neighbors(of.x, of.y, of.z, out.as_mut_ptr(), out.len()) }
}

pub fn lattice_children(of: Coord, out: &mut [Coord]) -> Told {
    let out = numbers(out);
    unsafe { tishkolan_lattice_children(of.x, of.y, of.z, out.as_mut_ptr(), out.len()) }
}

// ---- cells

pub fn cell_new(
    frame: u8,
    resolution: u8,
    at: Coord,
    exponent: u8,
    flags: u8,
    out: &mut Cell,
) -> Told {
    let out = &mut out.0;
    unsafe {
        tishkolan_cell_new(
            frame,
            resolution,
            at.x,
            at.y,
            at.z,
            exponent,
            flags,
            out.as_mut_ptr(),
            out.len(),
        )
    }
}

pub fn cell_from_coords(frame: u8, resolution: u8, at: Coord, out: &mut Cell) -> Told {
    let out = &mut out.0;
    unsafe {
        tishkolan_cell_from_coords(
            frame,
            resolution,
            at.x,
            at.y,
            at.z,
            out.as_mut_ptr(),
            out.len(),
        )
    }
}

pub fn cell_fields(Cell(cell): &Cell) -> FieldsAnswer {
    unsafe { tishkolan_cell_fields(cell.as_ptr(), cell.len()) }
}

pub fn cell_lattice_coord(Cell(cell): &Cell) -> CoordAnswer {
    unsafe { tishkolan_cell_lattice_coord(cell.as_ptr(), cell.len()) }
}

pub fn cell_is_plain(Cell(cell): &Cell) -> NumberAnswer {
    unsafe { tishkolan_cell_is_plain(cell.as_ptr(), cell.len()) }
}

pub fn cell_neighbors(Cell(cell): &Cell, out: &mut [Cell]) -> Told {
    let out = bytes_mut(out);
    unsafe { tishkolan_cell_neighbors(cell.as_ptr(), cell.len(), out.as_mut_ptr(), out.len()) }
}

pub fn cell_children(Cell(cell): &Cell, out: &mut [Cell]) -> Told {
    let out = bytes_mut(out);
    unsafe { tishkolan_cell_children(cell.as_ptr(), cell.len(), out.as_mut_ptr(), out.len()) }
}

pub fn cell_parent(Cell(cell): &Cell, Cell(out): &mut Cell) -> Told {
    unsafe { tishkolan_cell_parent(cell.as_ptr(), cell.len(), out.as_mut_ptr(), out.len()) }
}

pub fn cell_ancestor(Cell(cell): &Cell, resolution: u8, Cell(out): &mut Cell) -> Told {
    unsafe {
        tishkolan_cell_ancestor(
            cell.as_ptr(),
            cell.len(),
            resolution,
            out.as_mut_ptr(),
            out.len(),
        )
    }
}

pub fn cell_compare(Cell(a): &Cell, Cell(b): &Cell) -> NumberAnswer {
    unsafe { tishkolan_cell_compare(a.as_ptr(), a.len(), b.as_ptr(), b.len()) }
}

pub fn cell_between(Cell(a): &Cell, Cell(b): &Cell) -> Told {
    unsafe { tishkolan_cell_between(a.as_ptr(), a.len(), b.as_ptr(), b.len()) }
}

pub fn cell_distance(Cell(a): &Cell, Cell(b): &Cell) -> BitsAnswer {
    unsafe { tishkolan_cell_distance(a.as_ptr(), a.len(), b.as_ptr(), b.len()) }
}

pub fn cell_manhattan_distance(Cell(a): &Cell, Cell(b): &Cell) -> NumberAnswer {
    unsafe { tishkolan_cell_manhattan_distance(a.as_ptr(), a.len(), b.as_ptr(), b.len()) }
}

// ---- labels

pub fn cell_to_bech32m(Cell(cell): &Cell, Label(out): &mut Label) -> Told {
    unsafe { tishkolan_cell_to_bech32m(cell.as_ptr(), cell.len(), out.as_mut_ptr(), out.len()) }
}

pub fn cell_from_bech32m(label: &[u8], Cell(out): &mut Cell) -> PlaceAnswer {
    unsafe { tishkolan_cell_from_bech32m(label.as_ptr(), label.len(), out.as_mut_ptr(), out.len()) }
}

// ---- layers: the same eight calls for flags and for values

macro_rules! layer_calls {
    ($layer:ident, $kept:ty, $set:ident, $get:ident, $remove:ident, $contains:ident, $count:ident, $is_empty:ident, $clear:ident, $list:ident) => {
        pub mod $layer {
            use super::*;

            pub fn set(
                table: &mut [u8],
                count: usize,
                Cell(cell): &Cell,
                kept: $kept,
            ) -> CountAnswer {
                unsafe {
                    $set(
                        table.as_mut_ptr(),
                        table.len(),
                        count,
                        cell.as_ptr(),
                        cell.len(),
                        kept,
                    )
                }
            }

            pub fn get(table: &[u8], count: usize, Cell(cell): &Cell) -> KeptAnswer {
                unsafe {
                    $get(
                        table.as_ptr(),
                        table.len(),
                        count,
                        cell.as_ptr(),
                        cell.len(),
                    )
                }
            }

            pub fn remove(table: &mut [u8], count: usize, Cell(cell): &Cell) -> KeptAnswer {
                unsafe {
                    $remove(
                        table.as_mut_ptr(),
                        table.len(),
                        count,
                        cell.as_ptr(),
                        cell.len(),
                    )
                }
            }

            pub fn contains(table: &[u8], count: usize, Cell(cell): &Cell) -> NumberAnswer {
                unsafe {
                    $contains(
                        table.as_ptr(),
                        table.len(),
                        count,
                        cell.as_ptr(),
                        cell.len(),
                    )
                }
            }

            pub fn count(table: &[u8], count: usize) -> CountAnswer {
                unsafe { $count(table.as_ptr(), table.len(), count) }
            }

            pub fn is_empty(table: &[u8], count: usize) -> NumberAnswer {
                unsafe { $is_empty(table.as_ptr(), table.len(), count) }
            }

            pub fn clear(table: &mut [u8]) {
                unsafe { $clear(table.as_mut_ptr(), table.len()) }
            }

            pub fn list(table: &[u8], count: usize, out: &mut [u8]) -> CountAnswer {
                unsafe {
                    $list(
                        table.as_ptr(),
                        table.len(),
                        count,
                        out.as_mut_ptr(),
                        out.len(),
                    )
                }
            }
        }
    };
}

layer_calls!(
    flags,
    u32,
    tishkolan_flags_set,
    tishkolan_flags_get,
    tishkolan_flags_remove,
    tishkolan_flags_contains,
    tishkolan_flags_count,
    tishkolan_flags_is_empty,
    tishkolan_flags_clear,
    tishkolan_flags_list
);

layer_calls!(
    values,
    u64,
    tishkolan_values_set,
    tishkolan_values_get,
    tishkolan_values_remove,
    tishkolan_values_contains,
    tishkolan_values_count,
    tishkolan_values_is_empty,
    tishkolan_values_clear,
    tishkolan_values_list
);

/// A layer's table and its count.
pub type Table<'t> = (&'t [u8], usize);
/// The same where the call may write.
pub type TableMut<'t> = (&'t mut [u8], usize);

pub fn values_aggregate((table, count): Table, cells: &[Cell], how: u32) -> BitsAnswer {
    let cells = bytes(cells);
    unsafe {
        tishkolan_values_aggregate(
            table.as_ptr(),
            table.len(),
            count,
            cells.as_ptr(),
            cells.len(),
            how,
        )
    }
}

pub fn values_rollup(
    (fine, fine_count): Table,
    how: u32,
    (coarse, coarse_count): TableMut,
) -> CountAnswer {
    unsafe {
        tishkolan_values_rollup(
            fine.as_ptr(),
            fine.len(),
            fine_count,
            how,
            coarse.as_mut_ptr(),
            coarse.len(),
            coarse_count,
        )
    }
}

// ---- survey files

pub fn survey_load(
    file: &[u8],
    (flags, flags_count): TableMut,
    (values, values_count): TableMut,
) -> LoadAnswer {
    unsafe {
        tishkolan_survey_load(
            file.as_ptr(),
            file.len(),
            flags.as_mut_ptr(),
            flags.len(),
            flags_count,
            values.as_mut_ptr(),
            values.len(),
            values_count,
        )
    }
}

pub fn survey_write(
    (flags, flags_count): Table,
    (values, values_count): Table,
    out: &mut [u8],
) -> LengthAnswer {
    unsafe {
        tishkolan_survey_write(
            flags.as_ptr(),
            flags.len(),
            flags_count,
            values.as_ptr(),
            values.len(),
            values_count,
            out.as_mut_ptr(),
            out.len(),
        )
    }
}

// ---- lines and rings

pub fn trace_line(Cell(start): &Cell, Cell(end): &Cell, out: &mut [Cell]) -> CountAnswer {
    let out = bytes_mut(out);
    unsafe {
        tishkolan_trace_line(
            start.as_ptr(),
            start.len(),
            end.as_ptr(),
            end.len(),
            out.as_mut_ptr(),
            out.len(),
        )
    }
}

pub fn k_ring(
    Cell(center): &Cell,
    k: u64,
    (known, waiting): (usize, usize),
    workspace: &mut [u8],
    out: &mut [Cell],
) -> CountAnswer {
    let out = bytes_mut(out);
    unsafe {
        tishkolan_k_ring(
            center.as_ptr(),
            center.len(),
            k,
            known,
            waiting,
            workspace.as_mut_ptr(),
            workspace.len(),
            out.as_mut_ptr(),
            out.len(),
        )
    }
}

pub fn k_shell(
    Cell(center): &Cell,
    k: u64,
    (known, waiting): (usize, usize),
    workspace: &mut [u8],
    out: &mut [Cell],
) -> CountAnswer {
    let out = bytes_mut(out);
    unsafe {
        tishkolan_k_shell(
            center.as_ptr(),
            center.len(),
            k,
            known,
            waiting,
            workspace.as_mut_ptr(),
            workspace.len(),
            out.as_mut_ptr(),
            out.len(),
        )
    }
}

// ---- routes

/// A route, its two ends and the bits of its cost.
pub type Claimed<'r> = (&'r [Cell], &'r Cell, &'r Cell, u64);

pub fn route_verdict(
    (route, Cell(start), Cell(goal), cost): Claimed,
    (flags, flags_count): Table,
    rule: u32,
) -> u32 {
    let route = bytes(route);
    unsafe {
        tishkolan_route_verdict(
            route.as_ptr(),
            route.len(),
            start.as_ptr(),
            start.len(),
            goal.as_ptr(),
            goal.len(),
            cost,
            flags.as_ptr(),
            flags.len(),
            flags_count,
            rule,
        )
    }
}

pub fn route_choice(
    (sent, Cell(sent_start), Cell(sent_goal), sent_cost): Claimed,
    (homing, Cell(homing_start), Cell(homing_goal), homing_cost): Claimed,
    (flags, flags_count): Table,
    rule: u32,
) -> u32 {
    let (sent, homing) = (bytes(sent), bytes(homing));
    unsafe {
        tishkolan_route_choice(
            sent.as_ptr(),
            sent.len(),
            sent_start.as_ptr(),
            sent_start.len(),
            sent_goal.as_ptr(),
            sent_goal.len(),
            sent_cost,
            homing.as_ptr(),
            homing.len(),
            homing_start.as_ptr(),
            homing_start.len(),
            homing_goal.as_ptr(),
            homing_goal.len(),
            homing_cost,
            flags.as_ptr(),
            flags.len(),
            flags_count,
            rule,
        )
    }
}

// ---- the search

/// Start and goal, the flag layer, the rule.
pub type Asked<'r> = (&'r Cell, &'r Cell, Table<'r>, u32);

pub fn astar_with_limit(
    (Cell(start), Cell(goal), (flags, flags_count), rule): Asked,
    limit: u64,
    (known, waiting): (usize, usize),
    (known_workspace, waiting_workspace): (&mut [u8], &mut [u8]),
    out: &mut [Cell],
) -> SearchAnswer {
    let out = bytes_mut(out);
    unsafe {
        tishkolan_astar_with_limit(
            start.as_ptr(),
            start.len(),
            goal.as_ptr(),
            goal.len(),
            flags.as_ptr(),
            flags.len(),
            flags_count,
            rule,
            limit,
            known,
            waiting,
            known_workspace.as_mut_ptr(),
            known_workspace.len(),
            waiting_workspace.as_mut_ptr(),
            waiting_workspace.len(),
            out.as_mut_ptr(),
            out.len(),
        )
    }
}

pub fn astar(
    (Cell(start), Cell(goal), (flags, flags_count), rule): Asked,
    (known, waiting): (usize, usize),
    (known_workspace, waiting_workspace): (&mut [u8], &mut [u8]),
    out: &mut [Cell],
) -> SearchAnswer {
    let out = bytes_mut(out);
    unsafe {
        tishkolan_astar(
            start.as_ptr(),
            start.len(),
            goal.as_ptr(),
            goal.len(),
            flags.as_ptr(),
            flags.len(),
            flags_count,
            rule,
            known,
            waiting,
            known_workspace.as_mut_ptr(),
            known_workspace.len(),
            waiting_workspace.as_mut_ptr(),
            waiting_workspace.len(),
            out.as_mut_ptr(),
            out.len(),
        )
    }
}
