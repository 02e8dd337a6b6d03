//! The calls of include/tishkolan.h that are timed.

#[repr(C)]
#[derive(Clone, Copy)]
pub struct Refusal {
    pub number: u32,
    pub room: u32,
    pub x: i32,
    pub y: i32,
    pub z: i32,
}

#[repr(C)]
#[derive(Clone, Copy)]
pub struct NumberAnswer {
    pub refusal: Refusal,
    pub value: i32,
}

#[repr(C)]
#[derive(Clone, Copy)]
pub struct BitsAnswer {
    pub refusal: Refusal,
    pub bits: u64,
}

#[repr(C)]
#[derive(Clone, Copy)]
pub struct CoordAnswer {
    pub refusal: Refusal,
    pub x: i32,
    pub y: i32,
    pub z: i32,
}

#[repr(C)]
#[derive(Clone, Copy)]
pub struct FieldsAnswer {
    pub refusal: Refusal,
    pub frame: u8,
    pub resolution: u8,
    pub exponent: u8,
    pub flags: u8,
    pub reserved: u8,
    pub x: i32,
    pub y: i32,
    pub z: i32,
}

#[repr(C)]
#[derive(Clone, Copy)]
pub struct PlaceAnswer {
    pub refusal: Refusal,
    pub place: u64,
}

#[repr(C)]
#[derive(Clone, Copy)]
pub struct CountAnswer {
    pub refusal: Refusal,
    pub count: u64,
}

#[repr(C)]
#[derive(Clone, Copy)]
pub struct KeptAnswer {
    pub refusal: Refusal,
    pub found: u32,
    pub kept: u64,
    pub count: u64,
}

#[repr(C)]
#[derive(Clone, Copy)]
pub struct LoadAnswer {
    pub refusal: Refusal,
    pub place: u64,
    pub flags: u64,
    pub values: u64,
}

#[repr(C)]
#[derive(Clone, Copy)]
pub struct LengthAnswer {
    pub refusal: Refusal,
    pub length: u64,
}

#[repr(C)]
#[derive(Clone, Copy)]
pub struct SearchAnswer {
    pub refusal: Refusal,
    pub cells: u64,
    pub cost: u64,
    pub expansions: u64,
    pub limit: u64,
    pub start_high: u64,
    pub start_low: u64,
    pub goal_high: u64,
    pub goal_low: u64,
}

#[rustfmt::skip]
extern "C" {
    pub fn tishkolan_square_root(bits: u64) -> BitsAnswer;
    pub fn tishkolan_lattice_neighbors(x: i32, y: i32, z: i32, out: *mut i32, length: usize) -> Refusal;
    pub fn tishkolan_lattice_children(x: i32, y: i32, z: i32, out: *mut i32, length: usize) -> Refusal;
    pub fn tishkolan_lattice_parent(x: i32, y: i32, z: i32) -> CoordAnswer;
    pub fn tishkolan_physical_to_lattice(x: u64, y: u64, z: u64, resolution: u8) -> CoordAnswer;
    pub fn tishkolan_lattice_distance(ax: i32, ay: i32, az: i32, bx: i32, by: i32, bz: i32) -> BitsAnswer;
    pub fn tishkolan_lattice_manhattan_distance(ax: i32, ay: i32, az: i32, bx: i32, by: i32, bz: i32) -> NumberAnswer;
    pub fn tishkolan_cell_new(frame: u8, resolution: u8, x: i32, y: i32, z: i32, exponent: u8, flags: u8, out: *mut u8, length: usize) -> Refusal;
    pub fn tishkolan_cell_fields(cell: *const u8, length: usize) -> FieldsAnswer;
    pub fn tishkolan_cell_neighbors(cell: *const u8, length: usize, out: *mut u8, out_length: usize) -> Refusal;
    pub fn tishkolan_cell_children(cell: *const u8, length: usize, out: *mut u8, out_length: usize) -> Refusal;
    pub fn tishkolan_cell_parent(cell: *const u8, length: usize, out: *mut u8, out_length: usize) -> Refusal;
    pub fn tishkolan_cell_distance(first: *const u8, length: usize, second: *const u8, second_length: usize) -> BitsAnswer;
    pub fn tishkolan_cell_manhattan_distance(first: *const u8, length: usize, second: *const u8, second_length: usize) -> NumberAnswer;
    pub fn tishkolan_cell_to_bech32m(cell: *const u8, length: usize, out: *mut u8, out_length: usize) -> Refusal;
    pub fn tishkolan_cell_from_bech32m(label: *const u8, length: usize, out: *mut u8, out_length: usize) -> PlaceAnswer;

    pub fn tishkolan_flags_set(table: *mut u8, length: usize, count: usize, cell: *const u8, cell_length: usize, flags: u32) -> CountAnswer;
    pub fn tishkolan_flags_get(table: *const u8, length: usize, count: usize, cell: *const u8, cell_length: usize) -> KeptAnswer;
    pub fn tishkolan_flags_contains(table: *const u8, length: usize, count: usize, cell: *const u8, cell_length: usize) -> NumberAnswer;
    pub fn tishkolan_flags_count(table: *const u8, length: usize, count: usize) -> CountAnswer;
    pub fn tishkolan_values_set(table: *mut u8, length: usize, count: usize, cell: *const u8, cell_length: usize, bits: u64) -> CountAnswer;
    pub fn tishkolan_values_get(table: *const u8, length: usize, count: usize, cell: *const u8, cell_length: usize) -> KeptAnswer;
    pub fn tishkolan_values_contains(table: *const u8, length: usize, count: usize, cell: *const u8, cell_length: usize) -> NumberAnswer;
    pub fn tishkolan_values_count(table: *const u8, length: usize, count: usize) -> CountAnswer;
    pub fn tishkolan_values_aggregate(table: *const u8, length: usize, count: usize, cells: *const u8, cells_length: usize, how: u32) -> BitsAnswer;
    pub fn tishkolan_values_rollup(fine: *const u8, length: usize, count: usize, how: u32, coarse: *mut u8, coarse_length: usize, coarse_count: usize) -> CountAnswer;
    pub fn tishkolan_survey_load(file: *const u8, length: usize, flags: *mut u8, flags_length: usize, flags_count: usize, values: *mut u8, values_length: usize, values_count: usize) -> LoadAnswer;
    pub fn tishkolan_survey_write(flags: *const u8, flags_length: usize, flags_count: usize, values: *const u8, values_length: usize, values_count: usize, out: *mut u8, length: usize) -> LengthAnswer;
    pub fn tishkolan_route_verdict(route: *const u8, length: usize, start: *const u8, start_length: usize, goal: *const u8, goal_length: usize, cost: u64, flags: *const u8, flags_length: usize, flags_count: usize, rule: u32) -> u32;

    pub fn tishkolan_k_ring(center: *const u8, center_length: usize, k: u64, known: usize, waiting: usize, workspace: *mut u8, workspace_length: usize, output: *mut u8, output_length: usize) -> CountAnswer;
    pub fn tishkolan_trace_line(start: *const u8, start_length: usize, end: *const u8, end_length: usize, output: *mut u8, output_length: usize) -> CountAnswer;
    pub fn tishkolan_astar_with_limit(start: *const u8, start_length: usize, goal: *const u8, goal_length: usize, flags: *const u8, flags_length: usize, flags_count: usize, rule: u32, limit: u64, known: usize, waiting: usize, known_workspace: *mut u8, known_workspace_length: usize, waiting_workspace: *mut u8, waiting_workspace_length: usize, output: *mut u8, output_length: usize) -> SearchAnswer;
}
