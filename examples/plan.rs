//! A planner in Rust: a laser point blocks a cell, a route around it is searched, and the checker judges it.

use tishkolan::*;

fn main() -> Result<(), Refusal> {
    let cell = |x, y, z| Cell::from_coords(0, 3, Point::new(x, y, z).to_lattice(3)?);
    let (start, goal) = (cell(0.0, 0.0, 0.0)?, cell(0.5, 0.5, 0.0)?);
    let (mut table, mut known, mut waiting) = ([0; 20_480], [0; 32_768], [0; 16_384]);
    let mut flags = FlagLayer::new(&mut table);
    flags.set(&cell(0.13, 0.12, 0.12)?, Flags::BLOCKED)?;

    let mut lent = SearchWorkspace::new(&mut known, &mut waiting);
    let mut out = [Cell::default(); 100];
    let found = astar(&start, &goal, &flags, Rule::Avoiding, &mut lent, &mut out)?;
    let verdict = route_verdict(&found.claim(start, goal), &flags, Rule::Avoiding);
    println!("{} cells: {verdict}", found.cells.len());
    Ok(())
}
