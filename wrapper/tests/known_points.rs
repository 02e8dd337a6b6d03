//! The known points of the specification, through this crate.

use tishkolan::*;

fn at(x: i32, y: i32, z: i32) -> Cell {
    Cell::from_coords(0, 3, Coord::new(x, y, z)).unwrap()
}

#[test]
fn a_packed_cell() {
    let cell = Cell::new(0, 3, Coord::new(1, -1, 1), 28, 165).unwrap();
    assert_eq!(
        cell,
        Cell(0x00000001_FFFFFFFF_00000001_0A5C0300_u128.to_be_bytes())
    );
    let fields = Fields {
        frame: 0,
        resolution: 3,
        exponent: 12,
        flags: 165,
        reserved: 0,
        coord: Coord::new(1, -1, 1),
    };
    assert_eq!(cell.fields(), fields);
}

#[test]
fn a_mixed_point() {
    let refused = Refusal::InvalidParity { x: 0, y: 1, z: 0 };
    assert_eq!(Coord::new(0, 1, 0).parity(), Err(refused));
    assert_eq!(Cell::from_coords(0, 3, Coord::new(0, 1, 0)), Err(refused));
}

#[test]
fn parents() {
    for (child, parent) in [
        (Coord::new(4, 2, 2), Coord::new(1, 1, 1)),
        (Coord::new(-2, 0, 0), Coord::new(-2, 0, 0)),
        (Coord::new(-3, 1, -1), Coord::new(-2, 0, 0)),
    ] {
        assert_eq!(child.parent(), Ok(parent));
        let cell = Cell::from_coords(7, 3, child).unwrap();
        assert_eq!(cell.parent(), Cell::from_coords(7, 2, parent));
    }
}

#[test]
fn snaps() {
    let snapped = |x, y, z| Point::new(x, y, z).to_lattice(0);
    assert_eq!(snapped(0.5, 0.5, 0.5), Ok(Coord::new(0, 0, 0)));
    assert_eq!(snapped(-1.0, 0.0, 0.0), Ok(Coord::new(-2, 0, 0)));
    assert_eq!(
        snapped(2147483646.0, 0.0, 0.0),
        Ok(Coord::new(2147483646, 0, 0))
    );
    assert_eq!(snapped(2147483646.5, 0.0, 0.0), Err(Refusal::OutOfRange));
}

#[test]
fn a_root() {
    assert_eq!(
        square_root(3.0).map(f64::to_bits),
        Ok(0x3FFB_B67A_E858_4CAA)
    );
}

#[test]
fn a_search() {
    let flags = FlagLayer::new(&mut []);
    let mut workspace = SearchWorkspace {
        known: 100,
        waiting: 100,
        known_buffer: &mut [0xA5; SearchWorkspace::known_bytes(100)],
        waiting_buffer: &mut [0xA5; SearchWorkspace::waiting_bytes(100)],
    };
    let (start, goal) = (at(0, 0, 0), at(2, 2, 0));
    for rule in [Rule::Free, Rule::Avoiding] {
        let mut out = [Cell::default(); 3];
        let found = astar(&start, &goal, &flags, rule, &mut workspace, &mut out).unwrap();
        assert_eq!(found.cells, [start, at(1, 1, 1), goal]);
        assert_eq!(found.cost.to_bits(), 0x400B_B67A_E858_4CAA);
        assert_eq!(found.expansions, 3);
        let mut limited = |limit| {
            astar_with_limit(&start, &goal, &flags, rule, limit, &mut workspace, &mut out)
                .map(|found| found.expansions)
        };
        assert_eq!(limited(3), Ok(3));
        assert_eq!(
            limited(2),
            Err(Refusal::SearchLimitExceeded {
                expansions: 3,
                limit: 2
            })
        );
        assert_eq!(
            limited(0),
            Err(Refusal::SearchLimitExceeded {
                expansions: 1,
                limit: 0
            })
        );
    }
}

#[test]
fn lines() {
    let mut out = [Cell::default(); 4];
    let line = trace_line(&at(0, 0, 0), &at(2, 2, 0), &mut out);
    assert_eq!(line, Ok(&[at(0, 0, 0), at(1, 1, -1), at(2, 2, 0)][..]));
    let flagged = Cell::new(0, 3, Coord::new(0, 0, 0), 0, 1).unwrap();
    let line = trace_line(&at(0, 0, 0), &flagged, &mut out);
    assert_eq!(line, Ok(&[at(0, 0, 0), flagged][..]));
}

#[test]
fn rings() {
    let mut workspace = RingWorkspace {
        known: 66,
        waiting: 51,
        buffer: &mut [0xA5; RingWorkspace::bytes(66)],
    };
    let flagged = Cell::new(0, 3, Coord::new(0, 0, 0), 0, 1).unwrap();
    let mut out = [Cell::default(); 66];
    for (center, k, cells) in [
        (at(0, 0, 0), 1, 15),
        (at(0, 0, 0), 2, 65),
        (flagged, 1, 15),
        (flagged, 2, 66),
    ] {
        let ring = k_ring(&center, k, &mut workspace, &mut out).unwrap();
        assert_eq!((ring.len(), ring[0]), (cells, center));
    }
}
