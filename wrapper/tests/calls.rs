//! Each call once at least, where it answers, and that no call of the header is missing.

use std::cmp::Ordering;
use std::collections::BTreeSet;

use tishkolan::*;

fn at(x: i32, y: i32, z: i32) -> Cell {
    Cell::from_coords(0, 3, Coord::new(x, y, z)).unwrap()
}

/// The names of functions, as words before a parenthesis, of a text without its comments.
fn functions(text: &str) -> BTreeSet<String> {
    let mut code = String::new();
    let mut rest = text;
    while let Some((before, comment)) = rest.split_once("/*") {
        code += before;
        rest = comment.split_once("*/").map_or("", |(_, after)| after);
    }
    code += rest;
    code.split('(')
        .filter_map(|before| {
            before
                .rsplit(|c: char| !c.is_alphanumeric() && c != '_')
                .next()
        })
        .filter(|name| name.starts_with("tishkolan_"))
        .map(String::from)
        .collect()
}

#[test]
fn the_version() {
    let parts = env!("CARGO_PKG_VERSION").split('.');
    let number = parts.fold(0, |number, part| {
        1_000 * number + part.parse::<u32>().unwrap()
    });
    assert_eq!(version(), number);
}

#[test]
fn every_call_of_the_header() {
    let header = include_str!("../../include/tishkolan.h");
    let declared = functions(header);
    // Inline functions of the header are C, and not the library's.
    let inline = header.split("static inline").skip(1);
    let inline: BTreeSet<String> = inline
        .filter_map(|after| functions(&after[..=after.find('(')?]).into_iter().next())
        .collect();
    let bound = functions(include_str!("../src/face.rs"));
    let missing: Vec<_> = declared
        .difference(&inline)
        .filter(|name| !bound.contains(*name))
        .collect();
    assert!(
        declared.len() > 50 && missing.is_empty(),
        "not in src/face.rs: {missing:?}"
    );
    let strange: Vec<_> = bound.difference(&declared).collect();
    assert!(
        strange.is_empty(),
        "not in include/tishkolan.h: {strange:?}"
    );
}

#[test]
fn roots() {
    assert_eq!(square_root(0.0).map(f64::to_bits), Ok(0));
    for whole in [
        1.0,
        2.0,
        3.0,
        4.0,
        144.0,
        2f64.powi(53) - 1.0,
        2f64.powi(64),
    ] {
        assert_eq!(square_root(whole), Ok(whole.sqrt()));
    }
}

#[test]
fn lattice_points() {
    let (even, odd) = (Coord::new(0, -2, 4), Coord::new(1, 1, -3));
    assert_eq!(even.parity(), Ok(Parity::Even));
    assert_eq!(odd.parity(), Ok(Parity::Odd));
    assert_eq!(Parity::Even.opposite(), Parity::Odd);
    assert_eq!(Parity::Odd.opposite(), Parity::Even);
    assert_eq!((Parity::Even as u32, Parity::Odd as u32), (0, 1));
    assert!(even.is_valid_lattice_point() && odd.is_valid_lattice_point());
    assert!(!Coord::new(0, 1, 0).is_valid_lattice_point());

    let neighbors = even.neighbors().unwrap();
    assert_eq!(
        neighbors.map(|near| near.distance(even).unwrap().powi(2).round()),
        {
            let mut squares = [3.0; 14];
            squares[8..].fill(4.0);
            squares
        }
    );
    for child in odd.children().unwrap() {
        assert_eq!(child.parent(), Ok(odd));
    }
    assert_eq!(even.to_physical(), Ok(Point::new(0.0, -2.0, 4.0)));
    assert_eq!(Coord::new(0, 0, 0).distance(Coord::new(6, 0, 8)), Ok(10.0));
    assert_eq!(even.manhattan_distance(odd), Ok(1 + 3 + 7));
    assert_eq!(
        Point::new(0.5, 0.25, -0.5).to_lattice(2),
        Ok(Coord::new(2, 2, -2))
    );
}

#[test]
fn cells() {
    let (plain, rich) = (
        at(2, -4, 6),
        Cell::new(9, 3, Coord::new(2, -4, 6), 5, 129).unwrap(),
    );
    assert_eq!(rich.fields().frame, 9);
    assert_eq!((rich.fields().exponent, rich.fields().flags), (5, 129));
    assert_eq!(rich.lattice_coord(), Ok(Coord::new(2, -4, 6)));
    assert!(plain.is_plain() && !rich.is_plain());
    // Coordinates in order, and one pair the same: as derived, as the library says.
    let ordered = [at(0, 0, 0), at(2, 0, 0), plain, rich, at(0, 0, -2)];
    for (i, one) in ordered.iter().enumerate() {
        for (j, other) in ordered.iter().enumerate() {
            assert_eq!(one.compare(other), one.cmp(other));
            assert_eq!(one.compare(other) == Ordering::Equal, i == j);
        }
    }

    let coords = plain.lattice_coord().unwrap().neighbors().unwrap();
    assert_eq!(
        plain.neighbors(),
        Ok(coords.map(|near| at(near.x, near.y, near.z)))
    );
    for child in plain.children().unwrap() {
        assert_eq!(child.fields().resolution, 4);
        assert_eq!(child.parent(), Ok(plain));
        assert_eq!(child.ancestor(2), plain.parent());
        assert_eq!(child.ancestor(0), plain.ancestor(0));
    }
    assert_eq!(rich.ancestor(3), Ok(rich));
    assert_eq!(plain.between(&rich), Ok(()));
    assert_eq!(at(0, 0, 0).distance(&at(6, 0, 8)), Ok(10.0));
    assert_eq!(at(0, 0, 0).manhattan_distance(&plain), Ok(12));

    let bytes: Vec<u8> = ordered.iter().flat_map(|cell| cell.0).collect();
    assert_eq!(Cell::list(&bytes), Ok(&ordered[..]));
    assert_eq!(Cell::list(&[]), Ok(&[][..]));
    assert_eq!(
        format!("{rich:?}"),
        "Cell(00000006FFFFFFFC0000000208150309)"
    );
}

#[test]
fn labels() {
    let mut mixed = Cell([0; 16]);
    mixed.0[7] = 1;
    mixed.0[12] = 0xF0;
    for cell in [at(2, -4, 6), mixed, Cell([0; 16]), Cell([0xFF; 16])] {
        let label = cell.to_bech32m();
        assert_eq!(label.as_str().len(), Label::LENGTH);
        assert_eq!(Cell::from_bech32m(label), Ok(cell));
        assert_eq!(Cell::from_bech32m(label.as_str()), Ok(cell));
        assert_eq!(
            Cell::from_bech32m(label.to_string().to_uppercase()),
            Ok(cell)
        );
    }
    let label = Cell([0xFF; 16]).to_bech32m();
    let text: &str = label.as_ref();
    assert_eq!(text, "cx3d1llllllllllllllllllllllllluzkm08t");
    assert_eq!(format!("{label:>40}"), format!("   {text}"));
    assert_eq!(format!("{label:?}"), format!("Label({text})"));
}

#[test]
fn flags() {
    let flags = Flags::NONE
        .set_flag(Flags::BLOCKED)
        .set_flag(Flags::BOUNDARY);
    assert_eq!(flags, Flags(9));
    assert!(flags.has_flag(Flags::BOUNDARY) && !flags.has_flag(Flags::WATER));
    assert!(flags.is_blocked() && !flags.clear_flag(Flags::BLOCKED).is_blocked());
    assert!(!Flags(!1).is_blocked());
}

#[test]
fn flag_layers() {
    let mut table = [0xA5; FlagLayer::bytes(3) + 7];
    let mut layer = FlagLayer::new(&mut table);
    assert_eq!(layer.is_empty(), Ok(true));
    for (cell, flags) in [
        (at(4, 0, 0), 4),
        (at(0, 0, 0), 1),
        (at(2, 0, 0), u32::MAX),
        (at(4, 0, 0), 8),
    ] {
        assert_eq!(layer.set(&cell, Flags(flags)), Ok(()));
    }
    assert_eq!(layer.count(), Ok(3));
    assert_eq!(layer.get(&at(4, 0, 0)), Ok(Some(Flags(8))));
    assert_eq!(layer.get(&at(6, 0, 0)), Ok(None));
    assert_eq!(layer.contains(&at(2, 0, 0)), Ok(true));
    assert_eq!(layer.remove(&at(6, 0, 0)), Ok(None));
    assert_eq!(layer.remove(&at(0, 0, 0)), Ok(Some(Flags(1))));
    assert_eq!(layer.contains(&at(0, 0, 0)), Ok(false));

    let mut out = [0xA5; FlagLayer::bytes(2) + 1];
    let records = layer.list(&mut out).unwrap();
    assert_eq!(records.as_bytes().len(), 40);
    assert!(records.eq([(at(2, 0, 0), Flags(u32::MAX)), (at(4, 0, 0), Flags(8))]));
    assert_eq!(out[40], 0xA5);

    // Handed back and taken up again, it is the same layer.
    let (lent, count) = layer.into_table();
    assert_eq!(count, 2);
    let mut layer = FlagLayer::over(lent, count).unwrap();
    assert_eq!(layer.get(&at(2, 0, 0)), Ok(Some(Flags(u32::MAX))));
    layer.clear();
    assert_eq!((layer.count(), layer.is_empty()), (Ok(0), Ok(true)));
    assert_eq!(format!("{layer:?}"), "Layer of 0 cells in 67 bytes");
    assert_eq!(table, {
        let mut cleared = [0; 67];
        cleared[60..].fill(0xA5);
        cleared
    });
}

#[test]
fn value_layers() {
    let mut table = [0xA5; ValueLayer::bytes(3)];
    let mut layer = ValueLayer::new(&mut table);
    for (cell, value) in [
        (at(4, 0, 0), 1.5),
        (at(0, 0, 0), -0.0),
        (at(2, 0, 0), f64::NAN),
        (at(4, 0, 0), 2.5),
    ] {
        assert_eq!(layer.set(&cell, value), Ok(()));
    }
    let bits = |layer: &ValueLayer, cell| layer.get(&cell).unwrap().map(f64::to_bits);
    assert_eq!(layer.count(), Ok(3));
    assert_eq!(bits(&layer, at(4, 0, 0)), Some(2.5_f64.to_bits()));
    assert_eq!(bits(&layer, at(0, 0, 0)), Some((-0.0_f64).to_bits()));
    assert_eq!(bits(&layer, at(2, 0, 0)), Some(f64::NAN.to_bits()));
    assert_eq!(layer.get(&at(6, 0, 0)), Ok(None));
    assert_eq!(
        (layer.contains(&at(4, 0, 0)), layer.contains(&at(6, 0, 0))),
        (Ok(true), Ok(false))
    );
    assert_eq!(layer.remove(&at(4, 0, 0)), Ok(Some(2.5)));
    assert_eq!(layer.is_empty(), Ok(false));
    let mut out = [0; ValueLayer::bytes(2)];
    let listed: Vec<_> = layer
        .list(&mut out)
        .unwrap()
        .map(|(cell, value)| (cell, value.to_bits()))
        .collect();
    assert_eq!(
        listed,
        [
            (at(0, 0, 0), (-0.0_f64).to_bits()),
            (at(2, 0, 0), f64::NAN.to_bits())
        ]
    );
    layer.clear();
    assert_eq!(layer.is_empty(), Ok(true));
    assert_eq!(table, [0; 72]);
}

#[test]
fn aggregates_and_rollups() {
    let parent = at(0, 0, 0);
    let children = parent.children().unwrap();
    let mut table = [0; ValueLayer::bytes(8)];
    let mut fine = ValueLayer::new(&mut table);
    for (child, value) in children[..4].iter().zip([4.0, 1.0, 7.0, 2.0]) {
        fine.set(child, value).unwrap();
    }
    for (how, value) in [
        (Aggregate::Count, 4.0),
        (Aggregate::Sum, 14.0),
        (Aggregate::Mean, 3.5),
        (Aggregate::Min, 1.0),
        (Aggregate::Max, 7.0),
        (Aggregate::Median, 3.0),
    ] {
        assert_eq!(fine.aggregate(&children, how), Ok(value));
        let mut coarse_table = [0xA5; ValueLayer::bytes(2)];
        let mut coarse = ValueLayer::new(&mut coarse_table);
        assert_eq!(fine.rollup(how, &mut coarse), Ok(()));
        assert_eq!(
            (coarse.count(), coarse.get(&parent)),
            (Ok(1), Ok(Some(value)))
        );
        assert_eq!(coarse_table[24..], [0; 24]);
    }
    // Repeats count.
    assert_eq!(
        fine.aggregate(&[children[0], children[0]], Aggregate::Sum),
        Ok(8.0)
    );
}

#[test]
fn survey_files() {
    let (mut flag_table, mut value_table) = ([0; FlagLayer::bytes(3)], [0; ValueLayer::bytes(3)]);
    let mut flags = FlagLayer::new(&mut flag_table);
    let mut values = ValueLayer::new(&mut value_table);
    flags.set(&at(2, 0, 0), Flags::WATER).unwrap();
    flags.set(&at(0, 0, 0), Flags::BLOCKED).unwrap();
    values.set(&at(0, 0, 0), 9.75).unwrap();
    let mut out = [0xA5; survey_bytes(2, 1) + 1];
    let file = write_survey(&flags, &values, &mut out).unwrap();
    assert_eq!(file.len(), 16 + 40 + 24);
    assert_eq!(file[..16], *b"\0\x01\0\x02\0\x01\0\0\0\0\0\x10\0\0\0\x38");
    assert_eq!(
        (&file[16..32], &file[32..36]),
        (&at(0, 0, 0).0[..], &[0, 0, 0, 1][..])
    );

    let (mut again_flags, mut again_values) =
        ([0xA5; FlagLayer::bytes(2)], [0xA5; ValueLayer::bytes(2)]);
    let mut loaded = (
        FlagLayer::new(&mut again_flags),
        ValueLayer::new(&mut again_values),
    );
    assert_eq!(load_survey(file, &mut loaded.0, &mut loaded.1), Ok(()));
    assert_eq!((loaded.0.count(), loaded.1.count()), (Ok(2), Ok(1)));
    assert_eq!(loaded.0.get(&at(2, 0, 0)), Ok(Some(Flags::WATER)));
    assert_eq!(loaded.1.get(&at(0, 0, 0)), Ok(Some(9.75)));
}

#[test]
fn rings_and_shells() {
    let mut buffer = [0xA5; RingWorkspace::bytes(65) + 3];
    let mut workspace = RingWorkspace {
        known: 65,
        waiting: 50,
        buffer: &mut buffer,
    };
    let center = at(0, 0, 0);
    let mut out = [Cell([0xA5; 16]); 66];
    let ring = k_ring(&center, 2, &mut workspace, &mut out)
        .unwrap()
        .to_vec();
    assert_eq!(ring.len(), 65);
    assert_eq!(out[65], Cell([0xA5; 16]));
    assert_eq!(
        k_shell(&center, 1, &mut workspace, &mut out),
        Ok(&ring[1..15])
    );
    assert_eq!(
        k_shell(&center, 2, &mut workspace, &mut out),
        Ok(&ring[15..])
    );
    assert_eq!(buffer, [0; RingWorkspace::bytes(65) + 3]);
}

#[test]
fn all_the_rooms_of_buffers() {
    for (room, bytes) in [
        (0, 0),
        (0, RingWorkspace::bytes(1) - 1),
        (7, RingWorkspace::bytes(7)),
        (65_536, RingWorkspace::bytes(65_536)),
        (65_536, RingWorkspace::bytes(65_537)),
    ] {
        let mut buffer = vec![0xA5; bytes];
        let mut workspace = RingWorkspace::new(&mut buffer);
        assert_eq!((workspace.known, workspace.waiting), (room, room));
        let said =
            k_ring(&at(0, 0, 0), 0, &mut workspace, &mut [Cell::default()]).map(<[Cell]>::len);
        assert_eq!(
            said,
            if room == 0 {
                Err(Refusal::BadWorkspace)
            } else {
                Ok(1)
            }
        );
    }
    for (known, waiting, known_bytes, waiting_bytes) in [
        (0, 0, 0, 0),
        (
            0,
            3,
            SearchWorkspace::known_bytes(1) - 1,
            SearchWorkspace::waiting_bytes(3),
        ),
        (
            3,
            0,
            SearchWorkspace::known_bytes(3),
            SearchWorkspace::waiting_bytes(1) - 1,
        ),
        (
            1,
            2,
            SearchWorkspace::known_bytes(2) - 1,
            SearchWorkspace::waiting_bytes(2),
        ),
        (
            65_536,
            65_536,
            SearchWorkspace::known_bytes(65_537),
            SearchWorkspace::waiting_bytes(65_537),
        ),
    ] {
        let mut buffers = (vec![0xA5; known_bytes], vec![0xA5; waiting_bytes]);
        let mut workspace = SearchWorkspace::new(&mut buffers.0, &mut buffers.1);
        assert_eq!((workspace.known, workspace.waiting), (known, waiting));
        let flags = FlagLayer::new(&mut []);
        let here = at(0, 0, 0);
        let mut out = [Cell::default()];
        let said = astar(&here, &here, &flags, Rule::Free, &mut workspace, &mut out)
            .map(|found| found.expansions);
        assert_eq!(
            said,
            if known * waiting == 0 {
                Err(Refusal::BadWorkspace)
            } else {
                Ok(0)
            }
        );
    }
}

#[test]
fn routes() {
    let route = [at(0, 0, 0), at(1, 1, 1), at(2, 2, 0)];
    let back = [at(2, 2, 0), at(1, 1, -1), at(0, 0, 0)];
    let cost = route[0].distance(&route[1]).unwrap() * 2.0;
    let sent = Claim {
        route: &route,
        start: route[0],
        goal: route[2],
        cost,
    };
    let homing = Claim {
        route: &back,
        start: back[0],
        goal: back[2],
        cost,
    };
    let mut table = [0; FlagLayer::bytes(2)];
    let mut flags = FlagLayer::new(&mut table);
    let verdict = |claim: Claim, flags: &FlagLayer| route_verdict(&claim, flags, Rule::Avoiding);

    assert_eq!(verdict(sent, &flags), Verdict::Accepted);
    assert_eq!(
        verdict(Claim { route: &[], ..sent }, &flags),
        Verdict::EmptyRoute
    );
    assert_eq!(
        verdict(
            Claim {
                start: route[1],
                ..sent
            },
            &flags
        ),
        Verdict::WrongStart
    );
    assert_eq!(
        verdict(
            Claim {
                route: &[route[0], route[2]],
                ..sent
            },
            &flags
        ),
        Verdict::NotANeighbor
    );
    assert_eq!(
        verdict(
            Claim {
                goal: route[1],
                ..sent
            },
            &flags
        ),
        Verdict::WrongGoal
    );
    assert_eq!(
        verdict(
            Claim {
                cost: cost.next_up(),
                ..sent
            },
            &flags
        ),
        Verdict::WrongCost
    );
    assert_eq!(
        route_choice(&sent, &homing, &flags, Rule::Avoiding),
        Choice::Sent
    );

    flags.set(&route[1], Flags(3)).unwrap();
    assert_eq!(verdict(sent, &flags), Verdict::BlockedCell);
    assert_eq!(route_verdict(&sent, &flags, Rule::Free), Verdict::Accepted);
    assert_eq!(
        route_choice(&sent, &homing, &flags, Rule::Avoiding),
        Choice::Homing
    );
    flags.set(&back[1], Flags::BLOCKED).unwrap();
    assert_eq!(
        route_choice(&sent, &homing, &flags, Rule::Avoiding),
        Choice::Neither
    );
    assert_eq!(
        route_choice(&sent, &homing, &flags, Rule::Free),
        Choice::Sent
    );

    assert_eq!(Verdict::BlockedCell.number(), 23);
    assert_eq!(
        Verdict::BlockedCell.to_string(),
        "a step enters a blocked cell"
    );
}

#[test]
fn searches() {
    let (mut known, mut waiting) = (
        [0xA5; SearchWorkspace::known_bytes(60) + 3],
        [0xA5; SearchWorkspace::waiting_bytes(60)],
    );
    let mut workspace = SearchWorkspace {
        known: 60,
        waiting: 60,
        known_buffer: &mut known,
        waiting_buffer: &mut waiting,
    };
    let mut table = [0; FlagLayer::bytes(1)];
    let mut flags = FlagLayer::new(&mut table);
    flags.set(&at(1, 1, 1), Flags::BLOCKED).unwrap();
    let (start, goal) = (at(0, 0, 0), at(2, 2, 0));
    let mut out = [Cell([0xA5; 16]); 4];
    let found = astar(
        &start,
        &goal,
        &flags,
        Rule::Avoiding,
        &mut workspace,
        &mut out,
    )
    .unwrap();
    let claim = found.claim(start, goal);
    assert_eq!(found.cells, [start, at(1, 1, -1), goal]);
    assert_eq!(
        route_verdict(&claim, &flags, Rule::Avoiding),
        Verdict::Accepted
    );
    assert_eq!(out[3], Cell([0xA5; 16]));

    let found = astar_with_limit(
        &start,
        &goal,
        &flags,
        Rule::Free,
        3,
        &mut workspace,
        &mut out,
    )
    .unwrap();
    assert_eq!((found.cells[1], found.expansions), (at(1, 1, 1), 3));
    // Equal ends are a route, though blocked.
    let here = at(1, 1, 1);
    let found = astar(
        &here,
        &here,
        &flags,
        Rule::Avoiding,
        &mut workspace,
        &mut out,
    )
    .unwrap();
    assert_eq!(
        found,
        Route {
            cells: &[here],
            cost: 0.0,
            expansions: 0
        }
    );
    assert_eq!(
        (known, waiting),
        (
            [0; SearchWorkspace::known_bytes(60) + 3],
            [0; SearchWorkspace::waiting_bytes(60)]
        )
    );
}
