//! Each refusal that can be provoked through this crate, and that it leaves what was lent.
//! (Not BadRule: a `Rule` is one of the two. Not BadLayer but by `Layer::over`.)

use tishkolan::*;

fn at(x: i32, y: i32, z: i32) -> Cell {
    Cell::from_coords(0, 3, Coord::new(x, y, z)).unwrap()
}

/// A cell of any coordinates, which no call would make.
fn mixed() -> Cell {
    let mut cell = at(0, 0, 0);
    cell.0[7] = 1;
    cell
}

const MIXED: Refusal = Refusal::InvalidParity { x: 0, y: 1, z: 0 };
const EDGE: Coord = Coord::new(2147483646, 0, 0);

#[test]
fn invalid_parity() {
    let (point, even) = (Coord::new(0, 1, 0), Coord::new(0, 0, 0));
    assert_eq!(point.parity(), Err(MIXED));
    assert_eq!(point.neighbors(), Err(MIXED));
    assert_eq!(point.children(), Err(MIXED));
    assert_eq!(point.parent(), Err(MIXED));
    assert_eq!(point.to_physical(), Err(MIXED));
    assert_eq!(point.distance(even), Err(MIXED));
    assert_eq!(even.distance(point), Err(MIXED));
    assert_eq!(even.manhattan_distance(point), Err(MIXED));
    assert_eq!(Cell::new(0, 3, point, 0, 0), Err(MIXED));
    assert_eq!(Cell::from_coords(0, 3, point), Err(MIXED));

    let cell = mixed();
    assert_eq!(cell.fields().coord, point);
    assert_eq!(cell.lattice_coord(), Err(MIXED));
    assert_eq!(cell.neighbors(), Err(MIXED));
    assert_eq!(cell.children(), Err(MIXED));
    assert_eq!(cell.parent(), Err(MIXED));
    assert_eq!(cell.ancestor(1), Err(MIXED));
    assert_eq!(cell.between(&at(0, 0, 0)), Err(MIXED));
    assert_eq!(cell.distance(&at(0, 0, 0)), Err(MIXED));
    assert_eq!(at(0, 0, 0).manhattan_distance(&cell), Err(MIXED));
    assert_eq!(
        trace_line(&cell, &at(0, 0, 0), &mut [Cell::default(); 4]),
        Err(MIXED)
    );

    // Of two, the first is told.
    let mut second = at(0, 0, 0);
    second.0[3] = 1;
    assert_eq!(cell.between(&second), Err(MIXED));
    assert_eq!(cell.distance(&second), Err(MIXED));
    assert_eq!(cell.manhattan_distance(&second), Err(MIXED));
    assert_eq!(
        trace_line(&cell, &second, &mut [Cell::default(); 4]),
        Err(MIXED)
    );
}

#[test]
fn no_parent_and_no_children() {
    let cell = |resolution| Cell::from_coords(0, resolution, Coord::new(0, 0, 0)).unwrap();
    assert_eq!(cell(0).parent(), Err(Refusal::NoParent));
    assert_eq!(cell(3).ancestor(4), Err(Refusal::NoParent));
    assert_eq!(cell(255).children(), Err(Refusal::NoChildren));
}

#[test]
fn out_of_range() {
    for value in [-0.0, 0.5, -1.0, 2f64.powi(65), f64::INFINITY, f64::NAN] {
        assert_eq!(square_root(value), Err(Refusal::OutOfRange));
    }
    assert_eq!(
        Point::new(0.0, f64::NAN, 0.0).to_lattice(0),
        Err(Refusal::OutOfRange)
    );
    assert_eq!(
        Point::new(1.0, 0.0, 0.0).to_lattice(255),
        Err(Refusal::OutOfRange)
    );
}

#[test]
fn no_values_and_nan() {
    let mut table = [0; ValueLayer::bytes(1)];
    let mut layer = ValueLayer::new(&mut table);
    assert_eq!(
        layer.aggregate(&[at(0, 0, 0)], Aggregate::Count),
        Err(Refusal::NoValues)
    );
    layer.set(&at(0, 0, 0), f64::NAN).unwrap();
    assert_eq!(layer.aggregate(&[], Aggregate::Sum), Err(Refusal::NoValues));
    assert_eq!(
        layer.aggregate(&[at(0, 0, 0)], Aggregate::Sum),
        Err(Refusal::HasNan)
    );
    assert_eq!(layer.aggregate(&[at(0, 0, 0)], Aggregate::Count), Ok(1.0));

    let mut coarse_table = [0xA5; ValueLayer::bytes(1)];
    let mut coarse = ValueLayer::new(&mut coarse_table);
    coarse.set(&at(2, 2, 2), 1.0).unwrap();
    assert_eq!(
        layer.rollup(Aggregate::Sum, &mut coarse),
        Err(Refusal::HasNan)
    );
    assert_eq!(coarse.get(&at(2, 2, 2)), Ok(Some(1.0)));
}

#[test]
fn coord_overflow() {
    let (edge, lowest) = (EDGE, Coord::new(i32::MIN, 0, 0));
    assert_eq!(edge.neighbors(), Err(Refusal::CoordOverflow));
    assert_eq!(edge.children(), Err(Refusal::CoordOverflow));
    assert_eq!(edge.distance(lowest), Err(Refusal::CoordOverflow));
    assert_eq!(edge.manhattan_distance(lowest), Err(Refusal::CoordOverflow));
    // The first less the second is what must fit, and the first is tested first.
    let (zero, other) = (Coord::new(0, 0, 0), Coord::new(1, 0, 0));
    assert_eq!(lowest.distance(zero), Ok(2147483648.0));
    assert_eq!(zero.distance(lowest), Err(Refusal::CoordOverflow));
    assert_eq!(Coord::new(0, 1, 0).distance(other), Err(MIXED));
    assert_eq!(Coord::new(0, 1, 0).manhattan_distance(other), Err(MIXED));
    let (edge, lowest) = (at(edge.x, 0, 0), at(lowest.x, 0, 0));
    assert_eq!(edge.neighbors(), Err(Refusal::CoordOverflow));
    assert_eq!(edge.children(), Err(Refusal::CoordOverflow));
    assert_eq!(edge.between(&lowest), Err(Refusal::CoordOverflow));
    assert_eq!(edge.distance(&lowest), Err(Refusal::CoordOverflow));
    assert_eq!(lowest.distance(&at(0, 0, 0)), Ok(2147483648.0));
    assert_eq!(at(0, 0, 0).distance(&lowest), Err(Refusal::CoordOverflow));
    assert_eq!(
        edge.manhattan_distance(&lowest),
        Err(Refusal::CoordOverflow)
    );
    assert_eq!(
        trace_line(&lowest, &edge, &mut [Cell::default(); 4]),
        Err(Refusal::CoordOverflow)
    );
}

#[test]
fn no_room_in_layers() {
    let mut table = [0; FlagLayer::bytes(2) + 19];
    let mut layer = FlagLayer::new(&mut table);
    layer.set(&at(0, 0, 0), Flags::BLOCKED).unwrap();
    layer.set(&at(2, 0, 0), Flags::BLOCKED).unwrap();
    assert_eq!(
        layer.set(&at(4, 0, 0), Flags::BLOCKED),
        Err(Refusal::NoRoom(Room::Layer))
    );
    assert_eq!(
        (layer.count(), layer.contains(&at(4, 0, 0))),
        (Ok(2), Ok(false))
    );
    assert_eq!(layer.set(&at(2, 0, 0), Flags::NONE), Ok(()));
    assert!(matches!(
        layer.list(&mut [0; 39]),
        Err(Refusal::NoRoom(Room::Output))
    ));

    // The most cells of a layer, in a longer table.
    let mut table = vec![0; ValueLayer::bytes(MOST_CELLS + 1)];
    let mut layer = ValueLayer::new(&mut table);
    for x in 0..MOST_CELLS as i32 {
        layer.set(&at(2 * x, 0, 0), 1.0).unwrap();
    }
    assert_eq!(
        layer.set(&at(-2, 0, 0), 1.0),
        Err(Refusal::NoRoom(Room::Layer))
    );
    let mut coarse_table = [0xA5; ValueLayer::bytes(1)];
    let mut coarse = ValueLayer::new(&mut coarse_table);
    assert_eq!(
        layer.rollup(Aggregate::Sum, &mut coarse),
        Err(Refusal::NoRoom(Room::Layer))
    );
    assert_eq!(coarse.count(), Ok(0));
    assert_eq!(coarse_table, [0xA5; 24]);
}

#[test]
fn bad_layer() {
    for (bytes, count) in [(19, 1), (40, 2), (40, 3), (0, 1), (20, usize::MAX)] {
        assert_eq!(
            FlagLayer::over(&mut vec![0; bytes], count).err(),
            Some(Refusal::BadLayer)
        );
    }
    assert_eq!(
        ValueLayer::over(&mut [0; 48], 2).err(),
        Some(Refusal::BadLayer)
    );
    assert_eq!(ValueLayer::over(&mut [0; 48], 1).unwrap().count(), Ok(1));
}

#[test]
fn bad_list() {
    for length in [1, 15, 17, 31] {
        assert_eq!(Cell::list(&vec![0; length]), Err(Refusal::BadList));
    }
}

/// The zero cell's label.
const ZERO: &str = "cx3d1qqqqqqqqqqqqqqqqqqqqqqqqqqchrr7t";

#[test]
fn bad_label() {
    for (label, fault, place) in [
        ("", LabelFault::Prefix, 0),
        ("cx", LabelFault::Prefix, 2),
        ("cX4d1", LabelFault::Prefix, 2),
        ("cX3d1", LabelFault::MixedCase, 1),
        (&format!("{ZERO}Q"), LabelFault::MixedCase, 37),
        (&ZERO.replace("r7", "i7"), LabelFault::Character, 34),
        (&format!("{ZERO}\n"), LabelFault::Character, 37),
        (&format!("{ZERO}\u{e9}"), LabelFault::Character, 37),
        (&ZERO[..36], LabelFault::Length, 36),
        (&format!("{ZERO}q"), LabelFault::Length, 38),
        (&ZERO.replace("r7", "s7"), LabelFault::Checksum, 37),
        (
            "cx3d1qqqqqqqqqqqqqqqqqqqqqqqqqp9phkre",
            LabelFault::Padding,
            30,
        ),
    ] {
        let refused = Refusal::BadLabel { fault, place };
        assert_eq!(Cell::from_bech32m(label), Err(refused), "{label}");
    }
    assert_eq!(
        Cell::from_bech32m([0xFF; 5]),
        Err(Refusal::BadLabel {
            fault: LabelFault::Prefix,
            place: 0
        })
    );
}

#[test]
fn bad_file() {
    let (mut flag_table, mut value_table) = ([0; FlagLayer::bytes(1)], [0; ValueLayer::bytes(1)]);
    let mut flags = FlagLayer::new(&mut flag_table);
    let mut values = ValueLayer::new(&mut value_table);
    flags.set(&at(0, 0, 0), Flags::BLOCKED).unwrap();
    let mut out = [0; survey_bytes(1, 0)];
    let right = write_survey(&flags, &values, &mut out).unwrap().to_vec();
    assert_eq!(
        write_survey(&flags, &values, &mut out[..35]),
        Err(Refusal::NoRoom(Room::Output))
    );
    values.set(&at(0, 0, 0), 1.5).unwrap();

    let longer = [&right[..], &[0]].concat();
    let changed = |place: usize| {
        let mut file = right.clone();
        file[place] ^= 0x80;
        file
    };
    for (file, place) in [
        (right[..15].to_vec(), 15),
        (right[..35].to_vec(), 35),
        (longer, 36),
        (changed(0), 0),
        (changed(2), 2),
        (changed(4), 4),
        (changed(6), 6),
        (changed(8), 8),
        (changed(12), 12),
    ] {
        assert_eq!(
            load_survey(&file, &mut flags, &mut values),
            Err(Refusal::BadFile { place })
        );
        assert_eq!(
            (flags.count(), values.get(&at(0, 0, 0))),
            (Ok(1), Ok(Some(1.5)))
        );
    }
    let mut none = FlagLayer::new(&mut []);
    assert_eq!(
        load_survey(&right, &mut none, &mut values),
        Err(Refusal::NoRoom(Room::Layer))
    );
    assert_eq!(values.get(&at(0, 0, 0)), Ok(Some(1.5)));
    assert_eq!(load_survey(&right, &mut flags, &mut values), Ok(()));
    assert_eq!(values.count(), Ok(0));
}

/// A file of these cells by their numbers; what is kept of each is 1.
fn survey(flags: &[u128], values: &[u128]) -> Vec<u8> {
    let (f, v) = (flags.len() as u16, values.len() as u16);
    let mut file: Vec<u8> = [1, f, v, 0].iter().flat_map(|h| h.to_be_bytes()).collect();
    file.extend(16_u32.to_be_bytes());
    file.extend((16 + 20 * u32::from(f)).to_be_bytes());
    for cell in flags {
        file.extend(cell.to_be_bytes());
        file.extend(1_u32.to_be_bytes());
    }
    for cell in values {
        file.extend(cell.to_be_bytes());
        file.extend(1.0_f64.to_be_bytes());
    }
    file
}

#[test]
fn files_that_do_not_ascend() {
    let numbered = |number: u128| Cell(number.to_be_bytes());
    let (mut flag_table, mut value_table) = ([0; FlagLayer::bytes(4)], [0; ValueLayer::bytes(4)]);
    let mut flags = FlagLayer::new(&mut flag_table);
    let mut values = ValueLayer::new(&mut value_table);
    flags.set(&numbered(6), Flags::WATER).unwrap();
    values.set(&numbered(8), 1.5).unwrap();
    let longer = |more: &[u8]| [&survey(&[5, 5], &[])[..], more].concat();
    for (file, place) in [
        (survey(&[5, 5], &[]), 36),
        (survey(&[5, 4], &[]), 36),
        (survey(&[1, 3, 2], &[]), 56),
        (survey(&[1, 3, 2, 1], &[]), 56),
        (survey(&[], &[7, 7]), 40),
        (survey(&[1], &[2, 1]), 60),
        (survey(&[2, 1], &[2, 1]), 36),
        (survey(&[1 << 127, 0], &[]), 36),
        // The length before the order, the order before the room.
        (longer(&[0]), 56),
        (longer(&[])[..55].to_vec(), 55),
        (survey(&[1, 2, 3, 4, 5, 5], &[]), 116),
        (survey(&[1, 2, 3, 4, 5], &[2, 1]), 140),
    ] {
        let refused = Err(Refusal::BadFile { place });
        assert_eq!(load_survey(&file, &mut flags, &mut values), refused);
        assert_eq!((flags.count(), values.count()), (Ok(1), Ok(1)));
        assert_eq!(flags.get(&numbered(6)), Ok(Some(Flags::WATER)));
        assert_eq!(values.get(&numbered(8)), Ok(Some(1.5)));
    }
    // The room is that of the counts.
    let file = survey(&[1, 2, 3, 4, 5], &[]);
    assert_eq!(
        load_survey(&file, &mut flags, &mut values),
        Err(Refusal::NoRoom(Room::Layer))
    );
    assert_eq!((flags.count(), values.count()), (Ok(1), Ok(1)));
    for (of_flags, of_values) in [(&[0, 1 << 127][..], &[][..]), (&[9], &[9])] {
        let file = survey(of_flags, of_values);
        assert_eq!(load_survey(&file, &mut flags, &mut values), Ok(()));
        assert_eq!(
            (flags.count(), values.count()),
            (Ok(of_flags.len()), Ok(of_values.len()))
        );
        for &number in of_flags {
            assert_eq!(flags.get(&numbered(number)), Ok(Some(Flags(1))));
        }
        for &number in of_values {
            assert_eq!(values.get(&numbered(number)), Ok(Some(1.0)));
        }
    }
}

#[test]
fn lists_without_room() {
    let mut out = [Cell([0xA5; 16]); 15];
    assert_eq!(
        trace_line(&at(0, 0, 0), &at(2, 2, 0), &mut out[..2]),
        Err(Refusal::NoRoom(Room::Output))
    );

    let mut ring = |known, waiting, listed, bytes: usize| {
        let mut buffer = vec![0xA5; bytes];
        let mut workspace = RingWorkspace {
            known,
            waiting,
            buffer: &mut buffer,
        };
        let said = k_ring(&at(0, 0, 0), 1, &mut workspace, &mut out[..listed]).map(<[Cell]>::len);
        // Only BadWorkspace leaves the workspace as it was.
        let left = if said == Err(Refusal::BadWorkspace) {
            0xA5
        } else {
            0
        };
        assert!(buffer.iter().all(|byte| *byte == left));
        said
    };
    let bytes = RingWorkspace::bytes(15);
    assert_eq!(ring(14, 14, 15, bytes), Err(Refusal::NoRoom(Room::Known)));
    assert_eq!(ring(15, 13, 15, bytes), Err(Refusal::NoRoom(Room::Waiting)));
    assert_eq!(ring(15, 14, 14, bytes), Err(Refusal::NoRoom(Room::Output)));
    assert_eq!(ring(15, 14, 15, bytes - 1), Err(Refusal::BadWorkspace));
    assert_eq!(ring(0, 14, 15, bytes), Err(Refusal::BadWorkspace));
    assert_eq!(ring(15, 65537, 15, bytes), Err(Refusal::BadWorkspace));
    assert_eq!(ring(usize::MAX, 14, 15, bytes), Err(Refusal::BadWorkspace));
    assert_eq!(ring(15, 14, 15, bytes), Ok(15));

    let mut buffer = [0; RingWorkspace::bytes(4)];
    let mut workspace = RingWorkspace {
        known: 4,
        waiting: 4,
        buffer: &mut buffer,
    };
    assert_eq!(k_shell(&mixed(), 1, &mut workspace, &mut out), Err(MIXED));
    assert_eq!(
        k_shell(&at(EDGE.x, 0, 0), 1, &mut workspace, &mut out),
        Err(Refusal::CoordOverflow)
    );
}

/// A search with so many rooms, in buffers of so many bytes less than they take.
fn searched(
    (start, goal): (Cell, Cell),
    flags: &FlagLayer,
    rule: Rule,
    limit: u64,
    (known, waiting, listed): (usize, usize, usize),
    short: usize,
) -> Result<usize, Refusal> {
    let mut buffers = (
        vec![0xA5; SearchWorkspace::known_bytes(known).min(1 << 20) - short],
        vec![0xA5; SearchWorkspace::waiting_bytes(waiting).min(1 << 20)],
    );
    let mut workspace = SearchWorkspace {
        known,
        waiting,
        known_buffer: &mut buffers.0,
        waiting_buffer: &mut buffers.1,
    };
    let mut out = vec![Cell([0xA5; 16]); listed];
    let said = astar_with_limit(&start, &goal, flags, rule, limit, &mut workspace, &mut out)
        .map(|found| found.cells.len());
    let left = if said == Err(Refusal::BadWorkspace) {
        0xA5
    } else {
        0
    };
    assert!(buffers.0.iter().chain(&buffers.1).all(|byte| *byte == left));
    if said.is_err() {
        assert!(out.iter().all(|cell| *cell == Cell([0xA5; 16])));
    }
    said
}

#[test]
fn searches_that_find_nothing() {
    let (start, goal) = (at(0, 0, 0), at(2, 2, 0));
    let mut table = vec![0; FlagLayer::bytes(14)];
    let mut flags = FlagLayer::new(&mut table);
    let asked = |rooms, short| {
        searched(
            (start, goal),
            &FlagLayer::new(&mut []),
            Rule::Free,
            100,
            rooms,
            short,
        )
    };

    assert_eq!(asked((100, 100, 3), 0), Ok(3));
    assert_eq!(asked((100, 100, 2), 0), Err(Refusal::NoRoom(Room::Output)));
    assert_eq!(asked((2, 100, 3), 0), Err(Refusal::NoRoom(Room::Known)));
    assert_eq!(asked((100, 2, 3), 0), Err(Refusal::NoRoom(Room::Waiting)));
    assert_eq!(asked((100, 100, 3), 1), Err(Refusal::BadWorkspace));
    assert_eq!(asked((0, 100, 3), 0), Err(Refusal::BadWorkspace));
    assert_eq!(asked((100, 65537, 3), 0), Err(Refusal::BadWorkspace));
    assert_eq!(asked((usize::MAX, 100, 3), 0), Err(Refusal::BadWorkspace));

    let between = |ends| {
        searched(
            ends,
            &FlagLayer::new(&mut []),
            Rule::Avoiding,
            1,
            (50, 50, 3),
            0,
        )
    };
    assert_eq!(
        between((start, goal)),
        Err(Refusal::SearchLimitExceeded {
            expansions: 2,
            limit: 1
        })
    );
    assert_eq!(between((mixed(), goal)), Err(MIXED));
    assert_eq!(between((start, mixed())), Err(MIXED));
    assert_eq!(
        between((at(EDGE.x, 0, 0), at(-4, 0, 0))),
        Err(Refusal::CoordOverflow)
    );

    // A start that is shut in, of a cell that is not plain: the refusal carries all of its bits.
    for near in start.neighbors().unwrap() {
        flags.set(&near, Flags::BLOCKED).unwrap();
    }
    let shut = Cell::new(0, 3, Coord::new(0, 0, 0), 3, 0xF1).unwrap();
    let refused = searched((shut, goal), &flags, Rule::Avoiding, 100, (50, 50, 3), 0).unwrap_err();
    assert_eq!(refused, Refusal::NoPathFound { start: shut, goal });
    assert_eq!(
        refused.to_string(),
        "there is no route from Cell(0000000000000000000000000F130300) to Cell(00000000000000020000000200000300)"
    );
    assert_eq!(
        searched((shut, goal), &flags, Rule::Free, 100, (100, 100, 3), 0),
        Ok(3)
    );
}

#[test]
fn numbers_and_words() {
    let all = [
        MIXED,
        Refusal::NoParent,
        Refusal::NoChildren,
        Refusal::OutOfRange,
        Refusal::NoValues,
        Refusal::HasNan,
        Refusal::SearchLimitExceeded {
            expansions: 3,
            limit: 2,
        },
        Refusal::NoPathFound {
            start: mixed(),
            goal: mixed(),
        },
        Refusal::CoordOverflow,
        Refusal::NoRoom(Room::Output),
        Refusal::BadWorkspace,
        Refusal::BadFile { place: 12 },
        Refusal::BadList,
        Refusal::BadLayer,
        Refusal::BadRule,
    ];
    let faults = [
        LabelFault::Prefix,
        LabelFault::MixedCase,
        LabelFault::Character,
        LabelFault::Length,
        LabelFault::Checksum,
        LabelFault::Padding,
    ];
    let labels = faults.map(|fault| Refusal::BadLabel { fault, place: 9 });
    for (number, refusal) in (1..).zip(all).chain((30..).zip(labels)) {
        assert_eq!(refusal.number(), number);
        let words: Box<dyn std::error::Error> = refusal.into();
        assert!(!words.to_string().is_empty());
    }
}
