//! The reading of survey files that the library is compared with, held to files worked out by hand;
//! and what the random files are, so that none of the tests of a file goes unseen. Run by tests/run.

use compare::layers::calls::{Call, Request};
use compare::layers::expected::expected;
use compare::layers::random;
use compare::layers::survey::{head, sections, Fault};
use compare::lent::Answer;
use compare::random::Random;
use std::collections::BTreeMap;

const BAD_FILE: u32 = 12;
const NO_ROOM: u32 = 10;

/// A file of these cells; what is kept of each is the number of its record.
fn file(flags: &[u128], values: &[u128]) -> Vec<u8> {
    let mut file = head(flags.len(), values.len());
    for (place, id) in flags.iter().enumerate() {
        file.extend(id.to_be_bytes());
        file.extend((place as u32).to_be_bytes());
    }
    for (place, id) in values.iter().enumerate() {
        file.extend(id.to_be_bytes());
        file.extend((place as u64).to_be_bytes());
    }
    file
}

/// A load into tables with room for so many records, and counts 7 and 8.
fn load(file: &[u8], [flags, values]: [usize; 2]) -> Answer {
    let tables = [vec![0xA5; 20 * flags], vec![0xA5; 24 * values]];
    let request = Request::new(Call::Load, &[7, 8], &[file, &tables[0], &tables[1]]);
    let answer = expected(&request);
    assert_eq!(answer.buffers[0], file);
    if answer.refusal.number != 0 {
        assert_eq!(answer.values[1..3], [7, 8]);
        assert_eq!(answer.buffers[1..], tables);
    }
    answer
}

fn refused_at(file: &[u8], rooms: [usize; 2], place: u64) {
    let answer = load(file, rooms);
    assert_eq!((answer.refusal.number, answer.values[0]), (BAD_FILE, place));
}

fn no_room(file: &[u8], rooms: [usize; 2]) {
    let refusal = load(file, rooms).refusal;
    assert_eq!((refusal.number, refusal.room), (NO_ROOM, 4));
}

#[test]
fn records_that_do_not_ascend() {
    let room = [4, 4];
    for (flags, values, place) in [
        (&[5, 5][..], &[][..], 36),
        (&[5, 4], &[], 36),
        (&[1, 3, 2], &[], 56),
        (&[1, 3, 2, 1], &[], 56),
        (&[], &[7, 7], 40),
        (&[1], &[2, 1], 60),
        (&[2, 1], &[2, 1], 36),
        (&[1 << 127, 0], &[], 36),
    ] {
        refused_at(&file(flags, values), room, place);
        // Before the room.
        refused_at(&file(flags, values), [0, 0], place);
    }
    refused_at(&file(&[1], &[2, 1]), [0, 2], 60);
    let mut least: Vec<u128> = (0..1024).collect();
    no_room(&file(&least, &[]), [1023, 0]);
    least[1023] = 1022;
    refused_at(&file(&least, &[]), [1024, 0], 20476);
}

#[test]
fn the_length_before_the_order() {
    let twice = file(&[5, 5], &[]);
    refused_at(&[&twice[..], &[0]].concat(), [4, 4], 56);
    refused_at(&twice[..55], [4, 4], 55);
}

#[test]
fn records_that_ascend() {
    let signs = load(&file(&[0, 1 << 127], &[]), [2, 0]);
    assert_eq!((signs.refusal.number, signs.values[1]), (0, 2));

    let each = file(&[9], &[9]);
    let answer = load(&each, [2, 3]);
    assert_eq!(answer.refusal.number, 0);
    assert_eq!(answer.values[..3], [0, 1, 1]);
    assert_eq!(answer.buffers[1], [&each[16..36], &[0; 20]].concat());
    assert_eq!(answer.buffers[2], [&each[36..], &[0; 48]].concat());
    for rooms in [[0, 3], [2, 0]] {
        no_room(&each, rooms);
    }
}

/// Where in a section the first record stands that is not above the one before it, in words.
fn first_fault(section: &[u8], width: usize) -> Option<String> {
    let ids: Vec<&[u8]> = section.chunks(width).map(|record| &record[..16]).collect();
    let place = (1..ids.len()).find(|&place| ids[place - 1] >= ids[place])?;
    let how = match ids[place - 1] == ids[place] {
        true => "equal",
        false => "a fall",
    };
    let last = ids.len() - 1;
    Some(match place {
        _ if last < 3 => "few".to_string(),
        1 => format!("{how} in the first two"),
        _ if place == last => format!("{how} in the last two"),
        _ => format!("{how} between"),
    })
}

/// All that can be said of a load's file and tables.
fn kinds(request: &Request) -> Vec<String> {
    let [file, flag_table, value_table] = &request.buffers[..] else {
        unreachable!()
    };
    let mut kinds = Vec::new();
    let head = match sections(file) {
        Err((Fault::Head, place)) if place < 16 => return vec!["a bad head".to_string()],
        Err((Fault::Head, _)) => "a wrong length",
        _ => "a right length",
    };
    // Up to its length the head is right.
    let half = |at: usize| usize::from(u16::from_be_bytes([file[at], file[at + 1]]));
    let [flags, values] = [half(2), half(4)];
    let middle = (16 + 20 * flags).min(file.len());
    let short = (file.len() - middle) % 24;
    let room = match (
        flag_table.len() / 20 < flags,
        value_table.len() / 24 < values,
    ) {
        (false, false) => "room",
        (true, _) => "no room for flags",
        (_, true) => "no room for values",
    };
    let faults = [
        first_fault(&file[16..middle - (middle - 16) % 20], 20),
        first_fault(&file[middle..file.len() - short], 24),
    ];
    match &faults {
        [None, None] => kinds.push(format!("ascending, {head}, {room}")),
        [Some(_), Some(_)] => kinds.push(format!("both, {head}, {room}")),
        [Some(_), None] => kinds.push(format!("flags, {head}, {room}")),
        [None, Some(_)] => kinds.push(format!("values, {head}, {room}")),
    }
    if head == "a right length" {
        for (fault, section) in faults.iter().zip(["flags", "values"]) {
            kinds.extend(fault.iter().map(|fault| format!("{section}: {fault}")));
        }
        if faults.iter().any(Option::is_some) && flags.max(values) >= 1000 {
            kinds.push("a thousand that do not ascend".to_string());
        }
        if faults == [None, None] && flags.max(values) == 1024 {
            kinds.push("1,024 that ascend".to_string());
        }
    }
    kinds
}

/// Of 50,000 random loads each kind comes at least 20 times, and more than half can be loaded but for
/// their rooms.
#[test]
fn random_files() {
    const LOADS: usize = 50_000;
    let mut random = Random::new(1);
    let mut came: BTreeMap<String, usize> = BTreeMap::new();
    let mut ascending = 0;
    for _ in 0..LOADS {
        let request = random::load(&mut random);
        ascending += usize::from(sections(&request.buffers[0]).is_ok());
        for kind in kinds(&request) {
            *came.entry(kind).or_default() += 1;
        }
    }
    println!("{ascending} of {LOADS} ascend; {came:#?}");
    assert!(2 * ascending > LOADS, "{ascending} of {LOADS} ascend");

    let mut wanted = [
        "a bad head",
        "a thousand that do not ascend",
        "1,024 that ascend",
    ]
    .map(String::from)
    .to_vec();
    for order in ["ascending", "flags", "values", "both"] {
        for head in ["a right length", "a wrong length"] {
            for room in ["room", "no room for flags", "no room for values"] {
                wanted.push(format!("{order}, {head}, {room}"));
            }
        }
    }
    for section in ["flags", "values"] {
        for how in ["equal", "a fall"] {
            for place in ["in the first two", "between", "in the last two"] {
                wanted.push(format!("{section}: {how} {place}"));
            }
        }
    }
    for kind in wanted {
        let times = came.get(&kind).copied().unwrap_or(0);
        assert!(times >= 20, "{kind}: {times}");
    }
}
