//! Labels to be read: right ones of many cells, and each way to mistype one. Cells to be written stand
//! in the inputs of every call on a cell.

use super::reading::{string, values, write, BECH32, BECH32M, CHARSET, LABEL};
use crate::calls::{Call, Request, LONGEST_LENT};
use crate::random::Random;

type Sink<'a> = crate::side_by_side::Sink<'a, Request>;

const PREFIX: &[u8] = b"cx3d";

/// No string here is longer.
const LONGEST: usize = 100;

fn reading(label: &[u8], sink: Sink) {
    sink(Request::cell(Call::CellFromBech32m, label));
}

/// In lower case, and in upper case.
fn in_both_cases(label: &[u8], sink: Sink) {
    reading(label, sink);
    reading(&label.to_ascii_uppercase(), sink);
}

/// Cells whose labels are mistyped in every way: all zero, all one, of mixed parity, with marks, any.
fn cells() -> Vec<[u8; 16]> {
    let mut random = Random::new(31);
    let mut cells = vec![
        [0; 16],
        [0xFF; 16],
        0x00000001_FFFFFFFF_00000001_0A5C0300u128.to_be_bytes(),
        0x0300u128.to_be_bytes(),
        (1u128 << 64 | 0xF000_0000).to_be_bytes(),
    ];
    cells.extend((0..3).map(|_| any(&mut random)));
    cells
}

fn any(random: &mut Random) -> [u8; 16] {
    (u128::from(random.next()) << 64 | u128::from(random.next())).to_be_bytes()
}

pub fn limits(sink: Sink) {
    let mut random = Random::new(30);
    every_bit(sink);
    for cell in cells() {
        let label = write(cell);
        for label in [label.clone(), label.to_ascii_uppercase()] {
            every_byte(&label, sink);
            dropped_and_doubled(&label, &mut random, sink);
            exchanged(&label, sink);
            of_both_cases(&label, sink);
            surrounded(&label, sink);
            rooms(&label, sink);
        }
        checksums(cell, sink);
    }
    prefixes(sink);
    lengths(&mut random, sink);
    // Of more labels one wrong character at each place, or two.
    for _ in 0..200 {
        let label = write(any(&mut random));
        in_both_cases(&label, sink);
        for place in 0..LABEL {
            let mut wrong = label.clone();
            wrong[place] = random.one_of(CHARSET);
            reading(&wrong, sink);
            wrong[random.below(LABEL as u64) as usize] = random.next() as u8;
            reading(&wrong, sink);
        }
    }
}

/// The labels of cells with one bit set, and with all but one.
fn every_bit(sink: Sink) {
    for bit in 0..128 {
        for raw in [1u128 << bit, !(1u128 << bit)] {
            in_both_cases(&write(raw.to_be_bytes()), sink);
        }
    }
}

fn every_byte(label: &[u8], sink: Sink) {
    for place in 0..label.len() {
        for byte in 0..=255 {
            let mut wrong = label.to_vec();
            wrong[place] = byte;
            reading(&wrong, sink);
        }
    }
}

/// One character less, one more, and the front or the end alone.
fn dropped_and_doubled(label: &[u8], random: &mut Random, sink: Sink) {
    for place in 0..label.len() {
        let (before, behind) = label.split_at(place);
        let (one, rest) = behind.split_at(1);
        reading(&[before, rest].concat(), sink);
        reading(&[before, one, one, rest].concat(), sink);
        reading(&[before, &[random.one_of(CHARSET)], behind].concat(), sink);
        reading(&[before, b"1", behind].concat(), sink);
        reading(before, sink);
        reading(behind, sink);
    }
    for byte in 0..=255 {
        reading(&[label, &[byte]].concat(), sink);
        reading(&[&[byte], label].concat(), sink);
    }
    reading(&[label, label].concat(), sink);
}

/// Every pair of characters, neighbours among them.
fn exchanged(label: &[u8], sink: Sink) {
    for one in 0..label.len() {
        for other in 0..one {
            let mut wrong = label.to_vec();
            wrong.swap(one, other);
            reading(&wrong, sink);
        }
    }
}

/// The case of one character turned, of all from one on, and of each two.
fn of_both_cases(label: &[u8], sink: Sink) {
    let turn = |byte: &mut u8| {
        if byte.is_ascii_alphabetic() {
            *byte ^= 0x20;
        }
    };
    for one in 0..label.len() {
        let mut mixed = label.to_vec();
        mixed[one..].iter_mut().for_each(turn);
        reading(&mixed, sink);
        for other in 0..=one {
            let mut mixed = label.to_vec();
            turn(&mut mixed[one]);
            if other < one {
                turn(&mut mixed[other]);
            }
            reading(&mixed, sink);
            // Before a wrong character, and behind one.
            mixed[other] = b'b';
            reading(&mixed, sink);
            mixed[one] = b'O';
            reading(&mixed, sink);
        }
    }
}

/// What an editor leaves around a label.
fn surrounded(label: &[u8], sink: Sink) {
    for around in [
        &b" "[..],
        b"\n",
        b"\r\n",
        b"\t",
        b"\0",
        b"\"",
        b"\xEF\xBB\xBF",
        b"\xC2\xA0",
    ] {
        reading(&[around, label].concat(), sink);
        reading(&[label, around].concat(), sink);
        reading(&[around, label, around].concat(), sink);
    }
}

/// Outputs around the cell's 16 bytes, of a label and of each refusal; and where a buffer is lent as NULL.
fn rooms(label: &[u8], sink: Sink) {
    let mut wrong = vec![label.to_vec(), Vec::new(), label[..36].to_vec()];
    for (place, byte) in [(2, b'e'), (12, b'b'), (36, b'1'), (36, label[36] ^ 0x20)] {
        let mut one = label.to_vec();
        one[place] = byte;
        wrong.push(one);
    }
    for label in wrong {
        for room in 0..=40 {
            for null in [false, true] {
                for fill in [0x00, 0xA5, 0xFF] {
                    let request = Request::cell(Call::CellFromBech32m, &label).room(room);
                    sink(Request {
                        null,
                        fill,
                        ..request
                    });
                }
            }
        }
    }
}

/// Right checksums of the wrong kind or over the wrong bits, and wrong ones over them.
fn checksums(cell: [u8; 16], sink: Sink) {
    for padding in 0..4 {
        for constant in [BECH32M, BECH32, 0, BECH32M ^ 1, 0x3fff_ffff] {
            let label = string(PREFIX, &values(cell, padding), constant);
            in_both_cases(&label, sink);
            for place in 30..LABEL {
                let mut wrong = label.clone();
                wrong[place] = if wrong[place] == b'q' { b'p' } else { b'q' };
                reading(&wrong, sink);
            }
            // The checksum alone in another case.
            let mut mixed = label.clone();
            mixed[31..].make_ascii_uppercase();
            reading(&mixed, sink);
        }
    }
    for prefix in [
        &b"cx3"[..],
        b"cx3d1",
        b"cx3e",
        b"dx3d",
        b"c",
        b"cx3dd",
        b"cx3d1qqq",
    ] {
        for constant in [BECH32M, BECH32] {
            in_both_cases(&string(prefix, &values(cell, 0), constant), sink);
        }
    }
}

/// Every beginning in every mixture of cases, cut short and before a whole label.
fn prefixes(sink: Sink) {
    let rest = &write([0; 16])[5..];
    for cases in 0..1u8 << 5 {
        let mut first = *b"cx3d1";
        for (place, byte) in first.iter_mut().enumerate() {
            if cases >> place & 1 == 1 {
                byte.make_ascii_uppercase();
            }
        }
        for length in 0..=5 {
            reading(&first[..length], sink);
            for byte in 0..=255 {
                reading(&[&first[..length], &[byte]].concat(), sink);
            }
        }
        reading(&[&first[..], rest].concat(), sink);
        reading(&[&first[..], &rest.to_ascii_uppercase()].concat(), sink);
    }
    // Valid by BIP 350 with another prefix: the last 1 separates.
    for label in [
        "cx3d11qqqqqqqqqqqqqqqqqqqqqqqqqyssm7c",
        "cx3d1qqqqqqqqqqqqqqqqqqqqqqqqq1xq64ja",
    ] {
        in_both_cases(label.as_bytes(), sink);
    }
}

/// Strings of every length, behind a right beginning and not, with and without a right checksum.
fn lengths(random: &mut Random, sink: Sink) {
    for length in 0..=LONGEST {
        for _ in 0..8 {
            let characters: Vec<u8> = (0..length).map(|_| random.one_of(CHARSET)).collect();
            let bytes: Vec<u8> = (0..length).map(|_| random.next() as u8).collect();
            let printed: Vec<u8> = (0..length).map(|_| 33 + random.below(94) as u8).collect();
            for text in [characters, bytes, printed] {
                in_both_cases(&text, sink);
                let mut begun = [&b"cx3d1"[..], &text].concat();
                begun.truncate(length.max(5));
                in_both_cases(&begun, sink);
            }
        }
        if length >= 11 {
            let any: Vec<u8> = (0..length - 11).map(|_| random.below(32) as u8).collect();
            for constant in [BECH32M, BECH32] {
                in_both_cases(&string(PREFIX, &any, constant), sink);
                in_both_cases(&string(PREFIX, &vec![0; length - 11], constant), sink);
            }
        }
    }
}

// ---- random inputs

/// A label, mostly mistyped.
pub fn random(random: &mut Random) -> Vec<u8> {
    let mut label = match random.below(8) {
        0 => {
            let padding = random.below(4) as u8;
            let constant = random.one_of(&[BECH32M, BECH32]);
            string(PREFIX, &values(any(random), padding), constant)
        }
        1 => {
            let any: Vec<u8> = (0..random.below(60))
                .map(|_| random.below(32) as u8)
                .collect();
            string(PREFIX, &any, random.one_of(&[BECH32M, BECH32]))
        }
        2 => write(any(random)),
        _ => write(random.cell()),
    };
    if random.below(3) == 0 {
        label.make_ascii_uppercase();
    }
    for _ in 0..random.one_of(&[0, 0, 1, 1, 1, 2, 3]) {
        mistype(&mut label, random);
    }
    label.truncate(LONGEST_LENT);
    label
}

fn mistype(label: &mut Vec<u8>, random: &mut Random) {
    let place = random.below(label.len() as u64 + 1) as usize;
    let byte = match random.below(4) {
        0 => random.next() as u8,
        1 => 33 + random.below(94) as u8,
        _ => random.one_of(CHARSET),
    };
    match random.below(8) {
        0 => label.insert(place, byte),
        1 => label.truncate(place),
        2 => label.push(byte),
        _ if place == label.len() => {}
        3 => {
            label.remove(place);
        }
        4 => {
            let other = random.below(label.len() as u64) as usize;
            label.swap(place, other);
        }
        5 if label[place].is_ascii_alphabetic() => label[place] ^= 0x20,
        _ => label[place] = byte,
    }
}
