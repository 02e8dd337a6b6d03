//! Labels by BIP 350, by BIP 173 where that points there, and by document 02, [1]. It shares no code with
//! the library or with oracle/bech32. The BIPs are not at hand and are quoted from memory: what holds
//! this to them are their published strings and their polynomial, in tests/labels.rs.

#![allow(deprecated)]

use crate::expected::{
    LABEL_CHARACTER, LABEL_CHECKSUM, LABEL_LENGTH, LABEL_MIXED_CASE, LABEL_PADDING, LABEL_PREFIX,
};
use oracle::id::CellID;

/// A refusal's number and its place.
#[derive(Debug, Clone, Copy, PartialEq, Eq)]
pub struct Fault {
    pub number: u32,
    pub place: u64,
}

/// BIP 173's table of characters, by their values.
pub const CHARSET: &[u8; 32] = b"qpzry9x8gf2tvdw0s3jn54khce6mua7l";

/// BIP 350's constant, and BIP 173's.
pub const BECH32M: u32 = 0x2bc830a3;
pub const BECH32: u32 = 1;

/// "A label is 37 characters, `cx3d1` first".
const PREFIX: &[u8] = b"cx3d";
const FIRST: &[u8; 5] = b"cx3d1";
pub const LABEL: usize = 37;
const CHECKSUM: usize = 6;

// ---- the checksum, line by line as BIP 173 writes it in Python

fn bech32_polymod(values: impl Iterator<Item = u8>) -> u32 {
    const GEN: [u32; 5] = [0x3b6a57b2, 0x26508e6d, 0x1ea119fa, 0x3d4233dd, 0x2a1462b3];
    let mut chk: u32 = 1;
    for v in values {
        let b = chk >> 25;
        chk = (chk & 0x1ffffff) << 5 ^ u32::from(v);
        for (i, gen) in GEN.iter().enumerate() {
            chk ^= if (b >> i) & 1 == 1 { *gen } else { 0 };
        }
    }
    chk
}

fn bech32_hrp_expand(hrp: &[u8]) -> Vec<u8> {
    let high = hrp.iter().map(|x| x >> 5);
    let low = hrp.iter().map(|x| x & 31);
    high.chain([0]).chain(low).collect()
}

/// The number that a string's checksum comes to: one of the two constants where it is right.
fn comes_to(hrp: &[u8], data: &[u8]) -> u32 {
    bech32_polymod(
        bech32_hrp_expand(hrp)
            .into_iter()
            .chain(data.iter().copied()),
    )
}

fn create_checksum(hrp: &[u8], data: &[u8], constant: u32) -> [u8; CHECKSUM] {
    let polymod = comes_to(hrp, &[data, &[0; CHECKSUM]].concat()) ^ constant;
    std::array::from_fn(|i| ((polymod >> (5 * (5 - i))) & 31) as u8)
}

/// The string of a prefix in lower case and values, with the checksum of this constant behind them.
pub fn string(hrp: &[u8], values: &[u8], constant: u32) -> Vec<u8> {
    let checksum = create_checksum(hrp, values, constant);
    let characters = values.iter().chain(&checksum);
    let characters = characters.map(|&value| CHARSET[usize::from(value)]);
    hrp.iter()
        .copied()
        .chain([b'1'])
        .chain(characters)
        .collect()
}

/// The value of a character; none where the table has it in neither case.
fn value(character: u8) -> Option<u8> {
    let lower = character.to_ascii_lowercase();
    let place = CHARSET.iter().position(|&one| one == lower)?;
    Some(place as u8)
}

/// Whether two letters are of different cases.
fn unlike(one: u8, other: u8) -> bool {
    one.is_ascii_lowercase() && other.is_ascii_uppercase()
        || one.is_ascii_uppercase() && other.is_ascii_lowercase()
}

/// Whether a string of any prefix is valid by BIP 350: "at most 90 characters long" and made of a
/// prefix of "1 to 83 US-ASCII characters, with each character having a value in the range [33-126]",
/// "the separator, which is always 1. In case 1 is allowed inside the human-readable part, the last one
/// in the string is the separator", and "the data part, which is at least 6 characters long"; "decoders
/// MUST NOT accept strings where some characters are uppercase and some are lowercase".
pub fn is_valid(string: &[u8]) -> bool {
    if string.len() > 90 || string.iter().any(|byte| !(33..=126).contains(byte)) {
        return false;
    }
    if mixed(string).is_some() {
        return false;
    }
    let lower = string.to_ascii_lowercase();
    let Some(separator) = lower.iter().rposition(|&byte| byte == b'1') else {
        return false;
    };
    let (hrp, data) = (&lower[..separator], &lower[separator + 1..]);
    let Some(values) = data
        .iter()
        .map(|&byte| value(byte))
        .collect::<Option<Vec<u8>>>()
    else {
        return false;
    };
    (1..=83).contains(&hrp.len()) && values.len() >= CHECKSUM && comes_to(hrp, &values) == BECH32M
}

// ---- labels

/// A cell's 128 bits, the first one first, and these two behind them, five bits a value.
pub fn values(cell: [u8; 16], padding: u8) -> Vec<u8> {
    let bits = cell
        .iter()
        .flat_map(|byte| (0..8).rev().map(move |place| byte >> place & 1))
        .chain([padding >> 1 & 1, padding & 1]);
    let bits: Vec<u8> = bits.collect();
    let five = |five: &[u8]| five.iter().fold(0, |value, bit| 2 * value + bit);
    bits.chunks_exact(5).map(five).collect()
}

/// The bits of values, and the cell of the first 128 of them.
fn bits(values: &[u8]) -> Vec<u8> {
    let of = |value: &u8| [4, 3, 2, 1, 0].map(|place| value >> place & 1);
    values.iter().flat_map(of).collect()
}

fn cell(bits: &[u8]) -> [u8; 16] {
    std::array::from_fn(|byte| {
        let eight = &bits[8 * byte..8 * byte + 8];
        eight.iter().fold(0, |byte, bit| 2 * byte + bit)
    })
}

/// "by BIP 350 over the 16 big-endian bytes".
pub fn write(cell: [u8; 16]) -> Vec<u8> {
    string(PREFIX, &values(cell, 0), BECH32M)
}

/// "31: the first letter unlike those before it".
fn mixed(label: &[u8]) -> Option<usize> {
    (0..label.len()).find(|&place| {
        label[..place]
            .iter()
            .any(|&before| unlike(before, label[place]))
    })
}

/// "A refusal gives the place, from 0, of the first offending character (31: the first letter unlike
/// those before it; 35: place 30), or the string's length for 33, 34 and a prefix cut short." "30 for
/// the prefix, 31 mixed case, 32 character, 33 length, 34 checksum, 35 non-zero padding, in that order."
pub fn read(label: &[u8]) -> Result<[u8; 16], Fault> {
    let fault = |number, place: usize| Fault {
        number,
        place: place as u64,
    };
    let expected =
        |place: usize| label.get(place).map(u8::to_ascii_lowercase) == Some(FIRST[place]);
    if let Some(place) = (0..FIRST.len()).find(|&place| !expected(place)) {
        return Err(fault(LABEL_PREFIX, place));
    }
    if let Some(place) = mixed(label) {
        return Err(fault(LABEL_MIXED_CASE, place));
    }
    let is_unknown = |&place: &usize| value(label[place]).is_none();
    if let Some(place) = (FIRST.len()..label.len()).find(is_unknown) {
        return Err(fault(LABEL_CHARACTER, place));
    }
    if label.len() != LABEL {
        return Err(fault(LABEL_LENGTH, label.len()));
    }
    let data: Vec<u8> = label[FIRST.len()..]
        .iter()
        .filter_map(|&byte| value(byte))
        .collect();
    if comes_to(PREFIX, &data) != BECH32M {
        return Err(fault(LABEL_CHECKSUM, label.len()));
    }
    let bits = bits(&data[..data.len() - CHECKSUM]);
    if bits[128..] != [0, 0] {
        return Err(fault(LABEL_PADDING, 30));
    }
    Ok(cell(&bits))
}

// ---- the Rust beside it

/// What the Rust reads, by the differences that docs/DIFFERENCES.md names: lower case alone, either
/// constant, 26 or 27 values, and what stands behind the 128 bits untested.
fn by_the_differences(label: &[u8]) -> Option<[u8; 16]> {
    let data = label.strip_prefix(FIRST)?;
    if data.iter().any(u8::is_ascii_uppercase) || ![LABEL, LABEL + 1].contains(&label.len()) {
        return None;
    }
    let data: Vec<u8> = data
        .iter()
        .map(|&byte| value(byte))
        .collect::<Option<_>>()?;
    let right = [BECH32M, BECH32].contains(&comes_to(PREFIX, &data));
    right.then(|| cell(&bits(&data[..data.len() - CHECKSUM])))
}

/// The Rust writes this label of the cell.
pub fn agrees_in_writing(cell: [u8; 16], label: &[u8]) -> bool {
    let said = CellID::from_bytes(cell).to_bech32m();
    said.is_ok_and(|text| text.as_bytes() == label)
}

/// The Rust reads the label as its differences say. It takes no bytes that are not UTF-8.
pub fn agrees_in_reading(label: &[u8]) -> bool {
    let Ok(text) = std::str::from_utf8(label) else {
        return true;
    };
    let said = CellID::from_bech32m(text).ok();
    said.map(|cell| cell.to_bytes()) == by_the_differences(label)
}
