//! A stand-in for the crate bech32, 0.10 or 0.11, so that id.rs runs unchanged: the crate itself is not
//! here, and neither is its documentation. Written by BIP 350, with BIP 173 where that points there, and
//! by what is known of that documentation where it says more or less than they do:
//!
//! - [`decode`] takes a checksum of Bech32m or of Bech32;
//! - a prefix keeps its case, so that of an upper-case string is in upper case;
//! - values become bytes as far as they reach, and the bits behind the last byte are dropped untested.
//!
//! How long a string may be is not tested: id.rs asks for 16 bytes behind `cx3d`, which 26 and 27 values
//! have, and no others.

/// What a string is written with: the constant of its checksum.
pub trait Checksum {
    const CONSTANT: u32;
}

pub struct Bech32m;

pub struct Bech32;

impl Checksum for Bech32m {
    const CONSTANT: u32 = 0x2bc8_30a3;
}

impl Checksum for Bech32 {
    const CONSTANT: u32 = 1;
}

/// A prefix, the human-readable part, as it was given.
#[derive(Debug)]
pub struct Hrp(String);

impl Hrp {
    pub fn parse(text: &str) -> Result<Hrp, &'static str> {
        if text.is_empty() || text.len() > 83 {
            return Err("the prefix does not have 1 to 83 characters");
        }
        if !text.bytes().all(|byte| (33..=126).contains(&byte)) {
            return Err("a character of the prefix is not from 33 to 126");
        }
        if is_mixed(text) {
            return Err("the prefix is of both cases");
        }
        Ok(Hrp(text.to_string()))
    }

    pub fn as_str(&self) -> &str {
        &self.0
    }
}

const CHARSET: &[u8; 32] = b"qpzry9x8gf2tvdw0s3jn54khce6mua7l";

const CHECKSUM: usize = 6;

fn is_mixed(text: &str) -> bool {
    text.bytes().any(|byte| byte.is_ascii_lowercase())
        && text.bytes().any(|byte| byte.is_ascii_uppercase())
}

fn polymod(values: &[u8]) -> u32 {
    const GENERATOR: [u32; 5] = [
        0x3b6a_57b2,
        0x2650_8e6d,
        0x1ea1_19fa,
        0x3d42_33dd,
        0x2a14_62b3,
    ];
    values.iter().fold(1, |sum, &value| {
        let mut next = (sum & 0x1ff_ffff) << 5 ^ u32::from(value);
        for (place, generator) in GENERATOR.iter().enumerate() {
            if sum >> 25 >> place & 1 == 1 {
                next ^= generator;
            }
        }
        next
    })
}

/// The values of the prefix, in lower case, and those behind it.
fn expanded(hrp: &Hrp, values: &[u8]) -> Vec<u8> {
    let prefix = hrp.0.to_ascii_lowercase();
    let high = prefix.bytes().map(|byte| byte >> 5);
    let low = prefix.bytes().map(|byte| byte & 31);
    let behind = values.iter().copied();
    high.chain([0]).chain(low).chain(behind).collect()
}

/// Bits in other groups: `from` bits each, then `to`. The last group is filled up with zeros, or where
/// `fill` is not set it is dropped.
fn regrouped(groups: &[u8], from: u32, to: u32, fill: bool) -> Vec<u8> {
    let mut out = Vec::new();
    let (mut held, mut bits) = (0u32, 0);
    for &group in groups {
        held = (held << from | u32::from(group)) & 0xfff;
        bits += from;
        while bits >= to {
            bits -= to;
            out.push((held >> bits & ((1 << to) - 1)) as u8);
        }
    }
    if fill && bits > 0 {
        out.push((held << (to - bits) & ((1 << to) - 1)) as u8);
    }
    out
}

/// The string of these bytes, in lower case.
pub fn encode<Ck: Checksum>(hrp: Hrp, data: &[u8]) -> Result<String, &'static str> {
    let mut values = regrouped(data, 8, 5, true);
    let mut whole = expanded(&hrp, &values);
    whole.extend([0; CHECKSUM]);
    let sum = polymod(&whole) ^ Ck::CONSTANT;
    values.extend(
        (0..CHECKSUM)
            .rev()
            .map(|place| (sum >> (5 * place) & 31) as u8),
    );
    let mut text = hrp.0.to_ascii_lowercase();
    text.push('1');
    text.extend(
        values
            .iter()
            .map(|&value| char::from(CHARSET[usize::from(value)])),
    );
    Ok(text)
}

/// The prefix and the bytes of a string.
pub fn decode(text: &str) -> Result<(Hrp, Vec<u8>), &'static str> {
    let (prefix, data) = text.rsplit_once('1').ok_or("there is no separator")?;
    if is_mixed(text) {
        return Err("the string is of both cases");
    }
    let hrp = Hrp::parse(prefix)?;
    let value = |byte: u8| {
        let place = CHARSET
            .iter()
            .position(|&one| one == byte.to_ascii_lowercase());
        place.map(|place| place as u8)
    };
    let values: Option<Vec<u8>> = data.bytes().map(value).collect();
    let values = values.ok_or("a character is not of the charset")?;
    if values.len() < CHECKSUM {
        return Err("the checksum is cut short");
    }
    let sum = polymod(&expanded(&hrp, &values));
    if sum != Bech32m::CONSTANT && sum != Bech32::CONSTANT {
        return Err("the checksum is wrong");
    }
    let bytes = regrouped(&values[..values.len() - CHECKSUM], 5, 8, false);
    Ok((hrp, bytes))
}
