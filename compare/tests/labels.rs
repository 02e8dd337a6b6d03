//! The reading of BIP 350 that the library's labels are compared with, itself held to strings that are
//! published, to labels worked out apart from it, and to the code's own polynomial. Run by tests/run.

use compare::labels::reading::{agrees_in_reading, CHARSET};
use compare::labels::reading::{is_valid, read, string, values, write, Fault, BECH32, BECH32M};
use compare::random::Random;

/// The zero cell's label.
const ZERO: &[u8; 37] = b"cx3d1qqqqqqqqqqqqqqqqqqqqqqqqqqchrr7t";

// ---- BIP 350

#[test]
fn strings_that_bip_350_calls_valid() {
    let longest = format!("11{}udsr8", "l".repeat(83));
    for text in [
        "A1LQFN3A",
        "a1lqfn3a",
        "an83characterlonghumanreadablepartthatcontainsthetheexcludedcharactersbioandnumber11sg7hg6",
        "abcdef1l7aum6echk45nj3s0wdvt2fg8x9yrzpqzd3ryx",
        &longest,
        "split1checkupstagehandshakeupstreamerranterredcaperredlc445v",
        "?1v759aa",
    ] {
        assert!(is_valid(text.as_bytes()), "{text}");
        refused_for_the_prefix(text.as_bytes());
    }
}

#[test]
fn strings_that_bip_350_calls_invalid() {
    for text in [
        &b"\x201xj0phk"[..],
        b"\x7F1g6xzxy",
        b"\x801vctc34",
        b"an84characterslonghumanreadablepartthatcontainsthetheexcludedcharactersbioandnumber11d6pts4",
        b"qyrz8wqd2c9m",
        b"1qyrz8wqd2c9m",
        b"y1b0jsk6g",
        b"lt1igcx5c0",
        b"in1muywd",
        b"mm1crxm3i",
        b"au1s5cgom",
        b"M1VUXWEZ",
        b"16plkw9",
        b"1p2gdwpf",
    ] {
        assert!(!is_valid(text), "{}", text.escape_ascii());
        refused_for_the_prefix(text);
    }
}

/// The addresses of versions 1 to 16, each with the bytes behind its version.
#[test]
fn addresses_of_bip_350() {
    for (text, program) in [
        (
            "bc1pw508d6qejxtdg4y5r3zarvary0c5xw7kw508d6qejxtdg4y5r3zarvary0c5xw7kt5nd6y",
            "751e76e8199196d454941c45d1b3a323f1433bd6751e76e8199196d454941c45d1b3a323f1433bd6",
        ),
        ("BC1SW50QGDZ25J", "751e"),
        (
            "bc1zw508d6qejxtdg4y5r3zarvaryvaxxpcs",
            "751e76e8199196d454941c45d1b3a323",
        ),
        (
            "tb1pqqqqp399et2xygdj5xreqhjjvcmzhxw4aywxecjdzew6hylgvsesf3hn0c",
            "000000c4a5cad46221b2a187905e5266362b99d5e91c6ce24d165dab93e86433",
        ),
        (
            "bc1p0xlxvlhemja6c4dqv22uapctqupfhlxm9h8z3k2e72q4k9hcz7vqzk5jj0",
            "79be667ef9dcbbac55a06295ce870b07029bfcdb2dce28d959f2815b16f81798",
        ),
    ] {
        assert!(is_valid(text.as_bytes()), "{text}");
        refused_for_the_prefix(text.as_bytes());
        let lower = text.to_lowercase();
        let (prefix, data) = lower.rsplit_once('1').unwrap();
        let data: Vec<u8> = data.bytes().map(place).collect();
        let data = &data[..data.len() - 6];
        assert_eq!(bytes(&data[1..]), program);
        // Written anew.
        assert_eq!(string(prefix.as_bytes(), data, BECH32M), lower.as_bytes());
    }
}

/// Bech32's checksum is none of Bech32m's.
#[test]
fn addresses_with_the_other_checksum() {
    for text in [
        "BC1QW508D6QEJXTDG4Y5R3ZARVARY0C5XW7KV8F3T4",
        "bc1p0xlxvlhemja6c4dqv22uapctqupfhlxm9h8z3k2e72q4k9hcz7vqh2y7hd",
    ] {
        assert!(!is_valid(text.as_bytes()), "{text}");
        let lower = text.to_lowercase();
        let (prefix, data) = lower.rsplit_once('1').unwrap();
        let data: Vec<u8> = data.bytes().map(place).collect();
        let data = &data[..data.len() - 6];
        assert_eq!(string(prefix.as_bytes(), data, BECH32), lower.as_bytes());
    }
}

fn place(character: u8) -> u8 {
    CHARSET.iter().position(|&one| one == character).unwrap() as u8
}

/// The whole bytes of values, in hexadecimal.
fn bytes(values: &[u8]) -> String {
    let bits: String = values.iter().map(|value| format!("{value:05b}")).collect();
    let whole = bits.as_bytes().chunks_exact(8);
    whole
        .map(|byte| u8::from_str_radix(std::str::from_utf8(byte).unwrap(), 2).unwrap())
        .map(|byte| format!("{byte:02x}"))
        .collect()
}

/// None of the published strings is a label.
fn refused_for_the_prefix(text: &[u8]) {
    let fault = read(text).unwrap_err();
    assert_eq!((fault.number, fault.place), (30, 0));
}

// ---- labels

#[test]
fn labels_written() {
    for (cell, label) in [
        (0u128, ZERO),
        (u128::MAX, b"cx3d1llllllllllllllllllllllllluzkm08t"),
        (
            0x00000001_FFFFFFFF_00000001_0A5C0300,
            b"cx3d1qqqqqq0lllll7qqqqqqs5hqrqq75s4gn",
        ),
        (0x0300, b"cx3d1qqqqqqqqqqqqqqqqqqqqqqqrqq73cnu2"),
    ] {
        let cell = cell.to_be_bytes();
        assert_eq!(write(cell), label);
        assert!(is_valid(label));
        assert_eq!(read(label), Ok(cell));
        assert_eq!(read(&label.to_ascii_uppercase()), Ok(cell));
    }
}

fn with(place: usize, byte: u8) -> Vec<u8> {
    let mut label = ZERO.to_vec();
    label[place] = byte;
    label
}

fn and(more: &[u8]) -> Vec<u8> {
    [&ZERO[..], more].concat()
}

#[test]
fn labels_refused() {
    let cases: &[(&[u8], u32, u64)] = &[
        (b"", 30, 0),
        (b"c", 30, 1),
        (b"cx", 30, 2),
        (b"cx3d", 30, 4),
        (b"cy", 30, 1),
        (b"dx3d1", 30, 0),
        (b"cx3d2", 30, 4),
        (&[b" ", &ZERO[..]].concat(), 30, 0),
        (b"cX4d1", 30, 2),
        (b"CX3D1", 33, 5),
        (b"cx3d1", 33, 5),
        (b"cX3d1", 31, 1),
        (b"cx3d1B", 31, 5),
        (&with(20, b'B'), 31, 20),
        (&with(20, b'b'), 32, 20),
        (&with(20, b'1'), 32, 20),
        (&with(36, b'T'), 31, 36),
        (&and(b"Q"), 31, 37),
        (&and(b"!"), 32, 37),
        (&and(b"q"), 33, 38),
        (&and(b"\n"), 32, 37),
        (&and(b"\0"), 32, 37),
        (&ZERO[..36], 33, 36),
        (b"cx3d1\x80", 32, 5),
        (b"cx3d1qqqqqqqqqqqqqqqqqqqqqqqqqp9phkre", 35, 30),
        (b"cx3d1qqqqqqqqqqqqqqqqqqqqqqqqqztjzqdx", 35, 30),
        (b"cx3d1qqqqqqqqqqqqqqqqqqqqqqqqqrkyk4s5", 35, 30),
        (b"cx3d1qqqqqqqqqqqqqqqqqqqqqqqqqp9phkrq", 34, 37),
        (b"cx3d1qqqqqqqqqqqqqqqqqqqqqqqqqqdtn0mf", 34, 37),
        (b"cx3d1qqqqqqqqqqqqqqqqqqqqqqqqqqqj8dgpk", 33, 38),
        (b"A1LQFN3A", 30, 0),
        (b"cx3d11qqqqqqqqqqqqqqqqqqqqqqqqqyssm7c", 32, 5),
        (b"cx3d1qqqqqqqqqqqqqqqqqqqqqqqqq1xq64ja", 32, 30),
    ];
    for &(label, number, place) in cases {
        assert_eq!(
            read(label),
            Err(Fault { number, place }),
            "{}",
            label.escape_ascii()
        );
        assert!(agrees_in_reading(label), "{}", label.escape_ascii());
    }
    // The last two are valid by BIP 350, with another prefix.
    for (label, _, _) in &cases[cases.len() - 2..] {
        assert!(is_valid(label));
    }
}

/// A string passes the first five tests where it has 37 characters, is valid by BIP 350 and its last 1
/// stands at place 4 behind the prefix, in either case.
#[test]
fn labels_are_strings_of_bip_350() {
    let mut random = Random::new(7);
    let (mut passed, mut refused) = (0, 0);
    for turn in 0..40_000 {
        let any: Vec<u8> = (0..26).map(|_| random.below(32) as u8).collect();
        let constant = random.one_of(&[BECH32M, BECH32M, BECH32]);
        let mut text = string(b"cx3d", &any, constant);
        if turn % 3 == 0 {
            let place = random.below(37) as usize;
            text[place] = random.one_of(b"1qQbcCxX3dD");
        }
        if turn % 2 == 0 {
            text.make_ascii_uppercase();
        }
        let first = text[..5].eq_ignore_ascii_case(b"cx3d1");
        let last = text.iter().rposition(|&byte| byte == b'1') == Some(4);
        let passes = is_valid(&text) && first && last;
        let said = read(&text);
        assert_eq!(
            passes,
            said.map_or_else(|fault| fault.number == 35, |_| true)
        );
        *if passes { &mut passed } else { &mut refused } += 1;
    }
    assert!(passed > 10_000 && refused > 10_000);
}

// ---- the code

/// BIP 173's field of 32 elements: a is a root of a^5 + a^3 + 1, and a value is a polynomial in a.
fn times(one: u8, other: u8) -> u8 {
    let mut product = 0;
    for bit in (0..5).rev() {
        product <<= 1;
        if product & 32 != 0 {
            product ^= 0b101001;
        }
        if other >> bit & 1 == 1 {
            product ^= one;
        }
    }
    product
}

/// The remainder by x^6 + {29}x^5 + {22}x^4 + {20}x^3 + {21}x^2 + {29}x + {18}, which BIP 173's code has.
fn remainder(coefficients: &[u8]) -> u32 {
    let mut rest = [0u8; 6];
    for &coefficient in coefficients {
        let first = rest[0];
        rest.rotate_left(1);
        rest[5] = coefficient;
        for (one, generator) in rest.iter_mut().zip([29, 22, 20, 21, 29, 18]) {
            *one ^= times(first, generator);
        }
    }
    rest.iter()
        .fold(0, |number, &digit| number << 5 | u32::from(digit))
}

/// The checksum that is reckoned with numbers of 30 bits is this division.
#[test]
fn the_checksum_is_the_code_s() {
    let mut random = Random::new(5);
    for _ in 0..2000 {
        let any: Vec<u8> = (0..random.below(60))
            .map(|_| random.below(32) as u8)
            .collect();
        let text = string(b"cx3d", &any, BECH32M);
        let mut coefficients = vec![1, 3, 3, 1, 3, 0, 3, 24, 19, 4];
        coefficients.extend(text[5..].iter().map(|&byte| place(byte)));
        assert_eq!(remainder(&coefficients), BECH32M);
    }
}

/// A label with one to four wrong characters of the charset is none. The remainder is linear, so what
/// holds of one in one label holds in all; of more it is tried.
#[test]
fn wrong_characters_are_seen() {
    let mut random = Random::new(6);
    for place in 5..37 {
        for &character in CHARSET {
            let said = read(&with(place, character)).is_ok();
            assert_eq!(said, character == ZERO[place]);
        }
    }
    for _ in 0..100_000 {
        let mut label = ZERO.to_vec();
        for _ in 0..4 {
            label[5 + random.below(32) as usize] = random.one_of(CHARSET);
        }
        assert_eq!(read(&label).is_ok(), label == ZERO);
    }
}

#[test]
fn values_of_a_cell() {
    assert_eq!(values([0; 16], 3), [[0; 25].as_slice(), &[3]].concat());
    assert_eq!(values([0xFF; 16], 0), [[31; 25].as_slice(), &[28]].concat());
    let one = 0x00000001_FFFFFFFF_00000001_0A5C0300u128;
    let number = values(one.to_be_bytes(), 0).into_iter();
    let number = number
        .take(25)
        .fold(0, |number, value| number << 5 | u128::from(value));
    assert_eq!(number, one >> 3);
}
