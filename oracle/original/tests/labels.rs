//! Labels as id.rs writes and reads them, over the stand-in of oracle/bech32: the crate that it was
//! published with is not here. Where the port reads otherwise, docs/DIFFERENCES.md has these inputs.

#![allow(deprecated)]

use original::error::Error;
use original::id::CellID;

const ZERO: &str = "cx3d1qqqqqqqqqqqqqqqqqqqqqqqqqqchrr7t";

fn zero() -> CellID {
    CellID::from_bytes([0; 16])
}

#[test]
fn written_and_read() {
    for (cell, label) in [
        (0, ZERO),
        (u128::MAX, "cx3d1llllllllllllllllllllllllluzkm08t"),
        (
            0x00000001_FFFFFFFF_00000001_0A5C0300,
            "cx3d1qqqqqq0lllll7qqqqqqs5hqrqq75s4gn",
        ),
        (0x0300, "cx3d1qqqqqqqqqqqqqqqqqqqqqqqrqq73cnu2"),
    ] {
        let cell = CellID::from_bytes(u128::to_be_bytes(cell));
        assert_eq!(cell.to_bech32m().unwrap(), label);
        assert_eq!(CellID::from_bech32m(label), Ok(cell));
    }
}

#[test]
fn a_bech32_checksum_is_taken() {
    let label = "cx3d1qqqqqqqqqqqqqqqqqqqqqqqqqqdtn0mf";
    assert_eq!(CellID::from_bech32m(label), Ok(zero()));
}

#[test]
fn upper_case_is_another_prefix() {
    let label = "CX3D1QQQQQQQQQQQQQQQQQQQQQQQQQQCHRR7T";
    assert_eq!(label.to_lowercase(), ZERO);
    assert_eq!(
        CellID::from_bech32m(label),
        Err(Error::DecodingError(
            "Invalid HRP: expected 'cx3d', got 'CX3D'".to_string()
        ))
    );
}

#[test]
fn padding_is_not_tested() {
    for label in [
        "cx3d1qqqqqqqqqqqqqqqqqqqqqqqqqp9phkre",
        "cx3d1qqqqqqqqqqqqqqqqqqqqqqqqqztjzqdx",
        "cx3d1qqqqqqqqqqqqqqqqqqqqqqqqqrkyk4s5",
    ] {
        assert_eq!(CellID::from_bech32m(label), Ok(zero()));
    }
}

#[test]
fn one_value_more_is_taken() {
    let label = "cx3d1qqqqqqqqqqqqqqqqqqqqqqqqqqqj8dgpk";
    assert_eq!(label.len(), 38);
    assert_eq!(CellID::from_bech32m(label), Ok(zero()));
}

/// Of what is wrong for both it says a text, and no place.
#[test]
fn mistyped_labels_are_refused() {
    for (label, text) in [
        ("", "there is no separator"),
        ("cx3d", "there is no separator"),
        ("cx3d1", "the checksum is cut short"),
        (
            " cx3d1qqqqqqqqqqqqqqqqqqqqqqqqqqchrr7t",
            "a character of the prefix is not from 33 to 126",
        ),
        (
            "cx3d1qqqqqqqqqqqqqqqqqqqqqqqqqqchrr7T",
            "the string is of both cases",
        ),
        (
            "cx3d1qqqqqqqqqqqqqqqqqqqqqqqqqqchrr7b",
            "a character is not of the charset",
        ),
        (
            "cx3d1qqqqqqqqqqqqqqqqqqqqqqqqqqchrr7q",
            "the checksum is wrong",
        ),
        (
            "cx3d1qqqqqqqqqqqqqqqqqqqqqqqqqchrr7t",
            "the checksum is wrong",
        ),
        ("A1LQFN3A", "Invalid HRP: expected 'cx3d', got 'A'"),
        // BIP 350 reads both: the last 1 separates.
        (
            "cx3d11qqqqqqqqqqqqqqqqqqqqqqqqqyssm7c",
            "Invalid HRP: expected 'cx3d', got 'cx3d1'",
        ),
        (
            "cx3d1qqqqqqqqqqqqqqqqqqqqqqqqq1xq64ja",
            "Invalid HRP: expected 'cx3d', got 'cx3d1qqqqqqqqqqqqqqqqqqqqqqqqq'",
        ),
    ] {
        assert_eq!(
            CellID::from_bech32m(label),
            Err(Error::DecodingError(text.to_string())),
            "{label}"
        );
    }
}

/// The stand-in itself, by strings that BIP 350 and BIP 173 publish.
#[test]
fn the_stand_in_reads_published_strings() {
    for text in [
        "A1LQFN3A",
        "a1lqfn3a",
        "an83characterlonghumanreadablepartthatcontainsthetheexcludedcharactersbioandnumber11sg7hg6",
        "abcdef1l7aum6echk45nj3s0wdvt2fg8x9yrzpqzd3ryx",
        "split1checkupstagehandshakeupstreamerranterredcaperredlc445v",
        "?1v759aa",
        "BC1QW508D6QEJXTDG4Y5R3ZARVARY0C5XW7KV8F3T4",
    ] {
        let (hrp, _) = bech32::decode(text).expect(text);
        assert!(text.starts_with(hrp.as_str()));
    }
    for text in [
        " 1xj0phk",
        "\u{7F}1g6xzxy",
        "qyrz8wqd2c9m",
        "1qyrz8wqd2c9m",
        "16plkw9",
        "y1b0jsk6g",
        "lt1igcx5c0",
        "in1muywd",
        "M1VUXWEZ",
    ] {
        assert!(bech32::decode(text).is_err(), "{text}");
    }
}
