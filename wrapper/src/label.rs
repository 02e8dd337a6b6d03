//! Labels: the names of cells on paper.

use std::fmt;

/// A cell's label, in lower case: a Bech32m string of BIP 350, `cx3d1` and 32 characters. Made by
/// [`Cell::to_bech32m`](crate::Cell::to_bech32m), read by
/// [`Cell::from_bech32m`](crate::Cell::from_bech32m).
#[derive(Clone, Copy, PartialEq, Eq, PartialOrd, Ord, Hash)]
pub struct Label(pub(crate) [u8; Label::LENGTH]);

impl Label {
    /// The characters of every label.
    pub const LENGTH: usize = 37;

    /// The label as a string.
    pub fn as_str(&self) -> &str {
        std::str::from_utf8(&self.0).expect("a label is ASCII")
    }
}

impl AsRef<str> for Label {
    fn as_ref(&self) -> &str {
        self.as_str()
    }
}

impl AsRef<[u8]> for Label {
    fn as_ref(&self) -> &[u8] {
        &self.0
    }
}

impl fmt::Display for Label {
    fn fmt(&self, to: &mut fmt::Formatter<'_>) -> fmt::Result {
        to.pad(self.as_str())
    }
}

impl fmt::Debug for Label {
    fn fmt(&self, to: &mut fmt::Formatter<'_>) -> fmt::Result {
        write!(to, "Label({})", self.as_str())
    }
}
