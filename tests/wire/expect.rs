//! What the tests compare, and the names that they speak of.

use blot_types::Text64;
use std::process::Abort;
use std::test::Fail;

/// What is said of a row holds. It stands in a small function of its own, since the text of a difference costs more proof than
/// the comparison.
pub fn expect(rt: &impl Abort, row: &str, holds: bool) {
    assert!(rt; holds, "at {row}");
}

/// A text.
pub fn text(bytes: &[u8]) -> Result<Text64, Fail> {
    Ok(Text64::read(bytes).ok_or("no text")?)
}
