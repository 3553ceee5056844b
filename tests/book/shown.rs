//! What an order shows, as text.

use blot_types::{OrderLine, Sign};
use std::alloc::{AllocError, Global};

// What an order's executions trade.
fn traded(line: &OrderLine) -> &'static str {
    match (line.sign, line.symbol.bytes()) {
        (Sign::Buy, b"XYZ") => "XYZ B",
        (Sign::Sell, b"XYZ") => "XYZ S",
        (Sign::Buy, b"ABC") => "ABC B",
        (Sign::Sell, b"ABC") => "ABC S",
        _ => "another symbol",
    }
}

/// The line of an order: symbol and side, the quantity filled, what is left and the value.
pub fn order_text(alloc: Global, line: &OrderLine) -> Result<String, AllocError> {
    let what = traded(line);
    let OrderLine {
        cum,
        leaves,
        value,
        ..
    } = *line;
    format!(in alloc; "{what} {cum} {leaves} {value}")
}
