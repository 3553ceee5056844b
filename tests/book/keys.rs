//! The keys and fills that the tests speak of.

use blot_decimal::{Price, Qty, QtySum};
use blot_time::Day;
use blot_types::{AllocKey, ExecKey, Fill, OrderKey, Sign, Text64};
use std::test::Fail;

/// A text.
pub fn text(bytes: &[u8]) -> Result<Text64, Fail> {
    Ok(Text64::read(bytes).ok_or("no text")?)
}

/// An order of a peer.
pub fn order(peer: &[u8], id: &[u8]) -> Result<OrderKey, Fail> {
    Ok(OrderKey {
        peer: text(peer)?,
        id: text(id)?,
    })
}

/// An execution of a peer.
pub fn exec(peer: &[u8], id: &[u8]) -> Result<ExecKey, Fail> {
    Ok(ExecKey {
        peer: text(peer)?,
        id: text(id)?,
    })
}

/// An allocation of a peer.
pub fn alloc_key(peer: &[u8], id: &[u8]) -> Result<AllocKey, Fail> {
    Ok(AllocKey {
        peer: text(peer)?,
        id: text(id)?,
    })
}

/// All accounts of the books that are compared with the plain program: the house account and two more.
pub fn accounts() -> Result<[Text64; 3], Fail> {
    Ok([text(b"*")?, text(b"A1")?, text(b"A2")?])
}

/// All symbols of these books.
pub fn symbols() -> Result<[Text64; 2], Fail> {
    Ok([text(b"XYZ")?, text(b"ABC")?])
}

/// A fill of an order of account A1 in XYZ, bought: so much of a size at a price.
pub fn fill(order: OrderKey, qty: &[u8], price: &[u8], size: &[u8]) -> Result<Fill, Fail> {
    let size = Qty::read(size)?.units();
    Ok(Fill {
        order,
        account: Some(text(b"A1")?),
        symbol: text(b"XYZ")?,
        sign: Sign::Buy,
        size: QtySum::from_units(i128::from(size)),
        qty: Qty::read(qty)?,
        price: Price::read(price)?,
        day: Day::read(b"20240105")?,
    })
}
