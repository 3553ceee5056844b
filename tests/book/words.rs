//! Commands in words, as the rows of the tests write them.

use crate::keys::{alloc_key, exec, fill, order, text};
use blot_decimal::{Price, Qty};
use blot_time::Day;
use blot_types::{
    AllocCancel, AllocNew, AllocReplace, Bust, Command, Correct, ExecKey, Fill, ITEMS_MAX, Items,
    Line, Sign, Terms, Trade,
};
use std::alloc::Global;
use std::test::Fail;

/// A fill in words.
#[derive(Drop)]
pub enum Filled {
    /// XYZ, bought for account A1: the order, the quantity, the price and the order's size.
    Buys(&'static [u8], &'static [u8], &'static [u8], &'static [u8]),
    /// XYZ of O1 of size 300, bought for account A1: the quantity and the price.
    Bought(&'static [u8], &'static [u8]),
}

/// An allocation of XYZ in words.
#[derive(Drop)]
pub struct Booked {
    pub sign: Sign,
    pub execs: &'static [&'static [u8]],
    pub block: &'static [u8],
    /// The account, the quantity and the price of each line.
    pub lines: &'static [[&'static [u8]; 3]],
}

/// 50 of E2 at 11, all to B.
pub const FIFTY_OF_E2: Booked = Booked {
    sign: Sign::Buy,
    execs: &[b"E2"],
    block: b"50",
    lines: &[[b"B", b"50", b"11"]],
};

/// A command in words: the execution or the allocation that it takes up, then the one that it refers to, then
/// what it brings; or the number of the entry that it takes out.
pub enum Step {
    Trades(&'static [u8], Filled),
    Corrects(&'static [u8], &'static [u8], Filled),
    Busts(&'static [u8], &'static [u8]),
    Allocates(&'static [u8], Booked),
    Replaces(&'static [u8], &'static [u8], Booked),
    Cancels(&'static [u8], &'static [u8]),
    Withdraws(u64),
}

// The fill of a peer's order.
fn fill_of(peer: &[u8], words: &Filled) -> Result<Fill, Fail> {
    match words {
        Filled::Buys(id, qty, price, size) => fill(order(peer, id)?, qty, price, size),
        Filled::Bought(qty, price) => fill(order(peer, b"O1")?, qty, price, b"300"),
    }
}

/// A trade in words.
pub fn trade(peer: &[u8], id: &[u8], words: &Filled) -> Result<Trade, Fail> {
    Ok(Trade {
        key: exec(peer, id)?,
        fill: fill_of(peer, words)?,
    })
}

/// A correction in words.
pub fn correct(peer: &[u8], id: &[u8], reference: &[u8], words: &Filled) -> Result<Correct, Fail> {
    Ok(Correct {
        key: exec(peer, id)?,
        reference: exec(peer, reference)?,
        fill: fill_of(peer, words)?,
    })
}

/// A bust in words.
pub fn bust(peer: &[u8], id: &[u8], reference: &[u8]) -> Result<Bust, Fail> {
    Ok(Bust {
        key: exec(peer, id)?,
        reference: exec(peer, reference)?,
    })
}

// A line of an allocation, in words.
fn line(account: &[u8], qty: &[u8], price: &[u8]) -> Result<Line, Fail> {
    Ok(Line {
        account: text(account)?,
        qty: Qty::read(qty)?,
        price: Price::read(price)?,
    })
}

/// The terms of an allocation of XYZ: the side, the block, the executions and the lines.
pub fn terms(sign: Sign, block: Qty, execs: Vec<ExecKey>, lines: Vec<Line>) -> Result<Terms, Fail> {
    if execs.len() > ITEMS_MAX || lines.len() > ITEMS_MAX {
        return Err(Fail::new("too many items"));
    }
    Ok(Terms {
        symbol: text(b"XYZ")?,
        sign,
        day: Day::read(b"20240105")?,
        block,
        execs: Items::new(execs),
        lines: Items::new(lines),
    })
}

// A peer's executions of these ids.
fn execs(alloc: Global, peer: &[u8], ids: &[&[u8]]) -> Result<Vec<ExecKey>, Fail> {
    let mut execs = Vec::new(alloc);
    for id in ids {
        execs.push(exec(peer, id)?)?;
    }
    Ok(execs)
}

// The lines of an allocation.
fn lines(alloc: Global, words: &[[&[u8]; 3]]) -> Result<Vec<Line>, Fail> {
    let mut lines = Vec::new(alloc);
    for [account, qty, price] in words {
        lines.push(line(account, qty, price)?)?;
    }
    Ok(lines)
}

// The terms of a peer's allocation in words.
fn terms_of(alloc: Global, peer: &[u8], words: &Booked) -> Result<Terms, Fail> {
    let block = Qty::read(words.block)?;
    let execs = execs(alloc, peer, words.execs)?;
    let lines = lines(alloc, words.lines)?;
    terms(words.sign, block, execs, lines)
}

/// A new allocation in words.
pub fn alloc_new(alloc: Global, peer: &[u8], id: &[u8], words: &Booked) -> Result<AllocNew, Fail> {
    let key = alloc_key(peer, id)?;
    let terms = terms_of(alloc, peer, words)?;
    Ok(AllocNew { key, terms })
}

/// An allocation in the place of another, in words.
pub fn alloc_replace(
    alloc: Global,
    peer: &[u8],
    id: &[u8],
    reference: &[u8],
    words: &Booked,
) -> Result<AllocReplace, Fail> {
    let (key, reference) = (alloc_key(peer, id)?, alloc_key(peer, reference)?);
    let terms = terms_of(alloc, peer, words)?;
    Ok(AllocReplace {
        key,
        reference,
        terms,
    })
}

/// The end of an allocation, in words.
pub fn alloc_cancel(peer: &[u8], id: &[u8], reference: &[u8]) -> Result<AllocCancel, Fail> {
    Ok(AllocCancel {
        key: alloc_key(peer, id)?,
        reference: alloc_key(peer, reference)?,
    })
}

/// A peer's command in words.
pub fn command(alloc: Global, peer: &[u8], step: &Step) -> Result<Command, Fail> {
    match step {
        Step::Trades(id, words) => trade(peer, id, words).map(Command::Trade),
        Step::Corrects(id, reference, words) => {
            correct(peer, id, reference, words).map(Command::Correct)
        }
        Step::Busts(id, reference) => bust(peer, id, reference).map(Command::Bust),
        Step::Allocates(id, words) => alloc_new(alloc, peer, id, words).map(Command::AllocNew),
        Step::Replaces(id, reference, words) => {
            alloc_replace(alloc, peer, id, reference, words).map(Command::AllocReplace)
        }
        Step::Cancels(id, reference) => alloc_cancel(peer, id, reference).map(Command::AllocCancel),
        Step::Withdraws(number) => Ok(Command::Withdraw(*number)),
    }
}
