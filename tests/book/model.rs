//! The book beside the plain slow program.

use crate::keys::{accounts, symbols};
use blot_command::Tables;
use blot_model::{legal, order_of, position_of, survivors};
use blot_types::{Command, EVENTS_MAX, Entry, OrderKey, PositionLine, Sign, Text64, Version};
use std::alloc::{AllocError, Global};
use std::test::Fail;

/// The live list up to a number, read entry by entry.
pub fn live(alloc: Global, tables: &Tables, next: u64) -> Result<Vec<Entry>, AllocError> {
    let mut list = Vec::new(alloc);
    for number in 0..next {
        if let Some(entry) = tables.entry(number) {
            let command = entry.command.try_copy(alloc)?;
            list.push(Entry { number, command })?;
        }
    }
    Ok(list)
}

// How many versions of a list stand on an order.
fn standing(versions: &[Version], order: &OrderKey) -> usize {
    let mut count: usize = 0;
    for version in versions {
        if version.fill.order == *order {
            count = count.saturating_add(1);
        }
    }
    count
}

// The line of an order is what the plain program says of the live list, and there is one exactly if a
// version stands on the order.
fn compare_order(
    alloc: Global,
    tables: &Tables,
    list: &[Entry],
    versions: &[Version],
    order: &OrderKey,
) -> Result<(), Fail> {
    let line = tables.order(order);
    if line != order_of(alloc, list, order)? {
        return Err(Fail::new(format_args!("the line of {order:?}")));
    }
    if line.is_some() != (standing(versions, order) > 0) {
        return Err(Fail::new(format_args!("what stands on {order:?}")));
    }
    Ok(())
}

// The position of an account in a symbol: the plain program says the same of the live list.
fn position(
    alloc: Global,
    tables: &Tables,
    list: &[Entry],
    account: &Text64,
    symbol: &Text64,
) -> Result<Option<PositionLine>, Fail> {
    let line = tables.position(account, symbol);
    if line != position_of(alloc, list, account, symbol)? {
        return Err(Fail::new(format_args!("the position of {account:?} in {symbol:?}")));
    }
    Ok(line)
}

// The quantity and the value of the positions in a symbol over all accounts, `*` included.
fn positions_in(
    alloc: Global,
    tables: &Tables,
    list: &[Entry],
    accounts: &[Text64],
    symbol: &Text64,
) -> Result<(i128, i128), Fail> {
    let (mut qty, mut value) = (0i128, 0i128);
    for account in accounts {
        if let Some(line) = position(alloc, tables, list, account, symbol)? {
            qty = qty.wrapping_add(line.qty.units());
            value = value.wrapping_add(line.value.units());
        }
    }
    Ok((qty, value))
}

// The signed quantity and value of the versions in a symbol.
fn versions_in(versions: &[Version], symbol: &Text64) -> (i128, i128) {
    let (mut qty, mut value) = (0i128, 0i128);
    for version in versions {
        let fill = version.fill;
        if fill.symbol == *symbol {
            let sign = if fill.sign == Sign::Buy { 1 } else { -1 };
            qty = qty.wrapping_add(sign * i128::from(fill.qty.units()));
            value = value.wrapping_add(sign * fill.qty.times(fill.price).units());
        }
    }
    (qty, value)
}

// Allocations make and lose nothing: the positions in a symbol over all accounts come to what the versions that
// stand do.
fn expect_conserved(
    alloc: Global,
    tables: &Tables,
    list: &[Entry],
    versions: &[Version],
    accounts: &[Text64],
    symbol: &Text64,
) -> Result<(), Fail> {
    let found = positions_in(alloc, tables, list, accounts, symbol)?;
    let stood = versions_in(versions, symbol);
    if found != stood {
        return Err(Fail::new(format_args!("{found:?} in {symbol:?} for {stood:?}")));
    }
    Ok(())
}

/// The book is what the plain program says of its live list, for these orders and for all accounts and symbols.
pub fn compare(alloc: Global, tables: &Tables, next: u64, orders: &[OrderKey]) -> Result<(), Fail> {
    let list = tables.entries(alloc)?;
    if list != live(alloc, tables, next)? {
        return Err(Fail::new("the live list isn't that of its entries by number"));
    }
    if !legal(alloc, &list)? {
        return Err(Fail::new("the live list isn't legal"));
    }
    compare_lines(alloc, tables, &list, orders)
}

/// The lines of the book are what the plain program says of a live list, for these orders and for all accounts and symbols.
pub fn compare_lines(
    alloc: Global,
    tables: &Tables,
    list: &[Entry],
    orders: &[OrderKey],
) -> Result<(), Fail> {
    let versions = survivors(alloc, list)?;
    for order in orders {
        compare_order(alloc, tables, list, &versions, order)?;
    }
    for symbol in &symbols()? {
        expect_conserved(alloc, tables, list, &versions, &accounts()?, symbol)?;
    }
    Ok(())
}

// An entry of a number is this command's.
fn is_entry(entry: Option<&Entry>, number: u64, command: &Command) -> bool {
    match entry {
        Some(entry) => entry.number == number && entry.command == *command,
        None => false,
    }
}

/// The entry of a number is that of a command.
pub fn expect_entry(tables: &Tables, number: u64, command: &Command) -> Result<(), Fail> {
    if !is_entry(tables.entry(number), number, command) {
        return Err(Fail::new(format_args!("another entry under {number}")));
    }
    Ok(())
}
