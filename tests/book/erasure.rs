//! A busted chain taken out of a list, beside the plain slow program: what is answered for a key, and that the lines
//! of all orders and positions are as before.

use crate::draws::drawn_orders;
use crate::keys::{symbols, text};
use blot_command::Tables;
use blot_desk::{Event, Held, Reply};
use blot_model::{bust_of, legal, order_of, position_of, root_of};
use blot_types::{Command, Entry, ExecKey, OrderKey, Text64};
use blot_withdraw::EraseFault::{Named, NotBusted, UnknownExec};
use blot_withdraw::{EraseFault, erase_check};
use std::alloc::Global;
use std::test::Fail;

/// A command is offered to a desk, which takes it or refuses it.
pub fn offer(held: &mut Held, command: Command) -> Result<bool, Fail> {
    match held.step(Event::Submit(command)) {
        Ok(Reply::Accepted(_)) => Ok(true),
        Ok(_) => Ok(false),
        Err(fault) => Err(Fail::new(format_args!("{fault:?}"))),
    }
}

// The executions that an entry lists to be allocated.
fn listed(entry: &Entry) -> &[ExecKey] {
    match &entry.command {
        Command::AllocNew(new) => new.terms.execs.as_slice(),
        Command::AllocReplace(replace) => replace.terms.execs.as_slice(),
        _ => &[],
    }
}

// The number of the first entry that lists an execution of a chain.
fn plain_naming(list: &[Entry], root: &ExecKey) -> Option<u64> {
    for entry in list {
        for key in listed(entry) {
            if root_of(list, key) == Some(*root) {
                return Some(entry.number);
            }
        }
    }
    None
}

// Why the chain of a key stays.
fn plain_fault(list: &[Entry], key: &ExecKey) -> Option<EraseFault> {
    let Some(root) = root_of(list, key) else {
        return Some(UnknownExec);
    };
    if bust_of(list, &root).is_none() {
        return Some(NotBusted);
    }
    plain_naming(list, &root).map(Named)
}

// Whether an entry is of the chain of a key.
fn is_of(list: &[Entry], key: &ExecKey, entry: &Entry) -> bool {
    let own = match &entry.command {
        Command::Trade(trade) => trade.key,
        Command::Correct(correct) => correct.reference,
        Command::Bust(bust) => bust.reference,
        _ => return false,
    };
    root_of(list, &own) == root_of(list, key)
}

// A list is another without the chain of a key.
fn expect_without(list: &[Entry], key: &ExecKey, rest: &[Entry]) -> Result<(), Fail> {
    let mut count: usize = 0;
    for entry in list {
        if is_of(list, key, entry) {
            continue;
        }
        if rest.get(count) != Some(entry) {
            return Err(Fail::new(format_args!("without entry {}", entry.number)));
        }
        count += 1;
    }
    if rest.len() != count {
        return Err(Fail::new(format_args!("{} entries for {count}", rest.len())));
    }
    Ok(())
}

// The line of an order is the same in two lists, and in the book of the second.
fn expect_order(
    alloc: Global,
    list: &[Entry],
    rest: &[Entry],
    tables: &Tables,
    order: &OrderKey,
) -> Result<(), Fail> {
    let line = order_of(alloc, list, order)?;
    if order_of(alloc, rest, order)? != line || tables.order(order) != line {
        return Err(Fail::new(format_args!("another line of {order:?}")));
    }
    Ok(())
}

// So is the position of an account in a symbol.
fn expect_position(
    alloc: Global,
    list: &[Entry],
    rest: &[Entry],
    tables: &Tables,
    account: &Text64,
    symbol: &Text64,
) -> Result<(), Fail> {
    let line = position_of(alloc, list, account, symbol)?;
    if position_of(alloc, rest, account, symbol)? != line
        || tables.position(account, symbol) != line
    {
        return Err(Fail::new(format_args!("another position of {account:?}")));
    }
    Ok(())
}

// So are the positions of all accounts in a symbol, of one that nothing goes to too.
fn expect_positions(
    alloc: Global,
    list: &[Entry],
    rest: &[Entry],
    tables: &Tables,
    symbol: &Text64,
) -> Result<(), Fail> {
    for account in [b"*".as_slice(), b"A1", b"A2", b"B", b"C"] {
        expect_position(alloc, list, rest, tables, &text(account)?, symbol)?;
    }
    Ok(())
}

// The book is that of the list without the chain of a key, and all lines are as before.
fn expect_rest(alloc: Global, list: &[Entry], key: &ExecKey, tables: &Tables) -> Result<(), Fail> {
    let rest = tables.entries(alloc)?;
    expect_without(list, key, &rest)?;
    if !legal(alloc, &rest)? {
        return Err(Fail::new("the rest isn't legal"));
    }
    for order in &drawn_orders()? {
        expect_order(alloc, list, &rest, tables, order)?;
    }
    for symbol in &symbols()? {
        expect_positions(alloc, list, &rest, tables, symbol)?;
    }
    Ok(())
}

/// The answer for a key is what the plain program says: the fault, or none where the chain goes.
pub fn fault_of(alloc: Global, list: &[Entry], key: &ExecKey) -> Result<Option<EraseFault>, Fail> {
    let fault = match erase_check(alloc, list, *key) {
        Ok(tables) => {
            expect_rest(alloc, list, key, &tables)?;
            None
        }
        Err(fault) => Some(fault),
    };
    if fault != plain_fault(list, key) {
        return Err(Fail::new(format_args!("{key:?}: {fault:?}")));
    }
    Ok(fault)
}
