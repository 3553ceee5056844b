//! Generated runs of commands and their inverses, compared with the plain slow program after every step.

use crate::answers::{expect_back, expect_refused, expect_taken};
use crate::draws::{Draws, drawn_orders};
use crate::keys::{alloc_key, exec, fill, order};
use crate::model::{compare, live};
use crate::tally::Tally;
use crate::words::terms;
use blot_command::{Tables, Undoable};
use blot_decimal::Qty;
use blot_model::accepts;
use blot_types::{
    AllocCancel, AllocKey, AllocNew, Bust, Command, EVENTS_MAX, ExecKey, OrderKey, Refused, Sign,
    Trade,
};
use std::alloc::Global;
use std::test::Fail;

// What the plain program says of a command.
fn expected(
    alloc: Global,
    tables: &Tables,
    next: u64,
    command: &Command,
) -> Result<Option<Refused>, Fail> {
    Ok(accepts(alloc, &live(alloc, tables, next)?, command)?)
}

// A command is taken or refused as the plain program says, and taken back.
fn try_command(
    alloc: Global,
    tables: &mut Tables,
    number: u64,
    sent: &Command,
) -> Result<(), Fail> {
    let refusal = expected(alloc, tables, number, sent)?;
    match sent.try_copy(alloc)?.apply(tables, number) {
        Ok(inverse) => {
            expect_taken(tables, refusal, number, sent)?;
            let back = Command::revert(inverse, tables);
            expect_back(sent, back, number)
        }
        Err((back, fault)) => expect_refused(sent, refusal, back, fault, number),
    }
}

// A trade under a key, which tells whether the key is taken up.
fn trade_under(key: &ExecKey) -> Result<Command, Fail> {
    let fill = fill(order(b"BRKA", b"O1")?, b"100", b"10", b"300")?;
    Ok(Command::Trade(Trade { key: *key, fill }))
}

// A bust of a key, which tells whether the key has a root, and whether its chain is busted.
fn bust_of(reference: &ExecKey) -> Result<Command, Fail> {
    let key = exec(b"BRKA", b"X")?;
    Ok(Command::Bust(Bust {
        key,
        reference: *reference,
    }))
}

// An allocation of a key, which tells who names its chain.
fn allocation_of(alloc: Global, exec: &ExecKey) -> Result<Command, Fail> {
    let mut execs = Vec::new(alloc);
    execs.push(*exec)?;
    let key = alloc_key(b"BRKA", b"X")?;
    let terms = terms(Sign::Buy, Qty::read(b"100")?, execs, Vec::new(alloc))?;
    Ok(Command::AllocNew(AllocNew { key, terms }))
}

// The end of an allocation, which tells whether it is there, and who ended it.
fn cancel_of(reference: AllocKey) -> Result<Command, Fail> {
    let key = alloc_key(b"BRKA", b"X")?;
    Ok(Command::AllocCancel(AllocCancel { key, reference }))
}

// A key is taken up, rooted, busted and named as the plain program says.
fn try_key(alloc: Global, tables: &mut Tables, number: u64, key: &ExecKey) -> Result<(), Fail> {
    let trade = trade_under(key)?;
    try_command(alloc, tables, number, &trade)?;
    let bust = bust_of(key)?;
    try_command(alloc, tables, number, &bust)?;
    let allocation = allocation_of(alloc, key)?;
    try_command(alloc, tables, number, &allocation)
}

// An allocation is there and ended as the plain program says.
fn try_allocation(
    alloc: Global,
    tables: &mut Tables,
    number: u64,
    key: AllocKey,
) -> Result<(), Fail> {
    let sent = cancel_of(key)?;
    try_command(alloc, tables, number, &sent)
}

// An execution and an allocation that are drawn, likewise.
fn try_keys(
    alloc: Global,
    tables: &mut Tables,
    draws: &mut Draws,
    number: u64,
) -> Result<(), Fail> {
    let exec = draws.any_exec()?;
    try_key(alloc, tables, number, &exec)?;
    try_allocation(alloc, tables, number, draws.any_allocation()?)
}

// After how many steps of other commands a run ends: for one run in four up to a quarter of the steps left.
fn others(draws: &mut Draws, steps: u32) -> u32 {
    if draws.draw() & 3 == 0 { steps / 4 } else { 0 }
}

// The book, and an execution and an allocation that are drawn, are what the plain program says.
fn examine(
    alloc: Global,
    tables: &mut Tables,
    draws: &mut Draws,
    orders: &[OrderKey],
    number: u64,
) -> Result<(), Fail> {
    compare(alloc, tables, number, orders)?;
    try_keys(alloc, tables, draws, number)
}

// A command for the book as it is.
fn drawn(alloc: Global, tables: &Tables, draws: &mut Draws) -> Result<Command, Fail> {
    let list = tables.entries(alloc)?;
    draws.command(alloc, &list)
}

// Takes commands that are drawn, one after the other, and then their inverses, newest first. Between inverses it
// takes other commands, under numbers that were given before, and takes those back too.
fn explore(
    alloc: Global,
    tables: &mut Tables,
    draws: &mut Draws,
    tally: &mut Tally,
    orders: &[OrderKey],
    number: u64,
    steps: u32,
) -> Result<(), Fail> {
    examine(alloc, tables, draws, orders, number)?;
    if steps == 0 {
        return Ok(());
    }
    let sent = drawn(alloc, tables, draws)?;
    let refusal = expected(alloc, tables, number, &sent)?;
    tally.count(&sent, refusal);
    match sent.try_copy(alloc)?.apply(tables, number) {
        Ok(inverse) => {
            expect_taken(tables, refusal, number, &sent)?;
            explore(alloc, tables, draws, tally, orders, number + 1, steps - 1)?;
            let others = others(draws, steps);
            explore(alloc, tables, draws, tally, orders, number + 1, others)?;
            let back = Command::revert(inverse, tables);
            expect_back(&sent, back, number)?;
        }
        Err((back, fault)) => {
            expect_refused(&sent, refusal, back, fault, number)?;
            explore(alloc, tables, draws, tally, orders, number + 1, steps - 1)?;
        }
    }
    compare(alloc, tables, number, orders)
}

#[test]
fn runs_of_commands_and_their_inverses(rt: HostRuntime) -> Result<(), Fail> {
    let orders = drawn_orders()?;
    let mut draws = Draws::new(1);
    let mut tally = Tally::new();
    for _ in 0..12u32 {
        let mut tables = Tables::new(rt.alloc());
        explore(
            rt.alloc(),
            &mut tables,
            &mut draws,
            &mut tally,
            &orders,
            1,
            40,
        )?;
    }
    tally.expect_each_entry()?;
    tally.expect_each_refusal(10)
}
