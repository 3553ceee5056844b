//! Runs of a counter and of a small map, commands that know nothing of a book, and of five trades of a book.

use crate::keys::order;
use crate::shown::order_text;
use crate::stepping::{
    expect_redone, expect_refused, expect_taken, expect_undone, rewind, there_and_back,
};
use crate::words::Filled::Bought;
use crate::words::trade;
use blot_command::Tables;
use blot_types::Command;
use blot_undo::Steps;
use callers::{Add, AddFault, PLACES, Put, PutFault};
use std::alloc::Global;
use std::test::Fail;

// The total is this.
fn expect_total(steps: &Steps<Add>, total: u64) -> Result<(), Fail> {
    let found = *steps.state();
    if found != total {
        return Err(Fail::new(format_args!("{found} for {total}")));
    }
    Ok(())
}

// Five amounts, of which the last two are undone, and one is refused.
fn add_five(steps: &mut Steps<Add>) -> Result<(), Fail> {
    expect_undone(steps, None)?;
    expect_redone(steps, None)?;
    for (amount, number) in [(10, 1), (20, 2), (30, 3), (40, 4), (50, 5)] {
        expect_taken(steps, Add { amount }, number)?;
    }
    expect_total(steps, 150)?;
    expect_undone(steps, Some(5))?;
    expect_undone(steps, Some(4))?;
    expect_total(steps, 60)?;
    let reason = expect_refused(steps, Add { amount: 941 })?;
    if reason != AddFault::TooLarge {
        return Err(Fail::new("another refusal"));
    }
    Ok(())
}

// The refused one kept the undone steps; one that is taken gives them up.
fn add_a_sixth(steps: &mut Steps<Add>) -> Result<(), Fail> {
    expect_redone(steps, Some(4))?;
    expect_total(steps, 100)?;
    expect_undone(steps, Some(4))?;
    expect_taken(steps, Add { amount: 940 }, 6)?;
    expect_redone(steps, None)?;
    expect_total(steps, 1_000)
}

// All are undone, and redone one by one under their numbers.
fn add_again(steps: &mut Steps<Add>) -> Result<(), Fail> {
    let count = steps.done();
    there_and_back(steps, count)?;
    expect_total(steps, 1_000)?;
    rewind(steps, 4)?;
    expect_total(steps, 0)?;
    for number in [1, 2, 3, 6] {
        expect_redone(steps, Some(number))?;
    }
    expect_total(steps, 1_000)
}

#[test]
fn a_counter_undone_and_redone(rt: HostRuntime) -> Result<(), Fail> {
    let mut steps = Steps::new(rt.alloc(), 0);
    add_five(&mut steps)?;
    add_a_sixth(&mut steps)?;
    add_again(&mut steps)
}

// A place holds this.
fn expect_place(steps: &Steps<Put>, place: usize, value: Option<u64>) -> Result<(), Fail> {
    let places = steps.state();
    let found = places.get(place).copied();
    if found != Some(value) {
        return Err(Fail::new(format_args!("{found:?} for {value:?} at {place}")));
    }
    Ok(())
}

// Three values, of which the last is undone, and one past the places.
fn put_three(steps: &mut Steps<Put>) -> Result<(), Fail> {
    for (place, value, number) in [(0, 7, 1), (3, 8, 2), (0, 9, 3)] {
        expect_taken(steps, Put { place, value }, number)?;
    }
    expect_place(steps, 0, Some(9))?;
    expect_place(steps, 1, None)?;
    expect_undone(steps, Some(3))?;
    expect_place(steps, 0, Some(7))?;
    let past = Put {
        place: PLACES,
        value: 1,
    };
    let reason = expect_refused(steps, past)?;
    if reason != PutFault::NoPlace {
        return Err(Fail::new("another refusal"));
    }
    Ok(())
}

// All are redone, undone and redone at once, and then undone one by one.
fn put_again(steps: &mut Steps<Put>) -> Result<(), Fail> {
    expect_undone(steps, Some(2))?;
    expect_place(steps, 3, None)?;
    expect_redone(steps, Some(2))?;
    expect_redone(steps, Some(3))?;
    expect_place(steps, 3, Some(8))?;
    let count = steps.done();
    there_and_back(steps, count)?;
    for number in [3, 2, 1] {
        expect_undone(steps, Some(number))?;
    }
    expect_place(steps, 0, None)
}

#[test]
fn a_map_undone_and_redone(rt: HostRuntime) -> Result<(), Fail> {
    let mut steps = Steps::new(rt.alloc(), [None; PLACES]);
    put_three(&mut steps)?;
    put_again(&mut steps)
}

// 10 of 300 at 10 under its own ExecID.
fn tenth(id: &[u8]) -> Result<Command, Fail> {
    Ok(Command::Trade(trade(b"BRKA", id, &Bought(b"10", b"10"))?))
}

// Five trades are taken under the numbers 1 to 5.
fn take_five(steps: &mut Steps<Command>) -> Result<(), Fail> {
    for (id, number) in [(b"E1", 1), (b"E2", 2), (b"E3", 3), (b"E4", 4), (b"E5", 5)] {
        let command = tenth(id)?;
        expect_taken(steps, command, number)?;
    }
    Ok(())
}

// The line of the order is this one.
fn expect_line(alloc: Global, tables: &Tables, wanted: &str) -> Result<(), Fail> {
    let line = tables.order(&order(b"BRKA", b"O1")?).ok_or("no line")?;
    let text = order_text(alloc, &line)?;
    if text.as_str() != wanted {
        return Err(Fail::new(format_args!("{text} for {wanted}")));
    }
    Ok(())
}

// The book is empty.
fn expect_nothing(alloc: Global, tables: &Tables) -> Result<(), Fail> {
    let entries = tables.entries(alloc)?.len();
    if entries != 0 || tables.order(&order(b"BRKA", b"O1")?).is_some() {
        return Err(Fail::new(format_args!("{entries} entries, or a line")));
    }
    Ok(())
}

// They are undone at once, which leaves nothing, and redone one by one: the entries are those of before.
fn undo_and_redo_five(alloc: Global, steps: &mut Steps<Command>) -> Result<(), Fail> {
    let before = steps.state().entries(alloc)?;
    rewind(steps, 5)?;
    expect_nothing(alloc, steps.state())?;
    for number in [1, 2, 3, 4, 5] {
        expect_redone(steps, Some(number))?;
    }
    expect_redone(steps, None)?;
    if before.len() != 5 || steps.state().entries(alloc)? != before {
        return Err(Fail::new("other entries"));
    }
    Ok(())
}

#[test]
fn five_undone_and_redone(rt: HostRuntime) -> Result<(), Fail> {
    let mut steps = Steps::new(rt.alloc(), Tables::new(rt.alloc()));
    take_five(&mut steps)?;
    expect_line(rt.alloc(), steps.state(), "XYZ B 50 250 500")?;
    undo_and_redo_five(rt.alloc(), &mut steps)?;
    expect_line(rt.alloc(), steps.state(), "XYZ B 50 250 500")
}
