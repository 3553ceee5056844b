//! Generated lists, each entry of each withdrawn and put back, beside the plain slow program.

use crate::draws::{Draws, drawn_orders};
use crate::keys::{accounts, symbols};
use crate::model::{compare, compare_lines, live};
use crate::tally::{Tally, expect_each};
use blot_command::{ApplyFault, Inverse, Tables, Undoable};
use blot_model::blocked_of;
use blot_types::{Command, Entry, OrderKey, OrderLine, PositionLine, Refused};
use blot_withdraw::blocked_by;
use std::alloc::Global;
use std::test::Fail;

// How many lists are made, and how many entries each has at most.
const LISTS: u32 = 300;

const ENTRIES: u64 = 12;

// The book of a generated list: as many commands are drawn as have to be for that many entries.
fn drawn_book(alloc: Global, draws: &mut Draws, tally: &mut Tally) -> Result<Tables, Fail> {
    let mut tables = Tables::new(alloc);
    let mut number = 1;
    while number <= ENTRIES {
        let list = tables.entries(alloc)?;
        let command = draws.command(alloc, &list)?;
        let copy = command.try_copy(alloc)?;
        match command.apply(&mut tables, number) {
            Ok(_) => {
                tally.count_taken(&copy);
                number += 1;
            }
            Err((_, ApplyFault::Refused(_))) => {}
            Err((_, ApplyFault::NoMemory)) => return Err(Fail::new("no memory")),
        }
    }
    Ok(tables)
}

// What a book shows: its live list, and the lines of its orders and positions.
#[derive(PartialEq, Eq, Drop)]
struct Shown {
    list: Vec<Entry>,
    orders: Vec<Option<OrderLine>>,
    positions: Vec<Option<PositionLine>>,
}

fn what_is_shown(alloc: Global, tables: &Tables, orders: &[OrderKey]) -> Result<Shown, Fail> {
    let mut shown = Shown {
        list: live(alloc, tables, ENTRIES + 2)?,
        orders: Vec::new(alloc),
        positions: Vec::new(alloc),
    };
    for order in orders {
        shown.orders.push(tables.order(order))?;
    }
    for account in &accounts()? {
        for symbol in &symbols()? {
            shown.positions.push(tables.position(account, symbol))?;
        }
    }
    Ok(shown)
}

// The book shows this list, which is legal as nothing needs what was taken out of it, and what the plain program says of it.
fn examine(
    alloc: Global,
    tables: &Tables,
    list: &[Entry],
    orders: &[OrderKey],
) -> Result<(), Fail> {
    if tables.entries(alloc)?.as_slice() != list
        || live(alloc, tables, ENTRIES + 2)?.as_slice() != list
    {
        return Err(Fail::new("another live list"));
    }
    compare_lines(alloc, tables, list, orders)
}

// The list without the entry of a number.
fn without(alloc: Global, tables: &Tables, number: u64) -> Result<Vec<Entry>, Fail> {
    let mut list = tables.entries(alloc)?;
    list.retain(|entry| entry.number != number);
    Ok(list)
}

// The entry of a number is withdrawn, and put back to what was shown before, or it is needed by what the plain program says: which, if by any.
fn withdraw(
    alloc: Global,
    tables: &mut Tables,
    number: u64,
    orders: &[OrderKey],
    before: &Shown,
) -> Result<Option<u64>, Fail> {
    let rest = without(alloc, tables, number)?;
    let needing = blocked_of(alloc, &before.list, number)?;
    if blocked_by(tables, number) != needing {
        return Err(Fail::new(format_args!("{number} isn't needed by {needing:?}")));
    }
    match (
        Command::Withdraw(number).apply(tables, ENTRIES + 1),
        needing,
    ) {
        (Ok(Inverse::Taken(entry)), None) if entry.as_entry().number == number => {
            examine(alloc, tables, &rest, orders)?;
            if Command::revert(Inverse::Taken(entry), tables) != Command::Withdraw(number) {
                return Err(Fail::new("another command comes back"));
            }
        }
        (Err((_, ApplyFault::Refused(Refused::Needed(first)))), Some(wanted)) if first == wanted =>
            {}
        (_, wanted) => return Err(Fail::new(format_args!(
            "withdraw {number}, needed by {wanted:?}"
        ))),
    }
    if what_is_shown(alloc, tables, orders)? != *before {
        return Err(Fail::new(format_args!("another book after {number} was put back")));
    }
    Ok(needing)
}

// The place of an entry's kind, the second half for those that are needed.
fn place_of(tables: &Tables, number: u64, is_needed: bool) -> usize {
    let place = match tables.entry(number).map(|entry| &entry.command) {
        Some(Command::Trade(_)) => 0,
        Some(Command::Correct(_)) => 1,
        Some(Command::AllocNew(_)) => 2,
        Some(Command::AllocReplace(_)) => 3,
        Some(Command::AllocCancel(_)) => 4,
        _ => 5,
    };
    if is_needed { place + 6 } else { place }
}

#[test]
fn each_entry_of_three_hundred_lists_withdrawn(rt: HostRuntime) -> Result<(), Fail> {
    let orders = drawn_orders()?;
    let mut draws = Draws::new(3);
    let mut tally = Tally::new();
    let mut seen = [0u32; 12];
    for _ in 0..LISTS {
        let mut tables = drawn_book(rt.alloc(), &mut draws, &mut tally)?;
        compare(rt.alloc(), &tables, ENTRIES + 2, &orders)?;
        let before = what_is_shown(rt.alloc(), &tables, &orders)?;
        for number in 1..=ENTRIES {
            let needing = withdraw(rt.alloc(), &mut tables, number, &orders, &before)?;
            let place = place_of(&tables, number, needing.is_some());
            seen[place] += 1;
        }
    }
    tally.expect_each_entry()?;
    // Each kind was withdrawn, and each but a Bust was needed: the last place is that of a Bust that was.
    expect_each(&seen[..11], "kind withdrawn, or needed")?;
    if seen[11] > 0 {
        return Err(Fail::new("a needed bust"));
    }
    Ok(())
}
