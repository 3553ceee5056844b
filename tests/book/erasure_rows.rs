//! Worked days with a busted chain, and what is answered for some keys then. The first step has number 1.

use crate::erasure::{fault_of, offer};
use crate::keys::{exec, order, text};
use crate::words::Filled::Bought;
use crate::words::Step::{Allocates, Busts, Cancels, Corrects, Replaces, Trades};
use crate::words::{Booked, FIFTY_OF_E2, Step, command};
use Answer::{Fails, Leaves};
use blot_command::Tables;
use blot_decimal::{QtySum, Value};
use blot_desk::{Held, Snapshot};
use blot_types::{Entry, ExecKey, Sign};
use blot_withdraw::EraseFault::{Named, NotBusted, UnknownExec};
use blot_withdraw::{EraseFault, erase_check};
use std::alloc::Global;
use std::test::Fail;

const A: &[u8] = b"BRKA";

// 50, in units of 10^-6.
const FIFTY: i128 = 50_000_000;

// 50 at 11, in units of 10^-14.
const FIFTY_AT_11: i128 = 55_000_000_000_000_000;

// 40 of E2 at 11, all to B.
const FORTY_OF_E2: Booked = Booked {
    sign: Sign::Buy,
    execs: &[b"E2"],
    block: b"40",
    lines: &[[b"B", b"40", b"11"]],
};

// 80 of C1, likewise.
const EIGHTY_OF_C1: Booked = Booked {
    sign: Sign::Buy,
    execs: &[b"C1"],
    block: b"80",
    lines: &[[b"B", b"80", b"11"]],
};

// 100 of E1, likewise.
const HUNDRED_OF_E1: Booked = Booked {
    sign: Sign::Buy,
    execs: &[b"E1"],
    block: b"100",
    lines: &[[b"B", b"100", b"11"]],
};

// What is answered for a key: the book of the entries of these numbers, or a fault.
enum Answer {
    Leaves(&'static [u64]),
    Fails(EraseFault),
}

// A day in words, and what is answered for some keys then.
struct Row {
    steps: &'static [Step],
    answers: &'static [(&'static [u8], Answer)],
}

// A step in words is taken.
fn expect_taken(alloc: Global, held: &mut Held, step: &Step) -> Result<(), Fail> {
    let command = command(alloc, A, step)?;
    let taken = offer(held, command)?;
    if !taken {
        return Err(Fail::new("a step is refused"));
    }
    Ok(())
}

// So are some steps, one after the other.
fn expect_all_taken(alloc: Global, held: &mut Held, steps: &[Step]) -> Result<(), Fail> {
    for step in steps {
        expect_taken(alloc, held, step)?;
    }
    Ok(())
}

// The list after some steps.
fn list_after(alloc: Global, steps: &[Step]) -> Result<Snapshot, Fail> {
    let mut held = Held::new(alloc);
    expect_all_taken(alloc, &mut held, steps)?;
    Ok(held.snapshot()?)
}

// Without the chain of a key the entries of these numbers stand.
fn expect_numbers(
    alloc: Global,
    list: &[Entry],
    key: ExecKey,
    numbers: &[u64],
) -> Result<(), Fail> {
    match erase_check(alloc, list, key) {
        Ok(tables) => has_numbers(&tables.entries(alloc)?, numbers),
        Err(fault) => Err(Fail::new(format_args!("{key:?}: {fault:?}"))),
    }
}

// A list has these numbers.
fn has_numbers(entries: &[Entry], numbers: &[u64]) -> Result<(), Fail> {
    if entries.len() != numbers.len() {
        return Err(Fail::new(format_args!("{} entries", entries.len())));
    }
    for (entry, number) in entries.iter().zip(numbers) {
        if entry.number != *number {
            return Err(Fail::new(format_args!("{} for {number}", entry.number)));
        }
    }
    Ok(())
}

// The answer for a key is this one, and what the plain program says.
fn expect_answer(alloc: Global, list: &[Entry], id: &[u8], answer: &Answer) -> Result<(), Fail> {
    let key = exec(A, id)?;
    let found = fault_of(alloc, list, &key)?;
    match answer {
        Leaves(numbers) => expect_numbers(alloc, list, key, numbers),
        Fails(fault) if found == Some(*fault) => Ok(()),
        Fails(fault) => Err(Fail::new(format_args!("{key:?}: {found:?} for {fault:?}"))),
    }
}

// The days.
fn rows() -> &'static [Row] {
    static ROWS: [Row; 6] = [
        // A busted Trade, and another on the same order.
        Row {
            steps: &[
                Trades(b"E1", Bought(b"100", b"11")),
                Busts(b"E4", b"E1"),
                Trades(b"E2", Bought(b"50", b"11")),
            ],
            answers: &[
                (b"E1", Leaves(&[3])),
                (b"E2", Fails(NotBusted)),
                (b"E4", Fails(UnknownExec)),
                (b"E9", Fails(UnknownExec)),
            ],
        },
        // A bust of an allocated execution.
        Row {
            steps: &[
                Trades(b"E2", Bought(b"50", b"11")),
                Allocates(b"L1", FIFTY_OF_E2),
                Busts(b"E3", b"E2"),
            ],
            answers: &[(b"E2", Fails(Named(2)))],
        },
        // Five corrections, of the Trade, of the one before and of older ones, among entries of another chain.
        Row {
            steps: &[
                Trades(b"E1", Bought(b"100", b"11")),
                Corrects(b"C1", b"E1", Bought(b"90", b"11")),
                Trades(b"E2", Bought(b"50", b"11")),
                Corrects(b"C2", b"C1", Bought(b"80", b"11")),
                Corrects(b"C3", b"E1", Bought(b"70", b"11")),
                Corrects(b"D1", b"E2", Bought(b"40", b"11")),
                Corrects(b"C4", b"C2", Bought(b"60", b"11")),
                Corrects(b"C5", b"C4", Bought(b"55", b"11")),
                Allocates(b"L1", FORTY_OF_E2),
                Busts(b"X1", b"C3"),
                Corrects(b"D2", b"D1", Bought(b"30", b"11")),
            ],
            answers: &[
                (b"E1", Leaves(&[3, 6, 9, 11])),
                (b"C1", Leaves(&[3, 6, 9, 11])),
                (b"C2", Leaves(&[3, 6, 9, 11])),
                (b"C3", Leaves(&[3, 6, 9, 11])),
                (b"C4", Leaves(&[3, 6, 9, 11])),
                (b"C5", Leaves(&[3, 6, 9, 11])),
                (b"X1", Fails(UnknownExec)),
                (b"D2", Fails(NotBusted)),
            ],
        },
        // An allocation lists an older version of the chain.
        Row {
            steps: &[
                Trades(b"E1", Bought(b"100", b"11")),
                Corrects(b"C1", b"E1", Bought(b"90", b"11")),
                Corrects(b"C2", b"C1", Bought(b"80", b"11")),
                Allocates(b"L1", EIGHTY_OF_C1),
                Corrects(b"C3", b"C2", Bought(b"70", b"11")),
                Busts(b"X1", b"C3"),
            ],
            answers: &[
                (b"E1", Fails(Named(4))),
                (b"C1", Fails(Named(4))),
                (b"C3", Fails(Named(4))),
            ],
        },
        // A cancelled allocation lists the chain, and after it a live one.
        Row {
            steps: &[
                Trades(b"E1", Bought(b"100", b"11")),
                Trades(b"E2", Bought(b"50", b"11")),
                Allocates(b"L1", HUNDRED_OF_E1),
                Cancels(b"L2", b"L1"),
                Busts(b"X2", b"E2"),
                Allocates(b"L3", HUNDRED_OF_E1),
                Busts(b"X1", b"E1"),
            ],
            answers: &[(b"E1", Fails(Named(3))), (b"E2", Leaves(&[1, 3, 4, 6, 7]))],
        },
        // A replaced allocation lists the chain, and the one in its place another.
        Row {
            steps: &[
                Trades(b"E1", Bought(b"100", b"11")),
                Trades(b"E2", Bought(b"50", b"11")),
                Allocates(b"L1", FIFTY_OF_E2),
                Replaces(b"L2", b"L1", HUNDRED_OF_E1),
                Replaces(b"L3", b"L2", FIFTY_OF_E2),
                Busts(b"X1", b"E1"),
                Busts(b"X2", b"E2"),
            ],
            answers: &[(b"E1", Fails(Named(4))), (b"E2", Fails(Named(3)))],
        },
    ];
    &ROWS
}

// The answers after a row's day are the row's.
fn expect_row(alloc: Global, row: &Row) -> Result<(), Fail> {
    let snapshot = list_after(alloc, row.steps)?;
    for (id, answer) in row.answers {
        expect_answer(alloc, snapshot.entries(), id, answer)?;
    }
    Ok(())
}

#[test]
fn rows_of_chains_taken_out(rt: HostRuntime) -> Result<(), Fail> {
    for row in rows() {
        expect_row(rt.alloc(), row)?;
    }
    Ok(())
}

// The line of O1 is that of 50 at 11 alone.
fn expect_order_of_fifty(tables: &Tables) -> Result<(), Fail> {
    let line = tables.order(&order(A, b"O1")?).ok_or("no line of O1")?;
    if line.cum != QtySum::from_units(FIFTY) || line.value != Value::from_units(FIFTY_AT_11) {
        return Err(Fail::new(format_args!("{line:?}")));
    }
    Ok(())
}

// So is the position of A1.
fn expect_position_of_fifty(tables: &Tables) -> Result<(), Fail> {
    let held = tables
        .position(&text(b"A1")?, &text(b"XYZ")?)
        .ok_or("no position of A1")?;
    if held.qty != QtySum::from_units(FIFTY) || held.value != Value::from_units(FIFTY_AT_11) {
        return Err(Fail::new(format_args!("{held:?}")));
    }
    Ok(())
}

// Without E1 the lines are those of the 50 of E2 alone.
fn expect_fifty(alloc: Global, list: &[Entry]) -> Result<(), Fail> {
    match erase_check(alloc, list, exec(A, b"E1")?) {
        Ok(tables) => {
            expect_order_of_fifty(&tables)?;
            expect_position_of_fifty(&tables)
        }
        Err(fault) => Err(Fail::new(format_args!("{fault:?}"))),
    }
}

#[test]
fn the_lines_without_a_busted_trade(rt: HostRuntime) -> Result<(), Fail> {
    let Some(row) = rows().first() else {
        return Err(Fail::new("no row"));
    };
    let snapshot = list_after(rt.alloc(), row.steps)?;
    expect_fifty(rt.alloc(), snapshot.entries())
}
