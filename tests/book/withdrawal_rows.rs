//! Worked days, and of each entry the first that can't do without it, none where all can. The first step has number 1.

use crate::words::Filled::Bought;
use crate::words::Step::{Allocates, Busts, Cancels, Corrects, Replaces, Trades};
use crate::words::{Booked, FIFTY_OF_E2, Step, command};
use blot_command::{Tables, Undoable};
use blot_model::blocked_of;
use blot_types::{Entry, Sign};
use blot_withdraw::blocked_by;
use std::alloc::Global;
use std::test::Fail;

// A day in words, and what each entry in turn is needed by.
struct Row {
    name: &'static str,
    steps: &'static [Step],
    needed_by: &'static [Option<u64>],
}

// 80 of E1 at 10, all to B.
const EIGHTY_OF_E1: Booked = Booked {
    sign: Sign::Buy,
    execs: &[b"E1"],
    block: b"80",
    lines: &[[b"B", b"80", b"10"]],
};

// 100 of E1 at 10, likewise.
const HUNDRED_OF_E1: Booked = Booked {
    sign: Sign::Buy,
    execs: &[b"E1"],
    block: b"100",
    lines: &[[b"B", b"100", b"10"]],
};

static ROWS: [Row; 6] = [
    Row {
        name: "withdrawals that others need",
        steps: &[
            Trades(b"E2", Bought(b"50", b"11")),
            Allocates(b"AL1", FIFTY_OF_E2),
            Cancels(b"AL1C", b"AL1"),
            Allocates(b"AL2", FIFTY_OF_E2),
        ],
        needed_by: &[Some(2), Some(3), Some(4), None],
    },
    Row {
        name: "needed by quantity",
        steps: &[
            Trades(b"E1", Bought(b"100", b"10")),
            Corrects(b"E3", b"E1", Bought(b"80", b"10")),
            Allocates(b"AL1", EIGHTY_OF_E1),
        ],
        needed_by: &[Some(2), Some(3), None],
    },
    Row {
        name: "a chain of allocations",
        steps: &[
            Trades(b"E1", Bought(b"100", b"10")),
            Allocates(b"AL1", HUNDRED_OF_E1),
            Replaces(b"AL2", b"AL1", HUNDRED_OF_E1),
            Cancels(b"C1", b"AL2"),
        ],
        needed_by: &[Some(2), Some(3), Some(4), None],
    },
    Row {
        name: "a cancel before a bust",
        steps: &[
            Trades(b"E1", Bought(b"100", b"10")),
            Allocates(b"AL1", HUNDRED_OF_E1),
            Cancels(b"C1", b"AL1"),
            Busts(b"E4", b"E1"),
        ],
        needed_by: &[Some(2), Some(3), None, None],
    },
    Row {
        name: "withdrawals at the console",
        steps: &[Trades(b"E1", Bought(b"100", b"10.50"))],
        needed_by: &[None],
    },
    Row {
        name: "a bust is needed by nothing",
        steps: &[
            Trades(b"E1", Bought(b"100", b"10")),
            Trades(b"E2", Bought(b"50", b"11")),
            Corrects(b"E3", b"E1", Bought(b"80", b"10")),
            Busts(b"E4", b"E3"),
            Allocates(b"AL1", FIFTY_OF_E2),
        ],
        needed_by: &[Some(3), Some(5), Some(4), None, None],
    },
];

// The entries of a day.
fn entries_of(alloc: Global, steps: &[Step]) -> Result<Vec<Entry>, Fail> {
    let mut entries = Vec::new(alloc);
    let mut number = 0;
    for step in steps {
        number += 1;
        let command = command(alloc, b"BRKA", step)?;
        entries.push(Entry { number, command })?;
    }
    Ok(entries)
}

// The book of these entries.
fn book_of(alloc: Global, entries: &[Entry]) -> Result<Tables, Fail> {
    let mut tables = Tables::new(alloc);
    for entry in entries {
        let command = entry.command.try_copy(alloc)?;
        if command.apply(&mut tables, entry.number).is_err() {
            return Err(Fail::new("an entry of a row is refused"));
        }
    }
    Ok(tables)
}

// Each entry of a row is needed by what the row says: so say the plain program and the book.
fn expect_needed_by(alloc: Global, row: &Row) -> Result<(), Fail> {
    let entries = entries_of(alloc, row.steps)?;
    let tables = book_of(alloc, &entries)?;
    for (entry, wanted) in entries.iter().zip(row.needed_by) {
        let found = blocked_of(alloc, &entries, entry.number)?;
        if found != *wanted || blocked_by(&tables, entry.number) != *wanted {
            let number = entry.number;
            return Err(Fail::new(format_args!("{}: {number}: {found:?} for {wanted:?}", row.name)));
        }
    }
    Ok(())
}

#[test]
fn the_first_that_needs_an_entry(rt: HostRuntime) -> Result<(), Fail> {
    for row in &ROWS {
        expect_needed_by(rt.alloc(), row)?;
    }
    Ok(())
}
