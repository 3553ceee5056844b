//! `open_lines` over terminals in memory: what an open day answers, and where its lines end.

use crate::dialogues::{Told, spell};
use crate::expect::{expect, text};
use crate::memory::{AT_ONCE, BY_BYTES, BY_LINES, INTERRUPTED, Manner, reader, writer};
use blot_desk::Desk;
use blot_operator::{OpenDay, OperatorSeat, Rows, SessionLine, open_lines};
use std::alloc::{AllocError, Global};
use std::marker::Brand;
use std::sync::Wait;
use std::sync::ledger::{Blank, Ledger};
use std::test::Fail;
use std::time::Clock;

// What is typed, and what is answered up to the first `close`, which is the sixth line.
const CLOSED: &[Told] = &[
    ("sessions", "session>BRKA>on>12/session>BRKB>off>1/end>2"),
    ("sessions>BRKA", "bad>2"),
    ("close>x", "bad>2"),
    ("Close", "bad>1"),
    ("redo", "refused>15>NothingToRedo"),
    ("close", "closed"),
    ("redo", ""),
    ("close", ""),
];

// The same without one.
const OPEN: &[Told] = &[
    ("close>", "bad>2"),
    ("mine", "none"),
    ("redo", "refused>15>NothingToRedo"),
];

// A day with the sessions of two peers.
#[derive(Drop)]
struct Day {
    sessions: [SessionLine; 2],
}

impl OpenDay for Day {
    fn sessions(&self, alloc: Global) -> Result<Rows<SessionLine>, AllocError> {
        let mut lines = Vec::new(alloc);
        for line in &self.sessions {
            lines.push(*line)?;
        }
        Ok(Rows::new(lines))
    }

    fn tells_makers(&self) -> bool {
        false
    }

    fn close(&self) {}
}

// BRKA's session is on, and BRKB's is off.
fn day_of_two() -> Result<Day, Fail> {
    let first = SessionLine {
        peer: text(b"BRKA")?,
        is_on: true,
        expected: 12,
    };
    let second = SessionLine {
        peer: text(b"BRKB")?,
        is_on: false,
        expected: 1,
    };
    Ok(Day {
        sessions: [first, second],
    })
}

// Lines are answered at the one seat of a desk, so many of them: how many bytes of the input are left.
fn left_of<L: Ledger, R: Wait + Clock>(
    rt: &R,
    alloc: Global,
    blank: Blank,
    lines: &[Told],
    told: u64,
    manner: Manner,
) -> Result<usize, Fail> {
    let (desk, mut seats) = Desk::<L>::new(alloc, blank, 1)?;
    let seat = seats.pop().ok_or("no seat")?;
    let mut seat = OperatorSeat::new(seat, text(b"MO")?, text(b"ANNA")?, 0);
    let dialogue = spell(alloc, lines, told)?;
    let mut screen = writer(alloc, AT_ONCE);
    let mut source = reader(&dialogue.typed, manner);
    let day = day_of_two()?;
    let outcome = open_lines(rt, alloc, &mut source, &mut screen, &desk, &mut seat, &day);
    if outcome.is_err() {
        return Err(Fail::new(format_args!("{told} lines: {outcome:?}")));
    }
    if screen.written.as_slice() != dialogue.answers.as_slice() {
        return Err(Fail::new(format_args!("{told} lines: other text")));
    }
    if seat.into_seat().receipts().len() != 1 {
        return Err(Fail::new(format_args!("{told} lines: other receipts")));
    }
    Ok(source.rest.len())
}

#[test]
fn the_lines_end_at_close(rt: HostRuntime) -> Result<(), Fail> {
    for manner in [BY_LINES, AT_ONCE, BY_BYTES, INTERRUPTED] {
        left_of::<Brand, _>(&rt, rt.alloc(), Blank::new(1), CLOSED, 6, manner)?;
    }
    let left = left_of::<Brand, _>(&rt, rt.alloc(), Blank::new(1), CLOSED, 6, BY_BYTES)?;
    expect(
        &rt,
        "what stands behind close",
        left == "redo\nclose\n".len(),
    );
    Ok(())
}

#[test]
fn lines_without_close_are_read_to_their_end(rt: HostRuntime) -> Result<(), Fail> {
    for manner in [BY_LINES, AT_ONCE, BY_BYTES, INTERRUPTED] {
        let left = left_of::<Brand, _>(&rt, rt.alloc(), Blank::new(1), OPEN, 3, manner)?;
        expect(&rt, "what is left of the lines", left == 0);
    }
    Ok(())
}
