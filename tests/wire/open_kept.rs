//! `open_lines` at a desk that keeps its events: what is kept of a line, that no answer is written before a sync, and what can't be kept.

use crate::expect::text;
use crate::memory::{AT_ONCE, reader};
use blot_decimal::{Price, Qty, QtySum};
use blot_desk::{Desk, Event, KeepFault, Keeper, Opening, Seat};
use blot_gateway::{FrameKeeper, RecordHead};
use blot_operator::{OpenDay, OperatorSeat, Rows, SessionLine, open_lines};
use blot_tag::Frame;
use blot_types::{Command, ExecKey, Fill, OrderKey, Sign, Trade};
use blotter::ReplayFault;
use std::alloc::{AllocError as NoMemory, Global};
use std::io::{self, Write};
use std::marker::Brand;
use std::sync::ledger::{Blank, Ledger};
use std::sync::{Mutex, Wait};
use std::test::Fail;
use std::time::Clock;

// An event, one that only asks, a withdrawal, one whose line can't be kept, and an event again.
const TYPED: &[u8] = b"redo\norder\tBRKA\tO9\nmine\nundo\t9\nredo\n";

const ANSWERS: &[u8] =
    b"refused\t15\tNothingToRedo\nnone\naccepted\t2\nbad\t4\nrefused\t15\tNothingToRedo\n";

// What is done behind the trade that the seat submits first: the records, each with its number; the syncs; the writes.
const DONE: &[u8] =
    b"trade 1 redo sync write sync write 2 withdraw\t1 sync write write 3 redo sync write ";

// What is typed at a keeper that breaks after so many syncs and has no room at first, so many times: what comes of it, what is answered, and
// what is done.
struct Row {
    syncs: u32,
    refusals: u32,
    outcome: Result<(), ReplayFault>,
    answers: &'static [u8],
    done: &'static [u8],
}

const ROWS: &[Row] = &[
    Row {
        syncs: 100,
        refusals: 0,
        outcome: Ok(()),
        answers: ANSWERS,
        done: DONE,
    },
    Row {
        syncs: 1,
        refusals: 0,
        outcome: Err(ReplayFault::Journal),
        answers: b"refused\t15\tNothingToRedo\n",
        done: b"trade 1 redo sync write broken ",
    },
    // The first time that the lines are taken they stop, and what isn't kept isn't counted.
    Row {
        syncs: 100,
        refusals: 1,
        outcome: Ok(()),
        answers: ANSWERS,
        done: DONE,
    },
];

// What is done, by all who do something.
type Log = Mutex<Vec<u8>>;

fn note<R: Wait>(rt: &R, log: &Log, word: &[u8]) {
    let mut log = log.lock(rt);
    let _ = log.extend_from_slice(word);
    let _ = log.push(b' ');
}

// It notes what it keeps, and can't keep a line that undoes a step.
#[derive(Drop)]
struct Noting<'a, R> {
    rt: &'a R,
    log: &'a Log,
    syncs: u32,
    refusals: u32,
}

impl<R: Wait> Keeper for Noting<'_, R> {
    ghost IsKept = { ⊥ };

    ghost events = { λ _. [] };

    ghost found = { λ _. 0 };

    ghost durable = { λ _. 0 };

    ghost leaves = { λ _ _. ⊥ };

    ghost left = { λ _ _. ⊥ };

    ghost room = { λ _. 1 };

    ghost is_broken = { λ _. false };

    ghost spells = { λ _ _. Unit {0} };

    ghost spells_none = { λ _. Unit {0} };

    fn reserve(&mut self, text: &[u8]) -> Result<(), KeepFault> {
        if self.refusals > 0 && text != b"trade".as_slice() {
            self.refusals = self.refusals.saturating_sub(1);
            return Err(KeepFault::NoMemory);
        }
        Ok(())
    }

    fn keep(&mut self, text: &[u8], _event: &Event) {
        note(self.rt, self.log, text);
    }

    fn keep_other(&mut self, text: &[u8]) -> Result<(), KeepFault> {
        note(self.rt, self.log, text);
        Ok(())
    }

    fn sync(&mut self) -> Result<(), KeepFault> {
        if self.syncs == 0 {
            note(self.rt, self.log, b"broken");
            return Err(KeepFault::Broken);
        }
        self.syncs = self.syncs.saturating_sub(1);
        note(self.rt, self.log, b"sync");
        Ok(())
    }

    fn ever(&self) {}
}

impl<R: Wait> FrameKeeper for Noting<'_, R> {
    fn is_kept() -> bool {
        true
    }

    fn keeps_plain(_alloc: Global, _text: &[u8]) -> Result<bool, NoMemory> {
        Ok(true)
    }

    fn wrapped_record(
        _alloc: Global,
        _head: &RecordHead,
        _frame: &Frame,
    ) -> Result<Option<Vec<u8>>, NoMemory> {
        Ok(None)
    }

    fn numbers_record(
        _alloc: Global,
        _head: &RecordHead,
        _expected: u64,
        _next: u64,
    ) -> Result<Option<Vec<u8>>, NoMemory> {
        Ok(None)
    }

    fn line_record(
        alloc: Global,
        head: &RecordHead,
        line: &[u8],
        _event: &Event,
    ) -> Result<Option<Vec<u8>>, NoMemory> {
        if line.starts_with(b"undo") {
            return Ok(None);
        }
        let mut record = format!(in alloc; "{} ", head.number)?.into_bytes();
        record.extend_from_slice(line)?;
        Ok(Some(record))
    }

    ghost numbers_after = { λ own peer text numbers. numbers };

    ghost spells_frames = { λ text command valid brings. tt };

    ghost counts_frames = { λ kept. absurd kept };
}

// A screen whose writes are noted.
#[derive(Drop)]
struct Screen<'a, R> {
    rt: &'a R,
    log: &'a Log,
    written: Vec<u8>,
}

impl<R: Wait> Write for Screen<'_, R> {
    fn write(&mut self, text: &[u8]) -> io::Result<usize> {
        note(self.rt, self.log, b"write");
        self.written.extend_from_slice(text)?;
        Ok(text.len())
    }

    fn flush(&mut self) -> io::Result<()> {
        Ok(())
    }
}

// A day without sessions.
#[derive(Drop)]
struct Day;

impl OpenDay for Day {
    fn sessions(&self, alloc: Global) -> Result<Rows<SessionLine>, NoMemory> {
        Ok(Rows::new(Vec::new(alloc)))
    }

    fn tells_makers(&self) -> bool {
        false
    }

    fn close(&self) {}
}

// A trade of the seat, kept before any line.
fn submit_first<L: Ledger, K: Keeper>(
    rt: &impl Wait,
    desk: &Desk<L, K>,
    seat: &mut Seat<L>,
) -> Result<(), Fail> {
    let peer = text(b"BRKA")?;
    let fill = Fill {
        order: OrderKey {
            peer,
            id: text(b"O1")?,
        },
        account: Some(text(b"A1")?),
        symbol: text(b"XYZ")?,
        sign: Sign::Buy,
        size: QtySum::from_units(300_000_000),
        qty: Qty::read(b"100")?,
        price: Price::read(b"10.50")?,
        day: blot_time::Day::read(b"20240105")?,
    };
    let id = text(b"E1")?;
    let key = ExecKey { peer, id };
    let event = Event::Submit(Command::Trade(Trade { key, fill }));
    match desk.submit_with(rt, seat, &peer, event, b"trade") {
        Ok(_) => Ok(()),
        Err(fault) => Err(Fail::new(format_args!("{fault:?}"))),
    }
}

// The lines of a row, typed once more for each time that there was no room.
fn check_row<L: Ledger, R: Wait + Clock>(
    rt: &R,
    alloc: Global,
    blank: Blank,
    row: &Row,
) -> Result<(), Fail> {
    let noted: Log = Mutex::new(Vec::new(alloc));
    let (opening, seats) = Opening::<L>::new(alloc, blank, 1)?;
    let desk = opening.open(Noting {
        rt,
        log: &noted,
        syncs: row.syncs,
        refusals: row.refusals,
    });
    let mut seats = seats;
    let mut seat = seats.pop().ok_or("no seat")?;
    submit_first(rt, &desk, &mut seat)?;
    let mut seat = OperatorSeat::new(seat, text(b"MO")?, text(b"ANNA")?, 0);
    let mut screen = Screen {
        rt,
        log: &noted,
        written: Vec::new(alloc),
    };
    for _ in 0..row.refusals {
        let mut source = reader(TYPED, AT_ONCE);
        let stopped = open_lines(rt, alloc, &mut source, &mut screen, &desk, &mut seat, &Day);
        if stopped != Err(ReplayFault::NoMemory) {
            return Err(Fail::new(format_args!("no room: {stopped:?}")));
        }
    }
    let mut source = reader(TYPED, AT_ONCE);
    let outcome = open_lines(rt, alloc, &mut source, &mut screen, &desk, &mut seat, &Day);
    let written = screen.written;
    drop(desk);
    let done = noted.into_inner();
    if outcome != row.outcome || written.as_slice() != row.answers || done.as_slice() != row.done {
        return Err(Fail::new(format_args!(
            "{outcome:?}: {:?}, {:?}",
            str::from_utf8(&written),
            str::from_utf8(&done)
        )));
    }
    Ok(())
}

#[test]
fn no_answer_is_written_before_a_sync(rt: HostRuntime) -> Result<(), Fail> {
    for row in ROWS {
        check_row::<Brand, _>(&rt, rt.alloc(), Blank::new(1), row)?;
    }
    Ok(())
}
