//! A trade and its allocation over wires that fail, at the one seat of a desk.

use crate::desk_rows::reports_of_booked;
use crate::dialogues::spell;
use crate::expect::text;
use crate::frames::stream;
use crate::locked::{out, table_of};
use crate::memory::{AT_ONCE, reader, writer};
use crate::rows::{booked, written_text};
use crate::runs::{
    BY_BYTES, BY_SEVENS, Manner, WHOLE, expect_ended, expect_number, expect_written, new_session,
    wire_of,
};
use crate::slots::expect_waiting;
use crate::streams::{moments, shown};
use blot_desk::{Desk, Held, Seat};
use blot_gateway::{Ended, ListClock, MemoryWire, OpenGate, SeatSink, Wire, serve_session};
use blot_session::Session;
use blot_slots::Slots;
use blot_tag::Reader;
use blotter::desk_lines;
use std::alloc::Global;
use std::marker::Brand;
use std::sync::Wait;
use std::sync::ledger::{Blank, Ledger};
use std::test::Fail;

// More calls than a wire of these tests gets.
const CALLS: usize = 10_000;

// Serves a session over a wire by a seat: how it ended, and the seat.
fn serve_seat<L: Ledger>(
    rt: &impl Wait,
    alloc: Global,
    wire: &mut MemoryWire,
    desk: &Desk<L>,
    seat: Seat<L>,
    session: &mut Session,
) -> Result<(Ended, Seat<L>), Fail> {
    let mut clock = ListClock::new(moments(alloc, "20240105-10:00:01.000")?);
    let mut sink = SeatSink::new(rt, desk, seat, &OpenGate, 0);
    let mut reader = Reader::new(alloc);
    if session.is_awaiting() {
        return Err(Fail::new("a reply is awaited"));
    }
    let ended = serve_session(alloc, wire, &mut clock, &mut sink, &mut reader, session);
    Ok((ended, sink.into_seat()))
}

// The live entries of a desk are those of the first so many commands of the stream, and so is the report.
fn expect_book(alloc: Global, held: &mut Held, taken: usize) -> Result<(), Fail> {
    let snapshot = held.snapshot()?;
    for (place, entry) in snapshot.entries().iter().enumerate() {
        expect_number("a live entry", entry.number, place as u64 + 1)?;
    }
    expect_number(
        "live entries",
        snapshot.entries().len() as u64,
        taken as u64,
    )?;
    expect_report(alloc, held, taken)
}

// The report of a desk after the first so many commands of the stream.
fn expect_report(alloc: Global, held: &mut Held, taken: usize) -> Result<(), Fail> {
    let row = reports_of_booked().get(taken).ok_or("no row")?;
    let dialogue = spell(alloc, &[*row], 1)?;
    let mut screen = writer(alloc, AT_ONCE);
    let outcome = desk_lines(
        alloc,
        &mut reader(&dialogue.typed, AT_ONCE),
        &mut screen,
        held,
    );
    if outcome.is_err() || screen.written.as_slice() != dialogue.answers.as_slice() {
        return Err(Fail::new(format_args!("another report after {taken}")));
    }
    Ok(())
}

// A desk is settled with its seat, and holds the first so many commands of the stream, each accepted.
fn settle<L: Ledger>(
    alloc: Global,
    desk: Desk<L>,
    seat: Seat<L>,
    taken: usize,
) -> Result<(), Fail> {
    let mut seats = Vec::new(alloc);
    seats.push(seat)?;
    let mut held = match desk.close().settle(seats) {
        Ok(settled) => settled.held,
        Err(refused) => return Err(Fail::new(format_args!("{:?}", refused.0))),
    };
    expect_number("events", held.history().len() as u64, taken as u64)?;
    expect_book(alloc, &mut held, taken)
}

// The acknowledgment can't be written: the trade and the allocation count, and so do their numbers.
fn serve_unacknowledged<L: Ledger>(
    rt: &impl Wait,
    alloc: Global,
    slots: &Slots,
    desk: &Desk<L>,
    seat: Seat<L>,
) -> Result<Seat<L>, Fail> {
    let manner = Manner {
        failing_write: Some(1),
        ..WHOLE
    };
    let mut wire = wire_of(alloc, booked(), manner)?;
    let mut session = out(rt, slots, &text(b"BRKA")?)?;
    let (ended, seat) = serve_seat(rt, alloc, &mut wire, desk, seat, &mut session)?;
    expect_ended(alloc, "unacknowledged", ended, "WriteFault")?;
    expect_number("its ending", u64::from(ended.number()), 3)?;
    expect_number("its session", session.expected(), 4)?;
    expect_number("its receipts", seat.receipts().len() as u64, 2)?;
    let answered = booked().written.get(..1).unwrap_or(&[]);
    expect_written(alloc, "unacknowledged", &wire, answered)?;
    slots.check_in(rt, session);
    Ok(seat)
}

// A Logon under the number that is expected then, and the allocation again, as one that was sent before.
const AGAIN: &str = "\
35=A|49=BRKA|56=MO|34=4|52=20240105-10:00:00|98=0|108=30|\n\
35=J|49=BRKA|56=MO|34=3|43=Y|52=20240105-10:00:00|70=AL1|71=0|54=1|55=XYZ|53=50|6=11|75=20240105|124=1|17=E2|78=2|79=A|80=30|366=11|79=B|80=20|366=11|";

// The answer to that Logon, after the Logon and the acknowledgment that were sent.
const AGAIN_ANSWERED: &str = "35=A|49=MO|56=BRKA|34=3|52=20240105-10:00:01.000|98=0|108=30|";

// The peer comes back with its numbers: nothing more is delivered.
fn serve_again<L: Ledger>(
    rt: &impl Wait,
    alloc: Global,
    slots: &Slots,
    desk: &Desk<L>,
    seat: Seat<L>,
) -> Result<Seat<L>, Fail> {
    let mut wire = MemoryWire::new(alloc, stream(alloc, AGAIN)?);
    let mut session = out(rt, slots, &text(b"BRKA")?)?;
    expect_waiting(&session, "BRKA", 4)?;
    let (ended, seat) = serve_seat(rt, alloc, &mut wire, desk, seat, &mut session)?;
    expect_ended(alloc, "again", ended, "End")?;
    expect_number("its session", session.expected(), 5)?;
    expect_number("its receipts", seat.receipts().len() as u64, 2)?;
    if wire.written() != stream(alloc, AGAIN_ANSWERED)?.as_slice() {
        return Err(Fail::new("another answer"));
    }
    slots.check_in(rt, session);
    Ok(seat)
}

// Both wires, one after the other.
fn run_both<L: Ledger>(rt: &impl Wait, alloc: Global, blank: Blank) -> Result<(), Fail> {
    let (desk, mut seats) = Desk::<L>::new(alloc, blank, 1)?;
    let slots = table_of(alloc, &[text(b"BRKA")?])?;
    let seat = seats.pop().ok_or("no seat")?;
    let seat = serve_unacknowledged(rt, alloc, &slots, &desk, seat)?;
    let seat = serve_again(rt, alloc, &slots, &desk, seat)?;
    settle(alloc, desk, seat, 2)
}

#[test]
fn an_allocation_whose_acknowledgment_fails_counts_once(rt: HostRuntime) -> Result<(), Fail> {
    run_both::<Brand>(&rt, rt.alloc(), Blank::new(1))
}

// What was written is a front of what the undisturbed session sends.
fn expect_front(alloc: Global, wire: &MemoryWire) -> Result<(), Fail> {
    let sent = written_text(alloc, booked())?;
    let written = shown(alloc, wire.written())?;
    if !sent.as_str().starts_with(written.as_str()) {
        return Err(Fail::new(format_args!("{written}")));
    }
    Ok(())
}

// The session ended as its wire did, and counted the commands that were taken, and no other.
fn expect_failure(
    alloc: Global,
    manner: Manner,
    ended: Ended,
    session: &Session,
    taken: usize,
) -> Result<(), Fail> {
    let (wanted, number) = if manner.failing_write.is_some() {
        ("WriteFault", 3)
    } else {
        ("ReadFault", 2)
    };
    expect_ended(alloc, "a failure", ended, wanted)?;
    expect_number("its ending", u64::from(ended.number()), number)?;
    let expected = session.expected();
    if expected != taken as u64 + 2 && (taken > 0 || expected != 1) {
        return Err(Fail::new(format_args!("{expected} after {taken}")));
    }
    Ok(())
}

// Whether a call failed. If none did, all was taken and written.
fn fails<L: Ledger>(
    rt: &impl Wait,
    alloc: Global,
    blank: Blank,
    manner: Manner,
) -> Result<bool, Fail> {
    let (desk, mut seats) = Desk::<L>::new(alloc, blank, 1)?;
    let seat = seats.pop().ok_or("no seat")?;
    let (mut wire, mut session) = (wire_of(alloc, booked(), manner)?, new_session()?);
    let (ended, seat) = serve_seat(rt, alloc, &mut wire, &desk, seat, &mut session)?;
    let taken = seat.receipts().len();
    if wire.faults() == 0 {
        expect_ended(alloc, "no failure", ended, "End")?;
        expect_written(alloc, "no failure", &wire, booked().written)?;
        settle(alloc, desk, seat, 2)?;
        return Ok(false);
    }
    expect_number("failures", wire.faults(), 1)?;
    expect_failure(alloc, manner, ended, &session, taken)?;
    expect_front(alloc, &wire)?;
    settle(alloc, desk, seat, taken)?;
    Ok(true)
}

// Each read fails in turn, or each write: how many there are.
fn fail_in_turn(
    rt: &impl Wait,
    alloc: Global,
    manner: Manner,
    is_read: bool,
) -> Result<usize, Fail> {
    for call in 0..CALLS {
        let failing = if is_read {
            Manner {
                failing_read: Some(call),
                ..manner
            }
        } else {
            Manner {
                failing_write: Some(call),
                ..manner
            }
        };
        if !fails::<Brand>(rt, alloc, Blank::new(1), failing)? {
            return Ok(call);
        }
    }
    Err(Fail::new("too many calls"))
}

// The calls of this size that take so many bytes.
fn calls_of(bytes: usize, most: usize) -> usize {
    bytes.div_ceil(most.max(1))
}

// There is a read for each piece, and one that finds the end; and for each message as many writes as it needs.
fn fail_each(rt: &impl Wait, alloc: Global, manner: Manner) -> Result<(), Fail> {
    let size = stream(alloc, booked().stream)?.len();
    let mut writes = 0;
    for message in booked().written {
        writes += calls_of(message.len(), manner.room);
    }
    let reads = fail_in_turn(rt, alloc, manner, true)?;
    expect_number(
        "reads",
        reads as u64,
        calls_of(size, manner.piece) as u64 + 1,
    )?;
    expect_number(
        "writes",
        fail_in_turn(rt, alloc, manner, false)? as u64,
        writes as u64,
    )
}

#[test]
fn each_failure_leaves_the_book_of_what_came_before(rt: HostRuntime) -> Result<(), Fail> {
    for manner in [WHOLE, BY_SEVENS, BY_BYTES] {
        fail_each(&rt, rt.alloc(), manner)?;
    }
    Ok(())
}
