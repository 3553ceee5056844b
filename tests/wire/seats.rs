//! `seat_lines` over terminals in memory, at the one seat of a desk, and at two.

use crate::desk_rows::{morning, of_two_seats, reports};
use crate::dialogues::{Told, spell};
use crate::expect::text;
use crate::memory::{AT_ONCE, BY_BYTES, BY_LINES, INTERRUPTED, Manner, failing, reader, writer};
use blot_decimal::{Price, Qty, QtySum};
use blot_desk::{Desk, Event, Seat};
use blot_time::Day;
use blot_types::{Command, ExecKey, Fill, OrderKey, Sign, Text64, Trade};
use blotter::{ReplayFault, seat_lines};
use std::alloc::Global;
use std::marker::Brand;
use std::sync::Wait;
use std::sync::ledger::{Blank, Ledger};
use std::test::Fail;

// The lines of a sitting, how reads and calls of the screen go, and what comes of it.
#[derive(Clone, Copy)]
struct Sitting {
    lines: &'static [Told],
    reads: Manner,
    calls: Manner,
    outcome: Result<(), ReplayFault>,
    // So many lines are told.
    told: u64,
    // So many events are recorded in the end, and as many receipts kept.
    events: usize,
}

// 100 of 300 at 10.50 of O1, bought for A1, which is the fill of E1.
fn first_fill(peer: Text64) -> Result<Fill, Fail> {
    Ok(Fill {
        order: OrderKey {
            peer,
            id: text(b"O1")?,
        },
        account: Some(text(b"A1")?),
        symbol: text(b"XYZ")?,
        sign: Sign::Buy,
        size: QtySum::from_units(300_000_000),
        qty: Qty::read(b"100")?,
        price: Price::read(b"10.50")?,
        day: Day::read(b"20240105")?,
    })
}

// It is submitted before any line.
fn submit_first<L: Ledger>(rt: &impl Wait, desk: &Desk<L>, seat: &mut Seat<L>) -> Result<(), Fail> {
    let peer = text(b"BRKA")?;
    let id = text(b"E1")?;
    let fill = first_fill(peer)?;
    let key = ExecKey { peer, id };
    let command = Command::Trade(Trade { key, fill });
    match desk.submit(rt, seat, Event::Submit(command)) {
        Ok(_) => Ok(()),
        Err(fault) => Err(Fail::new(format_args!("{fault:?}"))),
    }
}

// What is typed comes to its answers, or to so many of them and a fault.
fn check_lines<L: Ledger>(
    rt: &impl Wait,
    alloc: Global,
    desk: &Desk<L>,
    seat: &mut Seat<L>,
    sitting: &Sitting,
) -> Result<(), Fail> {
    let told = sitting.told;
    let dialogue = spell(alloc, sitting.lines, told)?;
    let mut screen = writer(alloc, sitting.calls);
    let mut source = reader(&dialogue.typed, sitting.reads);
    let outcome = seat_lines(rt, alloc, &mut source, &mut screen, desk, seat);
    if outcome != sitting.outcome {
        return Err(Fail::new(format_args!("{told} lines: {outcome:?}")));
    }
    if screen.written.as_slice() != dialogue.answers.as_slice() {
        return Err(Fail::new(format_args!("{told} lines: other text")));
    }
    if seat.receipts().len() != sitting.events {
        return Err(Fail::new(format_args!("{told} lines: other receipts")));
    }
    Ok(())
}

// The lines of a sitting, after the first trade, at the one seat of a desk.
fn sit_at<L: Ledger>(
    rt: &impl Wait,
    alloc: Global,
    desk: &Desk<L>,
    seats: &mut [Seat<L>],
    sitting: &Sitting,
) -> Result<(), Fail> {
    let seat = seats.get_mut(0).ok_or("no seat")?;
    submit_first(rt, desk, seat)?;
    check_lines(rt, alloc, desk, seat, sitting)
}

// A desk is settled with its seats, and has recorded so many events.
fn settle<L: Ledger>(desk: Desk<L>, seats: Vec<Seat<L>>, events: usize) -> Result<(), Fail> {
    match desk.close().settle(seats) {
        Ok(settled) if settled.held.history().len() == events => Ok(()),
        Ok(_) => Err(Fail::new("other events")),
        Err(refused) => Err(Fail::new(format_args!("{:?}", refused.0))),
    }
}

// A sitting at a desk of its own, which is settled with its seat in the end.
fn sit<L: Ledger>(
    rt: &impl Wait,
    alloc: Global,
    blank: Blank,
    sitting: &Sitting,
) -> Result<(), Fail> {
    let (desk, mut seats) = Desk::<L>::new(alloc, blank, 1)?;
    sit_at(rt, alloc, &desk, &mut seats, sitting)?;
    settle(desk, seats, sitting.events)
}

// A line of a seat is answered so.
fn check_line<L: Ledger>(
    rt: &impl Wait,
    alloc: Global,
    desk: &Desk<L>,
    seat: &mut Seat<L>,
    row: Told,
) -> Result<(), Fail> {
    let dialogue = spell(alloc, &[row], 1)?;
    let mut screen = writer(alloc, AT_ONCE);
    let mut source = reader(&dialogue.typed, AT_ONCE);
    let outcome = seat_lines(rt, alloc, &mut source, &mut screen, desk, seat);
    if outcome.is_err() || screen.written.as_slice() != dialogue.answers.as_slice() {
        return Err(Fail::new(format_args!("no {} to {}", row.1, row.0)));
    }
    Ok(())
}

// What two operators type by turns, after the first seat submitted the first trade.
fn sit_by_turns<L: Ledger>(rt: &impl Wait, alloc: Global, blank: Blank) -> Result<(), Fail> {
    let (desk, mut seats) = Desk::<L>::new(alloc, blank, 2)?;
    submit_first(rt, &desk, seats.get_mut(0).ok_or("no seat")?)?;
    for (place, row) in of_two_seats() {
        let seat = seats.get_mut(*place).ok_or("no seat")?;
        check_line(rt, alloc, &desk, seat, *row)?;
    }
    settle(desk, seats, 12)
}

#[test]
fn mine_of_two_seats(rt: HostRuntime) -> Result<(), Fail> {
    sit_by_turns::<Brand>(&rt, rt.alloc(), Blank::new(2))
}

#[test]
fn a_morning_at_a_seat(rt: HostRuntime) -> Result<(), Fail> {
    for manner in [BY_LINES, AT_ONCE, BY_BYTES, INTERRUPTED] {
        for (lines, told, events) in [(morning(), 12, 9), (reports(), 2, 1)] {
            let sitting = Sitting {
                lines,
                reads: manner,
                calls: manner,
                outcome: Ok(()),
                told,
                events,
            };
            sit::<Brand>(&rt, rt.alloc(), Blank::new(1), &sitting)?;
        }
    }
    Ok(())
}

#[test]
fn each_line_of_a_seat_is_answered_before_a_call_that_fails(rt: HostRuntime) -> Result<(), Fail> {
    // How many of the events of the morning, and the trade before it, are recorded after so many lines.
    let events = [1, 2, 3, 4, 5, 6, 7, 7, 7, 7, 8, 8, 9];

    // A line a read, and at last the end.
    for told in 0..13 {
        let sitting = Sitting {
            lines: morning(),
            reads: failing(BY_LINES, told + 1),
            calls: BY_LINES,
            outcome: Err(ReplayFault::Read),
            told,
            events: events[told as usize],
        };
        sit::<Brand>(&rt, rt.alloc(), Blank::new(1), &sitting)?;
    }

    // A write and a flush for each line, which is taken before them.
    for call in 1..25 {
        let sitting = Sitting {
            lines: morning(),
            reads: BY_LINES,
            calls: failing(BY_LINES, call),
            outcome: Err(ReplayFault::Write),
            told: call / 2,
            events: events[((call + 1) / 2) as usize],
        };
        sit::<Brand>(&rt, rt.alloc(), Blank::new(1), &sitting)?;
    }
    Ok(())
}
