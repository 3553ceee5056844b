//! Two seats at one desk.

use crate::keys::order;
use crate::seats::{expect, expect_unsettled, settle, take};
use crate::shown::order_text;
use crate::words::Filled::{Bought, Buys};
use crate::words::Step::Trades;
use crate::words::{Step, command, trade};
use blot_desk::{Closed, Desk, Event, Reply, Seat, Snapshot};
use blot_report::{day_lines, report_text};
use blot_time::Day;
use blot_types::{Command, OrderLine};
use std::alloc::Global;
use std::marker::Brand;
use std::sync::Wait;
use std::sync::ledger::{Blank, Ledger};
use std::test::Fail;
use std::thread::{Threads, join};

// A trade of an order of its own, and the line of that order.
struct Own {
    peer: &'static [u8],
    order: &'static [u8],
    trade: Step,
    line: &'static str,
}

// What the first seat submits.
fn first() -> &'static Own {
    static OWN: Own = Own {
        peer: b"BRKA",
        order: b"O1",
        trade: Trades(b"E1", Buys(b"O1", b"100", b"10", b"300")),
        line: "XYZ B 100 200 1000",
    };
    &OWN
}

// What the second seat submits.
fn second() -> &'static Own {
    static OWN: Own = Own {
        peer: b"BRKB",
        order: b"O2",
        trade: Trades(b"E2", Buys(b"O2", b"50", b"11", b"250")),
        line: "XYZ B 50 200 550",
    };
    &OWN
}

// The trade, and the question for its order.
fn events(alloc: Global, own: &Own) -> Result<(Event, Event), Fail> {
    let asked = order(own.peer, own.order)?;
    let command = command(alloc, own.peer, &own.trade)?;
    Ok((Event::Submit(command), Event::AskOrder(asked)))
}

// The line of an order that a seat is told after a trade of it.
fn told_line<L: Ledger>(
    rt: &impl Wait,
    desk: &Desk<L>,
    seat: &mut Seat<L>,
    events: (Event, Event),
) -> Option<OrderLine> {
    let (trade, ask) = events;
    let _ = desk.submit(rt, seat, trade);
    match desk.submit(rt, seat, ask) {
        Ok(Reply::Order(line)) => line,
        _ => None,
    }
}

// The line is the one that is wanted.
fn expect_line(alloc: Global, line: Option<OrderLine>, own: &Own) -> Result<(), Fail> {
    let line = line.ok_or("no line")?;
    let text = order_text(alloc, &line)?;
    if text.as_str() != own.line {
        return Err(Fail::new(format_args!("{text}")));
    }
    Ok(())
}

// Both seats submit, each in a thread of its own: each sees its own line.
fn submit_both<L: Ledger + Send + Sync, R: Threads + Wait + Sync>(
    rt: &R,
    alloc: Global,
    desk: &Desk<L>,
    one: &mut Seat<L>,
    two: &mut Seat<L>,
) -> Result<(), Fail> {
    let (ours, theirs) = (events(alloc, first())?, events(alloc, second())?);
    let (a, b) = join(
        rt,
        move || told_line(rt, desk, one, ours),
        move || told_line(rt, desk, two, theirs),
    );
    expect_line(alloc, a, first())?;
    expect_line(alloc, b, second())
}

// The report of the day shows both orders.
fn expect_both_reported(alloc: Global, snapshot: &Snapshot) -> Result<(), Fail> {
    let lines = day_lines(alloc, snapshot, Day::read(b"20240105")?)?;
    let text = report_text(alloc, &lines)?;
    let wanted: &[u8] =
        b"report\t20240105\norder\tBRKA\tO1\tXYZ\tB\t100\t200\t1000\norder\tBRKB\tO2\tXYZ\tB\t50\t200\t550\nposition\tA1\tXYZ\t150\t1550\nend\t3\n";
    if text.as_slice() != wanted {
        return Err(Fail::new("another report"));
    }
    Ok(())
}

// With one of two seats the desk isn't settled, with both it is.
fn settle_one_then_both<L: Ledger>(
    alloc: Global,
    closed: Closed<L>,
    one: Seat<L>,
    two: Seat<L>,
    events: usize,
) -> Result<(), Fail> {
    let mut seats = Vec::new(alloc);
    seats.push(one)?;
    let (closed, mut seats) = expect_unsettled(closed, seats)?;
    seats.push(two)?;
    settle(closed, seats, events)?;
    Ok(())
}

// A desk of two seats.
fn open<L: Ledger>(alloc: Global, blank: Blank) -> Result<(Desk<L>, Seat<L>, Seat<L>), Fail> {
    let (desk, mut seats) = Desk::<L>::new(alloc, blank, 2)?;
    let two = seats.pop().ok_or("no seat")?;
    let one = seats.pop().ok_or("one seat")?;
    Ok((desk, one, two))
}

// Two seats in two threads, and how they are settled.
fn run_both<L: Ledger + Send + Sync, R: Threads + Wait + Sync>(
    rt: &R,
    alloc: Global,
    blank: Blank,
) -> Result<(), Fail> {
    let (desk, mut one, mut two) = open::<L>(alloc, blank)?;
    submit_both(rt, alloc, &desk, &mut one, &mut two)?;
    let snapshot = desk.snapshot(rt)?;
    expect_both_reported(alloc, &snapshot)?;
    settle_one_then_both(alloc, desk.close(), one, two, 4)
}

#[test]
fn two_seats_in_two_threads(rt: HostRuntime) -> Result<(), Fail> {
    run_both::<Brand, _>(&rt, rt.alloc(), Blank::new(2))
}

// A seat submits a trade of its own ExecID, which is accepted under this number.
fn trade_once<L: Ledger>(
    rt: &impl Wait,
    alloc: Global,
    desk: &Desk<L>,
    seat: &mut Seat<L>,
    number: u64,
) -> Result<(), Fail> {
    let id = format!(in alloc; "E{number}")?;
    let trade = trade(b"BRKA", id.as_bytes(), &Bought(b"1", b"10"))?;
    let reply = take(rt, desk, seat, Event::Submit(Command::Trade(trade)))?;
    expect(&reply, &Reply::Accepted(number))
}

// One seat submits, the other never does.
fn run_silent<L: Ledger>(
    rt: &impl Wait,
    alloc: Global,
    blank: Blank,
    both: bool,
) -> Result<(), Fail> {
    let (desk, mut one, two) = open::<L>(alloc, blank)?;
    trade_once(rt, alloc, &desk, &mut one, 1)?;
    if two.newest().is_some() || !two.receipts().is_empty() {
        return Err(Fail::new("a receipt of nothing"));
    }
    let mut seats = Vec::new(alloc);
    if both {
        seats.push(two)?;
    }
    seats.push(one)?;
    settle(desk.close(), seats, 1)?;
    Ok(())
}

#[test]
fn a_seat_that_never_submits(rt: HostRuntime) -> Result<(), Fail> {
    run_silent::<Brand>(&rt, rt.alloc(), Blank::new(2), true)?;
    run_silent::<Brand>(&rt, rt.alloc(), Blank::new(2), false)
}
