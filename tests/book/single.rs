//! One seat at a desk.

use crate::keys::exec;
use crate::seats::{expect, settle, take};
use crate::words::Filled::Bought;
use crate::words::{bust, trade};
use blot_desk::{Desk, Event, Receipt, Reply, Seat};
use blot_types::{Command, Refused};
use std::alloc::Global;
use std::marker::Brand;
use std::sync::Wait;
use std::sync::ledger::{Blank, Ledger};
use std::test::Fail;

// The seat's last receipt is of this place and this reply, and its newest number is this one.
fn expect_receipt<L: Ledger>(
    seat: &Seat<L>,
    place: u64,
    wanted: &Reply,
    newest: Option<u64>,
) -> Result<(), Fail> {
    let receipt: &Receipt = seat.receipts().last().ok_or("no receipt")?;
    expect(&receipt.reply, wanted)?;
    let (at, found) = (receipt.place, seat.newest());
    if at != place || found != newest {
        return Err(Fail::new(format_args!("place {at}, newest {found:?}")));
    }
    Ok(())
}

// Takes an event, and the receipt of it is this one.
fn act<L: Ledger>(
    rt: &impl Wait,
    desk: &Desk<L>,
    seat: &mut Seat<L>,
    event: Event,
    place: u64,
    wanted: &Reply,
    newest: Option<u64>,
) -> Result<(), Fail> {
    let reply = take(rt, desk, seat, event)?;
    expect(&reply, wanted)?;
    expect_receipt(seat, place, wanted, newest)
}

// Trade E1, its undo, and then a bust of E1 or a redo.
fn trade_and_undo<L: Ledger>(
    rt: &impl Wait,
    desk: &Desk<L>,
    seat: &mut Seat<L>,
    redoes: bool,
) -> Result<(), Fail> {
    let traded = Command::Trade(trade(b"BRKA", b"E1", &Bought(b"100", b"10"))?);
    act(
        rt,
        desk,
        seat,
        Event::Submit(traded),
        0,
        &Reply::Accepted(1),
        Some(1),
    )?;
    act(
        rt,
        desk,
        seat,
        Event::Undo { newest: 1 },
        1,
        &Reply::Undone(1),
        None,
    )?;
    if redoes {
        return act(rt, desk, seat, Event::Redo, 2, &Reply::Redone(1), Some(1));
    }
    let busted = Command::Bust(bust(b"BRKA", b"E4", b"E1")?);
    let unknown = Reply::Refused(Refused::UnknownExec(exec(b"BRKA", b"E1")?));
    act(rt, desk, seat, Event::Submit(busted), 2, &unknown, None)
}

// One seat's receipts.
fn run_receipts<L: Ledger>(
    rt: &impl Wait,
    alloc: Global,
    blank: Blank,
    redoes: bool,
) -> Result<(), Fail> {
    let (desk, mut seats) = Desk::<L>::new(alloc, blank, 1)?;
    let mut seat = seats.pop().ok_or("no seat")?;
    trade_and_undo(rt, &desk, &mut seat, redoes)?;
    seats.push(seat)?;
    settle(desk.close(), seats, 3)?;
    Ok(())
}

#[test]
fn one_seats_receipts(rt: HostRuntime) -> Result<(), Fail> {
    run_receipts::<Brand>(&rt, rt.alloc(), Blank::new(1), false)?;
    run_receipts::<Brand>(&rt, rt.alloc(), Blank::new(1), true)
}
