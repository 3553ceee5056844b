//! Wires that are served at once, each with a seat at one desk.

use crate::expect::text;
use crate::frames::stream;
use crate::locked::{out, table_of};
use crate::slots::expect_waiting;
use crate::streams::moments;
use crate::turns::Turns;
use blot_desk::{Desk, Reply, Seat};
use blot_gateway::{Ended, ListClock, MemoryWire, serve};
use blot_session::CloseReason;
use blot_slots::Slots;
use std::alloc::Global;
use std::marker::Brand;
use std::sync::Wait;
use std::sync::ledger::{Blank, Ledger};
use std::test::Fail;
use std::thread::Threads;

// A Logon and a trade of BRKA.
const FIRST: &str = "\
35=A|49=BRKA|56=MO|34=1|52=20240105-09:59:59|98=0|108=30|\n\
35=8|49=BRKA|56=MO|34=2|52=20240105-10:00:00|37=O1|17=E1|150=F|39=1|1=A1|55=XYZ|54=1|38=300|32=100|31=10.50|151=200|14=100|6=10.50|60=20240105-10:00:00|75=20240105|";

// A Logon and a trade of BRKB.
const SECOND: &str = "\
35=A|49=BRKB|56=MO|34=1|52=20240105-09:59:59|98=0|108=30|\n\
35=8|49=BRKB|56=MO|34=2|52=20240105-10:00:00|37=O2|17=E2|150=F|39=1|1=A1|55=XYZ|54=1|38=300|32=50|31=11|151=250|14=50|6=11|60=20240105-10:00:00|75=20240105|";

// A Logon of a peer that isn't listed.
const UNLISTED: &str = "35=A|49=BRKX|56=MO|34=1|52=20240105-09:59:59|98=0|108=30|";

// The sessions of MO with BRKA and BRKB.
fn table(alloc: Global) -> Result<Slots, Fail> {
    table_of(alloc, &[text(b"BRKA")?, text(b"BRKB")?])
}

// A clock for each wire, at one moment.
fn clocks(alloc: Global, count: usize) -> Result<Vec<ListClock>, Fail> {
    let mut clocks = Vec::new(alloc);
    for _ in 0..count {
        clocks.push(ListClock::new(moments(alloc, "20240105-10:00:01.000")?))?;
    }
    Ok(clocks)
}

// The wires that give these streams.
fn wires(alloc: Global, streams: &[&str]) -> Result<Vec<MemoryWire>, Fail> {
    let mut wires = Vec::new(alloc);
    for text in streams {
        wires.push(MemoryWire::new(alloc, stream(alloc, text)?))?;
    }
    Ok(wires)
}

// Serves wires at one moment.
fn serve_all<R: Threads + Wait + Sync, L: Ledger + Send + Sync>(
    rt: &R,
    alloc: Global,
    wires: Vec<MemoryWire>,
    slots: &Slots,
    desk: &Desk<L>,
    seats: Vec<Seat<L>>,
    gate: &Turns,
) -> Result<Vec<(Ended, Seat<L>)>, Fail> {
    let clocks = clocks(alloc, wires.len())?;
    if clocks.len() != wires.len() || seats.len() != wires.len() {
        return Err(Fail::new("not as many"));
    }
    match serve(rt, alloc, wires, clocks, slots, desk, seats, gate) {
        Ok(endings) => Ok(endings),
        Err(_) => Err(Fail::new("no memory")),
    }
}

// A wire ended so, and its seat got this reply, or none.
fn expect_ending<L: Ledger>(
    ending: &(Ended, Seat<L>),
    wanted: Ended,
    reply: Option<Reply>,
) -> Result<(), Fail> {
    let (ended, receipts) = (ending.0, ending.1.receipts());
    let found = match receipts {
        [] => None,
        [.., last] => Some(last.reply),
    };
    if ended != wanted || found != reply || receipts.len() > 1 {
        return Err(Fail::new(format_args!("{ended:?}, {found:?}")));
    }
    Ok(())
}

// The seats of some wires.
fn seats_of<L: Ledger>(
    alloc: Global,
    endings: Vec<(Ended, Seat<L>)>,
) -> Result<Vec<Seat<L>>, Fail> {
    let mut seats = Vec::new(alloc);
    for (_, seat) in endings {
        seats.push(seat)?;
    }
    Ok(seats)
}

// The desk recorded so many events, and is settled with these seats.
fn settle<L: Ledger>(desk: Desk<L>, seats: Vec<Seat<L>>, events: usize) -> Result<(), Fail> {
    let settled = match desk.close().settle(seats) {
        Ok(settled) => settled,
        Err(refused) => return Err(Fail::new(format_args!("{:?}", refused.0))),
    };
    let recorded = settled.held.history().len();
    if recorded != events {
        return Err(Fail::new(format_args!("{recorded} events")));
    }
    Ok(())
}

// The session of a peer is in, waits for a Logon, and expects this number. It stays in.
fn expect_in(rt: &impl Wait, slots: &Slots, name: &str, number: u64) -> Result<(), Fail> {
    let session = out(rt, slots, &text(name.as_bytes())?)?;
    let waiting = expect_waiting(&session, name, number);
    slots.check_in(rt, session);
    waiting
}

// Two wires of two peers. The submit at one place is held until that at the other is answered.
fn run_two<L: Ledger + Send + Sync, R: Threads + Wait + Sync>(
    rt: &R,
    alloc: Global,
    blank: Blank,
    held: usize,
) -> Result<(), Fail> {
    let (desk, seats) = Desk::<L>::new(alloc, blank, 2)?;
    let (slots, gate) = (table(alloc)?, Turns::new(held));
    let wires = wires(alloc, &[FIRST, SECOND])?;
    let endings = serve_all(rt, alloc, wires, &slots, &desk, seats, &gate)?;
    gate.expect_in_time()?;
    expect_two(&endings, held)?;
    expect_in(rt, &slots, "BRKA", 3)?;
    expect_in(rt, &slots, "BRKB", 3)?;
    settle(desk, seats_of(alloc, endings)?, 2)
}

// Both ended as their streams did; the trade that was held is the second.
fn expect_two<L: Ledger>(endings: &[(Ended, Seat<L>)], held: usize) -> Result<(), Fail> {
    for (place, ending) in endings.iter().enumerate() {
        let number = if place == held { 2 } else { 1 };
        expect_ending(ending, Ended::End, Some(Reply::Accepted(number)))?;
    }
    if endings.len() != 2 {
        return Err(Fail::new("not two"));
    }
    Ok(())
}

#[test]
fn two_wires_served_at_once(rt: HostRuntime) -> Result<(), Fail> {
    run_two::<Brand, _>(&rt, rt.alloc(), Blank::new(2), 0)?;
    run_two::<Brand, _>(&rt, rt.alloc(), Blank::new(2), 1)
}

// A wire of a peer that is on already, one of a peer that isn't listed, and one that fails at the first write.
fn unserved(alloc: Global) -> Result<Vec<MemoryWire>, Fail> {
    let mut wires = wires(alloc, &[FIRST, UNLISTED])?;
    let mut failing = MemoryWire::new(alloc, stream(alloc, SECOND)?);
    failing.fail_write(0);
    wires.push(failing)?;
    Ok(wires)
}

// How they end: nothing is submitted.
fn expect_unserved<L: Ledger>(endings: &[(Ended, Seat<L>)]) -> Result<(), Fail> {
    let [on, unlisted, failing] = endings else {
        return Err(Fail::new("not three"));
    };
    expect_ending(on, Ended::Closed(CloseReason::AlreadyOn), None)?;
    expect_ending(unlisted, Ended::Closed(CloseReason::CompId), None)?;
    expect_ending(failing, Ended::WriteFault, None)
}

// After them the peer that is on is still on, and the session of the wire that failed is in again.
fn run_unserved<L: Ledger + Send + Sync, R: Threads + Wait + Sync>(
    rt: &R,
    alloc: Global,
    blank: Blank,
) -> Result<(), Fail> {
    let (desk, seats) = Desk::<L>::new(alloc, blank, 3)?;
    let (slots, gate) = (table(alloc)?, Turns::new(3));
    let session = out(rt, &slots, &text(b"BRKA")?)?;
    let endings = serve_all(rt, alloc, unserved(alloc)?, &slots, &desk, seats, &gate)?;
    expect_unserved(&endings)?;
    expect_in(rt, &slots, "BRKB", 2)?;
    slots.check_in(rt, session);
    expect_in(rt, &slots, "BRKA", 1)?;
    settle(desk, seats_of(alloc, endings)?, 0)
}

#[test]
fn wires_that_are_not_served(rt: HostRuntime) -> Result<(), Fail> {
    run_unserved::<Brand, _>(&rt, rt.alloc(), Blank::new(3))
}
