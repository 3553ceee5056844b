//! What the seats of the tests submit, and what is asked of a desk.

use blot_desk::{Closed, Desk, DeskFault, Event, Reply, Seat, Settled};
use std::sync::Wait;
use std::sync::ledger::Ledger;
use std::test::Fail;

/// Submits an event of a seat.
pub fn take<L: Ledger>(
    rt: &impl Wait,
    desk: &Desk<L>,
    seat: &mut Seat<L>,
    event: Event,
) -> Result<Reply, Fail> {
    match desk.submit(rt, seat, event) {
        Ok(reply) => Ok(reply),
        Err(fault) => Err(Fail::new(format_args!("{fault:?}"))),
    }
}

/// A reply is the one that is wanted.
pub fn expect(reply: &Reply, wanted: &Reply) -> Result<(), Fail> {
    if reply != wanted {
        return Err(Fail::new(format_args!("{reply:?} for {wanted:?}")));
    }
    Ok(())
}

/// These seats are settled: the desk's history, of so many events, is that of their receipts.
pub fn settle<L: Ledger>(
    closed: Closed<L>,
    seats: Vec<Seat<L>>,
    events: usize,
) -> Result<Settled<L>, Fail> {
    match closed.settle(seats) {
        Ok(settled) => {
            expect_count(&settled, events)?;
            Ok(settled)
        }
        Err(refused) => Err(Fail::new(format_args!("{:?}", refused.0))),
    }
}

// So many events are recorded, and as many receipts are there.
fn expect_count<L: Ledger>(settled: &Settled<L>, events: usize) -> Result<(), Fail> {
    let recorded = settled.held.history().len();
    let receipts = count_receipts(&settled.seats);
    if recorded != events || receipts != events {
        return Err(Fail::new(format_args!("{recorded} events, {receipts} receipts")));
    }
    Ok(())
}

// The number of receipts of some seats.
fn count_receipts<L: Ledger>(seats: &[Seat<L>]) -> usize {
    let mut count = 0usize;
    for seat in seats {
        count = count.saturating_add(seat.receipts().len());
    }
    count
}

/// These seats aren't settled, and all is handed back.
pub fn expect_unsettled<L: Ledger>(
    closed: Closed<L>,
    seats: Vec<Seat<L>>,
) -> Result<(Closed<L>, Vec<Seat<L>>), Fail> {
    match closed.settle(seats) {
        Ok(_) => Err(Fail::new("settled")),
        Err((DeskFault::Unsettled, closed, seats)) => Ok((closed, seats)),
        Err(refused) => Err(Fail::new(format_args!("{:?}", refused.0))),
    }
}
