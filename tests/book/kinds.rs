//! Each kind of command by itself: taken and taken back by its own calls, and refused.

use crate::words::Filled::Buys;
use crate::words::{Booked, alloc_cancel, alloc_new, alloc_replace, bust, correct, trade};
use blot_command::{ApplyFault, Tables, Undoable};
use blot_types::{
    AllocCancel, AllocNew, AllocReplace, Bust, Correct, EVENTS_MAX, Refused, Sign, Trade,
};
use std::alloc::Global;
use std::test::Fail;

// 100 of E1 at 10, 60 to A and 40 to B.
const FIRST: Booked = Booked {
    sign: Sign::Buy,
    execs: &[b"E1"],
    block: b"100",
    lines: &[[b"A", b"60", b"10"], [b"B", b"40", b"10"]],
};

// A trade is taken, and its inverse hands it back.
fn trade_and_back(tables: &mut Tables, number: u64, sent: Trade) -> Result<(), Fail> {
    let Ok(inverse) = sent.apply(tables, number) else {
        return Err(Fail::new("the trade is refused"));
    };
    if Trade::revert(inverse, tables) != sent {
        return Err(Fail::new("another trade came back"));
    }
    Ok(())
}

// A correction is taken, and its inverse hands it back.
fn correct_and_back(tables: &mut Tables, number: u64, sent: Correct) -> Result<(), Fail> {
    let Ok(inverse) = sent.apply(tables, number) else {
        return Err(Fail::new("the correction is refused"));
    };
    if Correct::revert(inverse, tables) != sent {
        return Err(Fail::new("another correction came back"));
    }
    Ok(())
}

// A bust is taken, and its inverse hands it back.
fn bust_and_back(tables: &mut Tables, number: u64, sent: Bust) -> Result<(), Fail> {
    let Ok(inverse) = sent.apply(tables, number) else {
        return Err(Fail::new("the bust is refused"));
    };
    if Bust::revert(inverse, tables) != sent {
        return Err(Fail::new("another bust came back"));
    }
    Ok(())
}

// Refused under a number, for this reason, a bust comes back.
fn refused_bust(tables: &mut Tables, number: u64, sent: Bust, reason: Refused) -> Result<(), Fail> {
    match sent.apply(tables, number) {
        Ok(_) => Err(Fail::new("the bust is taken")),
        Err((back, fault)) => {
            if back != sent || fault != ApplyFault::Refused(reason) {
                return Err(Fail::new(format_args!("refused with {fault:?}")));
            }
            Ok(())
        }
    }
}

// The trade E1, 100 of 300 at 10.50.
fn first_trade() -> Result<Trade, Fail> {
    trade(b"BRKA", b"E1", &Buys(b"O1", b"100", b"10.50", b"300"))
}

// E2 corrects it to 80 at 10.25.
fn first_correction() -> Result<Correct, Fail> {
    correct(b"BRKA", b"E2", b"E1", &Buys(b"O1", b"80", b"10.25", b"300"))
}

#[test]
fn a_trade_by_itself(rt: HostRuntime) -> Result<(), Fail> {
    let mut tables = Tables::new(rt.alloc());
    match first_trade() {
        Ok(sent) => trade_and_back(&mut tables, 1, sent),
        Err(fail) => Err(fail),
    }
}

// The first trade is taken under 1.
fn take_first(tables: &mut Tables, first: Trade) -> Result<(), Fail> {
    match first.apply(tables, 1) {
        Ok(_) => Ok(()),
        Err(_) => Err(Fail::new("the trade is refused")),
    }
}

// A book with the first trade under 1.
fn begin(tables: &mut Tables) -> Result<(), Fail> {
    match first_trade() {
        Ok(first) => take_first(tables, first),
        Err(fail) => Err(fail),
    }
}

#[test]
fn a_correction_by_itself(rt: HostRuntime) -> Result<(), Fail> {
    let mut tables = Tables::new(rt.alloc());
    begin(&mut tables)?;
    match first_correction() {
        Ok(sent) => correct_and_back(&mut tables, 2, sent),
        Err(fail) => Err(fail),
    }
}

#[test]
fn a_bust_by_itself(rt: HostRuntime) -> Result<(), Fail> {
    let mut tables = Tables::new(rt.alloc());
    begin(&mut tables)?;
    match bust(b"BRKA", b"E2", b"E1") {
        Ok(sent) => bust_and_back(&mut tables, 2, sent),
        Err(fail) => Err(fail),
    }
}

#[test]
fn a_refused_bust_by_itself(rt: HostRuntime) -> Result<(), Fail> {
    let mut tables = Tables::new(rt.alloc());
    let sent = bust(b"BRKA", b"E2", b"E1")?;
    refused_bust(&mut tables, 1, sent, Refused::UnknownExec(sent.reference))
}

// A new allocation is taken, and its inverse hands it back.
fn new_and_back(alloc: Global, tables: &mut Tables, number: u64) -> Result<(), Fail> {
    let (sent, again) = (first_allocation(alloc)?, first_allocation(alloc)?);
    let Ok(inverse) = sent.apply(tables, number) else {
        return Err(Fail::new("the allocation is refused"));
    };
    if AllocNew::revert(inverse, tables) != again {
        return Err(Fail::new("another allocation came back"));
    }
    Ok(())
}

// An allocation in the place of another is taken, and its inverse hands it back.
fn replace_and_back(alloc: Global, tables: &mut Tables, number: u64) -> Result<(), Fail> {
    let (sent, again) = (first_replacement(alloc)?, first_replacement(alloc)?);
    let Ok(inverse) = sent.apply(tables, number) else {
        return Err(Fail::new("the replacement is refused"));
    };
    if AllocReplace::revert(inverse, tables) != again {
        return Err(Fail::new("another replacement came back"));
    }
    Ok(())
}

// The end of an allocation is taken, and its inverse hands it back.
fn cancel_and_back(tables: &mut Tables, number: u64, sent: AllocCancel) -> Result<(), Fail> {
    let Ok(inverse) = sent.apply(tables, number) else {
        return Err(Fail::new("the cancel is refused"));
    };
    if AllocCancel::revert(inverse, tables) != sent {
        return Err(Fail::new("another cancel came back"));
    }
    Ok(())
}

// The allocation AL1 of E1.
fn first_allocation(alloc: Global) -> Result<AllocNew, Fail> {
    alloc_new(alloc, b"BRKA", b"AL1", &FIRST)
}

// AL2 takes its place.
fn first_replacement(alloc: Global) -> Result<AllocReplace, Fail> {
    alloc_replace(alloc, b"BRKA", b"AL2", b"AL1", &FIRST)
}

// The allocation is taken under 2.
fn take_allocation(tables: &mut Tables, first: AllocNew) -> Result<(), Fail> {
    match first.apply(tables, 2) {
        Ok(_) => Ok(()),
        Err(_) => Err(Fail::new("the allocation is refused")),
    }
}

#[test]
fn an_allocation_by_itself(rt: HostRuntime) -> Result<(), Fail> {
    let mut tables = Tables::new(rt.alloc());
    begin(&mut tables)?;
    new_and_back(rt.alloc(), &mut tables, 2)
}

// The first allocation is taken under 2.
fn begin_allocation(alloc: Global, tables: &mut Tables) -> Result<(), Fail> {
    match first_allocation(alloc) {
        Ok(first) => take_allocation(tables, first),
        Err(fail) => Err(fail),
    }
}

#[test]
fn a_replacement_by_itself(rt: HostRuntime) -> Result<(), Fail> {
    let mut tables = Tables::new(rt.alloc());
    begin(&mut tables)?;
    begin_allocation(rt.alloc(), &mut tables)?;
    replace_and_back(rt.alloc(), &mut tables, 3)
}

#[test]
fn a_cancel_by_itself(rt: HostRuntime) -> Result<(), Fail> {
    let mut tables = Tables::new(rt.alloc());
    begin(&mut tables)?;
    begin_allocation(rt.alloc(), &mut tables)?;
    cancel_and_back(&mut tables, 3, alloc_cancel(b"BRKA", b"C1", b"AL1")?)
}
