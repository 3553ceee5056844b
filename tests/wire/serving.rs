//! Connections from their first byte to their end.

use crate::rows::{answered, first_trade, gap, silence};
use crate::runs::{
    BY_BYTES, BY_SEVENS, Manner, Row, WHOLE, expect_number, expect_run, new_session, run_of,
};
use blot_gateway::Ended;
use blot_session::CloseReason;
use std::alloc::Global;
use std::test::Fail;

// A row, over a wire of this manner.
fn expect_row(alloc: Global, row: &Row, manner: Manner) -> Result<(), Fail> {
    let mut session = new_session()?;
    let run = run_of(alloc, row, manner, &mut session)?;
    expect_run(alloc, row, &run, &session)
}

// A row, over a wire of each manner.
fn expect_each_way(alloc: Global, row: &Row) -> Result<(), Fail> {
    let unasked = Manner {
        greets: false,
        ..WHOLE
    };
    for manner in [WHOLE, unasked, BY_BYTES, BY_SEVENS] {
        expect_row(alloc, row, manner)?;
    }
    Ok(())
}

#[test]
fn one_wire_in_memory(rt: HostRuntime) -> Result<(), Fail> {
    expect_each_way(rt.alloc(), first_trade())
}

#[test]
fn a_gap_is_asked_for_again(rt: HostRuntime) -> Result<(), Fail> {
    expect_each_way(rt.alloc(), gap())
}

#[test]
fn answers_of_the_sink(rt: HostRuntime) -> Result<(), Fail> {
    for row in answered() {
        expect_each_way(rt.alloc(), row)?;
    }
    Ok(())
}

#[test]
fn a_silent_peer(rt: HostRuntime) -> Result<(), Fail> {
    expect_row(rt.alloc(), silence(), WHOLE)
}

#[test]
fn numbers_of_endings(_rt: HostRuntime) -> Result<(), Fail> {
    let rows = [
        (Ended::Closed(CloseReason::NoLogon), 0),
        (Ended::Closed(CloseReason::NotTaken), 0),
        (Ended::End, 1),
        (Ended::ReadFault, 2),
        (Ended::WriteFault, 3),
        (Ended::TooLong, 4),
        (Ended::NoMemory, 5),
    ];
    for (ended, number) in rows {
        expect_number("an ending", u64::from(ended.number()), number)?;
    }
    Ok(())
}
