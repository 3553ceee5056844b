//! A wire that ends, or whose read fails, within the frame of a trade.

use crate::frames::stream;
use crate::rows::first_trade;
use crate::runs::{expect_ended, expect_number, expect_written, new_session, serve};
use blot_gateway::{MemoryWire, Wire};
use std::alloc::Global;
use std::test::Fail;

// The bytes of the first trade's Logon, and of all.
const LOGON_SIZE: usize = 79;

const SIZE: usize = 266;

// The wire that gives so many bytes of the first trade in one read. The next read finds its end, or fails.
fn cut_wire(alloc: Global, cut: usize, fails: bool) -> Result<MemoryWire, Fail> {
    let bytes = stream(alloc, first_trade().stream)?;
    expect_number("bytes", bytes.len() as u64, SIZE as u64)?;
    let mut front = Vec::new(alloc);
    front.extend_from_slice(bytes.as_slice().get(..cut).unwrap_or(&[]))?;
    let mut wire = MemoryWire::new(alloc, front);
    if fails {
        wire.fail_read(1);
    }
    Ok(wire)
}

// The Logon counts and is answered, the trade doesn't count, and nothing is delivered.
fn expect_cut(alloc: Global, cut: usize, fails: bool) -> Result<(), Fail> {
    let (name, number) = if fails { ("ReadFault", 2) } else { ("End", 1) };
    let (mut wire, mut session) = (cut_wire(alloc, cut, fails)?, new_session()?);
    let ended = serve(alloc, &mut wire, &mut session)?;
    expect_ended(alloc, "a cut", ended, name)?;
    expect_number("its ending", u64::from(ended.number()), number)?;
    expect_number("its session", session.expected(), 2)?;
    expect_number("its failures", wire.faults(), u64::from(fails))?;
    expect_written(alloc, "a cut", &wire, first_trade().written)
}

#[test]
fn a_trade_that_never_comes_whole(rt: HostRuntime) -> Result<(), Fail> {
    for cut in LOGON_SIZE + 1..SIZE {
        expect_cut(rt.alloc(), cut, false)?;
        expect_cut(rt.alloc(), cut, true)?;
    }
    Ok(())
}
