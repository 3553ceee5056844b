//! A bound on reads: where so many were made and one more is needed, the answer is TooLong.

use crate::rows::first_trade;
use crate::runs::{
    BY_BYTES, BY_SEVENS, Manner, Run, WHOLE, commands_text, expect_ended, expect_number,
    expect_run, expect_text, expect_written, new_session, run_of,
};
use crate::streams::answers;
use blot_gateway::{Ended, ListSink, MemoryWire, Wire, serve_session_within};
use blot_session::{Phase, Session};
use blot_tag::Reader;
use blot_time::Moment;
use callers::{Tape, TapedClock, TapedSink, TapedWire};
use std::alloc::Global;
use std::test::Fail;

// The bytes of the first trade's Logon, and of all.
const LOGON_SIZE: usize = 79;

const SIZE: usize = 266;

// A wire that is always quiet: more reads than any test makes bring nothing.
fn quiet_wire(alloc: Global, tape: &Tape) -> Result<TapedWire<'_>, Fail> {
    let mut sizes = Vec::new(alloc);
    for _ in 0..100 {
        sizes.push(0)?;
    }
    let mut wire = MemoryWire::new(alloc, Vec::new(alloc));
    wire.set_reads(sizes);
    Ok(TapedWire { tape, wire })
}

// Serves a session over a quiet wire, with so many reads at most: how it ended, and the calls.
fn serve_quiet(alloc: Global, session: &mut Session, reads: u64) -> Result<(Ended, u64), Fail> {
    let tape = Tape::new();
    let mut wire = quiet_wire(alloc, &tape)?;
    let mut sink = TapedSink {
        tape: &tape,
        sink: ListSink::new(alloc, answers(alloc, "accepted")?),
    };
    let mut clock = TapedClock {
        tape: &tape,
        begin: Moment::read(b"20240105-10:00:00")?,
    };
    let mut reader = Reader::new(alloc);
    let ended = serve_session_within(
        alloc,
        &mut wire,
        &mut clock,
        &mut sink,
        &mut reader,
        session,
        reads,
    );
    expect_number("a quiet wire", wire.faults(), 0)?;
    Ok((ended, tape.calls()))
}

#[test]
fn a_quiet_wire_is_read_as_often_as_may_be(rt: HostRuntime) -> Result<(), Fail> {
    // For each read a 1, and a 3 for the clock at the moment after it.
    for (reads, calls) in [
        (0, 0),
        (1, 13),
        (2, 13_13),
        (3, 13_13_13),
        (5, 13_13_13_13_13),
    ] {
        let mut session = new_session()?;
        let (ended, found) = serve_quiet(rt.alloc(), &mut session, reads)?;
        expect_ended(rt.alloc(), "a quiet wire", ended, "TooLong")?;
        expect_number("its ending", u64::from(ended.number()), 4)?;
        expect_number("its calls", found, calls)?;
        if session.phase() != Phase::Closed {
            return Err(Fail::new("not closed"));
        }
    }
    Ok(())
}

// After so many bytes of the first trade the reads are used up: what came whole counts, and nothing failed.
fn expect_used_up(alloc: Global, run: &Run, session: &Session, bytes: usize) -> Result<(), Fail> {
    let row = first_trade();
    let (frames, taken, expected) = if bytes >= SIZE {
        (1, row.taken, 3)
    } else if bytes >= LOGON_SIZE {
        (1, "", 2)
    } else {
        (0, "", 1)
    };
    let written = row.written.get(..frames).unwrap_or(&[]);
    expect_ended(alloc, row.name, run.ended, "TooLong")?;
    expect_written(alloc, row.name, &run.wire, written)?;
    expect_text(
        row.name,
        commands_text(alloc, run.sink.taken())?.as_str(),
        taken,
    )?;
    expect_number(row.name, session.expected(), expected)?;
    expect_number(row.name, run.wire.faults(), 0)
}

// The first trade, with so many reads at most: what comes of it.
fn run_within(
    alloc: Global,
    manner: Manner,
    session: &mut Session,
    reads: u64,
) -> Result<Run, Fail> {
    let bounded = Manner {
        reads: Some(reads),
        ..manner
    };
    run_of(alloc, first_trade(), bounded, session)
}

// The session of the first trade needs so many reads, before which so many bytes came.
fn expect_needed(alloc: Global, manner: Manner, needed: u64, greeted: usize) -> Result<(), Fail> {
    for reads in 0..needed {
        let mut session = new_session()?;
        let run = run_within(alloc, manner, &mut session, reads)?;
        let bytes = (reads as usize).saturating_mul(manner.piece);
        expect_used_up(alloc, &run, &session, greeted.saturating_add(bytes))?;
    }
    for reads in [needed, needed + 1, u64::MAX] {
        let mut session = new_session()?;
        let run = run_within(alloc, manner, &mut session, reads)?;
        expect_run(alloc, first_trade(), &run, &session)?;
    }
    Ok(())
}

#[test]
fn one_read_more_is_needed(rt: HostRuntime) -> Result<(), Fail> {
    let unasked = Manner {
        greets: false,
        ..WHOLE
    };

    // The read that finds the end is one of them. A greeting reads all there is, or twelve times seven bytes.
    expect_needed(rt.alloc(), unasked, 2, 0)?;
    expect_needed(rt.alloc(), BY_BYTES, 267, 0)?;
    expect_needed(rt.alloc(), WHOLE, 1, SIZE)?;
    expect_needed(rt.alloc(), BY_SEVENS, 27, 84)
}
