//! `replay`, `audit` and `capture` over captures in memory.

use crate::calls::{Call, called, check_taken, replayed_within, spelled};
use crate::capture_rows::{REPORT, TRADE, TRAIL};
use crate::desk_rows::report_of_two;
use crate::dialogues::{captured, spell, two_trades};
use crate::frames::stream;
use crate::memory::{AT_ONCE, BY_BYTES, INTERRUPTED, Manner, cut_at, failing, reader, writer};
use blot_desk::Held;
use blotter::ReplayFault;
use std::alloc::{AllocError, Global};
use std::process::Abort;
use std::test::Fail;

// A capture comes to this text, which is flushed once.
fn check_written(
    rt: &(impl Abort + AllocGlobal),
    call: Call,
    bytes: &[u8],
    expected: &[u8],
    manner: Manner,
) -> Result<(), Fail> {
    let mut sink = writer(rt.alloc(), manner);
    let outcome = called(rt.alloc(), call, &mut reader(bytes, manner), &mut sink)?;
    assert_eq!(rt; outcome, Ok(()), "{call:?}");
    assert_eq!(rt; sink.written.as_slice(), expected, "{call:?}");
    assert_eq!(rt; sink.flushes, 1, "{call:?}");
    Ok(())
}

// Noise, the Logon of BRKA, and two trades.
fn noise_and_trades(alloc: Global) -> Result<Vec<u8>, AllocError> {
    let mut bytes = stream(alloc, "!noise")?;
    bytes.extend_from_slice(two_trades(alloc)?.as_slice())?;
    Ok(bytes)
}

// Two commands come to a desk, and two entries are live then.
fn check_desk(rt: &(impl Abort + AllocGlobal), bytes: &[u8], manner: Manner) -> Result<(), Fail> {
    let mut held = Held::new(rt.alloc());
    check_taken(rt, &mut held, &mut reader(bytes, manner), (Ok(()), 2, 2))
}

#[test]
fn a_capture_in_pieces(rt: HostRuntime) -> Result<(), Fail> {
    let bytes = noise_and_trades(rt.alloc())?;
    let report = spell(rt.alloc(), report_of_two(), u64::MAX)?;
    for manner in [AT_ONCE, BY_BYTES, INTERRUPTED] {
        check_written(&rt, Call::Replay, &bytes, &report.answers, manner)?;
        check_desk(&rt, &bytes, manner)?;
    }
    Ok(())
}

// Four bytes a write, and one that fails.
fn failing_write(fails_at: u64) -> Manner {
    let manner = Manner { most: 4, ..AT_ONCE };
    failing(manner, fails_at)
}

// A call comes to a fault, with this written.
fn check_fault(
    rt: &(impl Abort + AllocGlobal),
    call: Call,
    bytes: &[u8],
    (reads, writes): (Manner, Manner),
    fault: ReplayFault,
    written: &[u8],
) -> Result<(), Fail> {
    let mut sink = writer(rt.alloc(), writes);
    let outcome = called(rt.alloc(), call, &mut reader(bytes, reads), &mut sink)?;
    assert_eq!(rt; outcome, Err(fault), "{call:?}");
    assert_eq!(rt; sink.written.as_slice(), written, "{call:?}");
    Ok(())
}

// The first so many bytes of a text.
fn front(text: &[u8], count: usize) -> &[u8] {
    text.get(..count).unwrap_or(text)
}

// Three reads: a piece, the rest and the end. One that fails leaves nothing written.
fn check_reads(rt: &(impl Abort + AllocGlobal), call: Call, bytes: &[u8]) -> Result<(), Fail> {
    for fails_at in 1..4 {
        let manner = failing(cut_at(100), fails_at);
        check_fault(rt, call, bytes, (manner, AT_ONCE), ReplayFault::Read, b"")?;
    }
    Ok(())
}

// A write that fails leaves what was written before, and so does the flush after the last.
fn check_writes(
    rt: &(impl Abort + AllocGlobal),
    call: Call,
    bytes: &[u8],
    expected: &[u8],
) -> Result<(), Fail> {
    for before in 0..=expected.len().div_ceil(4) {
        let manner = failing_write(before as u64 + 1);
        let written = front(expected, before.saturating_mul(4));
        let manners = (AT_ONCE, manner);
        check_fault(rt, call, bytes, manners, ReplayFault::Write, written)?;
    }
    let manners = (AT_ONCE, Manner { most: 0, ..AT_ONCE });
    check_fault(rt, call, bytes, manners, ReplayFault::Write, b"")
}

// What a call writes of the first trade, at every cut into two pieces and at every failure.
fn check_call(
    rt: &(impl Abort + AllocGlobal),
    call: Call,
    bytes: &[u8],
    expected: &[u8],
) -> Result<(), Fail> {
    for cut in 1..266 {
        check_written(rt, call, bytes, expected, cut_at(cut))?;
    }
    check_reads(rt, call, bytes)?;
    check_writes(rt, call, bytes, expected)
}

// What a call writes of the first trade is the text of these words.
fn check_words(
    rt: &(impl Abort + AllocGlobal),
    call: Call,
    bytes: &[u8],
    words: &str,
) -> Result<(), Fail> {
    let expected = spelled(rt.alloc(), words)?;
    check_call(rt, call, bytes, &expected)
}

#[test]
fn the_first_trade_at_every_cut_and_every_failure(rt: HostRuntime) -> Result<(), Fail> {
    let bytes = captured(rt.alloc(), TRADE)?;
    assert_eq!(rt; bytes.len(), 266);
    check_words(&rt, Call::Replay, &bytes, REPORT)?;
    check_words(&rt, Call::Audit, &bytes, TRAIL)
}

// With so many reads at most a capture comes to this outcome after so many calls of the reader, and this is written.
fn check_within(
    rt: &(impl Abort + AllocGlobal),
    bytes: &[u8],
    manner: Manner,
    reads: u64,
    expected: (Result<(), ReplayFault>, u64, &[u8]),
) -> Result<(), Fail> {
    let (mut source, mut sink) = (reader(bytes, manner), writer(rt.alloc(), AT_ONCE));
    let outcome = replayed_within(rt.alloc(), &mut source, &mut sink, reads)?;
    assert_eq!(rt; outcome, expected.0, "{reads} reads");
    assert_eq!(rt; source.reads, expected.1, "{reads} reads");
    assert_eq!(rt; sink.written.as_slice(), expected.2, "{reads} reads");
    Ok(())
}

// A capture needs so many reads: with fewer they are all made, and one more is needed.
fn check_needed(
    rt: &(impl Abort + AllocGlobal),
    bytes: &[u8],
    manner: Manner,
    needed: u64,
    report: &[u8],
) -> Result<(), Fail> {
    for reads in 0..needed {
        check_within(
            rt,
            bytes,
            manner,
            reads,
            (Err(ReplayFault::TooLong), reads, b""),
        )?;
    }
    for reads in [needed, needed + 1, u64::MAX] {
        check_within(rt, bytes, manner, reads, (Ok(()), needed, report))?;
    }
    Ok(())
}

#[test]
fn as_many_reads_as_are_needed(rt: HostRuntime) -> Result<(), Fail> {
    let bytes = captured(rt.alloc(), TRADE)?;
    let report = spelled(rt.alloc(), REPORT)?;
    let empty = spelled(rt.alloc(), "report>20240105/end>0/")?;

    // The read that finds the end is one of them, and so is each that is interrupted: half of those by sevens.
    check_needed(&rt, &bytes, AT_ONCE, 2, &report)?;
    check_needed(&rt, &bytes, cut_at(100), 3, &report)?;
    check_needed(&rt, &bytes, BY_BYTES, 267, &report)?;
    check_needed(&rt, &bytes, INTERRUPTED, 78, &report)?;
    check_needed(&rt, b"", AT_ONCE, 1, &empty)
}

#[test]
fn a_read_that_fails_is_no_read_too_many(rt: HostRuntime) -> Result<(), Fail> {
    let bytes = captured(rt.alloc(), TRADE)?;

    // The third read fails, if it is made.
    let manner = failing(cut_at(100), 3);
    check_within(&rt, &bytes, manner, 2, (Err(ReplayFault::TooLong), 2, b""))?;
    check_within(&rt, &bytes, manner, 3, (Err(ReplayFault::Read), 3, b""))?;
    check_within(&rt, &bytes, manner, 4, (Err(ReplayFault::Read), 3, b""))
}
