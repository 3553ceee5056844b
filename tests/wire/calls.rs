//! `replay`, `audit` and `capture` of MO, with the peers BRKA, BRKB and BRKC, over readers and writers in memory.

use crate::expect::text;
use crate::memory::{Sink, Source};
use blot_desk::Held;
use blot_slots::are_distinct;
use blot_time::Day;
use blot_trail::audit;
use blot_types::Text64;
use blotter::{ReplayFault, capture, replay, replay_within};
use std::alloc::{AllocError, Global};
use std::process::Abort;
use std::test::Fail;

/// A call that reads a capture to its end, and then writes what it comes to.
#[derive(Clone, Copy, Debug)]
pub enum Call {
    /// The report of 5 January 2024.
    Replay,
    /// The trail.
    Audit,
}

// The peers, which differ.
fn peers() -> Result<[Text64; 3], Fail> {
    let peers = [text(b"BRKA")?, text(b"BRKB")?, text(b"BRKC")?];
    if !are_distinct(&peers) {
        return Err(Fail::new("a peer twice"));
    }
    Ok(peers)
}

/// What a call comes to.
pub fn called(
    alloc: Global,
    call: Call,
    source: &mut Source,
    sink: &mut Sink,
) -> Result<Result<(), ReplayFault>, Fail> {
    let peers = peers()?;
    let own = text(b"MO")?;
    let day = Day::read(b"20240105")?;
    match call {
        Call::Replay => Ok(replay(alloc, source, sink, own, &peers, day)),
        Call::Audit => Ok(audit(alloc, source, sink, own, &peers)),
    }
}

/// What `replay` comes to with so many reads at most.
pub fn replayed_within(
    alloc: Global,
    source: &mut Source,
    sink: &mut Sink,
    reads: u64,
) -> Result<Result<(), ReplayFault>, Fail> {
    let peers = peers()?;
    let day = Day::read(b"20240105")?;
    Ok(replay_within(alloc, source, sink, text(b"MO")?, &peers, day, reads))
}

/// Takes a capture into a desk.
pub fn taken(
    alloc: Global,
    source: &mut Source,
    held: &mut Held,
) -> Result<Result<(), ReplayFault>, Fail> {
    let peers = peers()?;
    Ok(capture(alloc, source, text(b"MO")?, &peers, held))
}

/// Adds words at the end of a text: a tab for each `>`, an LF for each `/`.
pub fn push_words(text: &mut Vec<u8>, words: &str) -> Result<(), AllocError> {
    for byte in words.as_bytes() {
        text.push(match *byte {
            b'>' => b'\t',
            b'/' => b'\n',
            other => other,
        })?;
    }
    Ok(())
}

/// The text of some words.
pub fn spelled(alloc: Global, words: &str) -> Result<Vec<u8>, AllocError> {
    let mut text = Vec::new(alloc);
    push_words(&mut text, words)?;
    Ok(text)
}

/// A capture is taken into a desk with this outcome; so many events are recorded then, and so many entries are live.
pub fn check_taken(
    rt: &(impl Abort + AllocGlobal),
    held: &mut Held,
    source: &mut Source,
    expected: (Result<(), ReplayFault>, usize, usize),
) -> Result<(), Fail> {
    let (outcome, events, entries) = expected;
    assert_eq!(rt; taken(rt.alloc(), source, held)?, outcome);
    assert_eq!(rt; held.history().len(), events);
    let live = held.snapshot()?.entries().len();
    assert_eq!(rt; live, entries);
    Ok(())
}
