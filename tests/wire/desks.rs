//! `desk_lines` over terminals in memory, and captures into a desk that goes on.

use crate::calls::check_taken;
use crate::capture_rows::TRADE;
use crate::desk_rows::{morning, report_of_two};
use crate::dialogues::{Told, captured, desk, spell, two_trades};
use crate::memory::{
    AT_ONCE, BY_BYTES, BY_LINES, INTERRUPTED, Manner, cut_at, failing, reader, writer,
};
use blot_desk::Held;
use blotter::{ReplayFault, desk_lines};
use std::process::Abort;
use std::test::Fail;

// What is typed comes to its answers; so it does without the LF of its last line.
fn check_typed(
    rt: &(impl Abort + AllocGlobal),
    held: &mut Held,
    rows: &[Told],
    manner: Manner,
    cut: usize,
) -> Result<(), Fail> {
    let dialogue = spell(rt.alloc(), rows, u64::MAX)?;
    let typed = dialogue.typed.as_slice();
    let typed = typed
        .get(..typed.len().saturating_sub(cut))
        .unwrap_or(typed);
    let mut screen = writer(rt.alloc(), manner);
    let outcome = desk_lines(rt.alloc(), &mut reader(typed, manner), &mut screen, held);
    assert_eq!(rt; outcome, Ok(()));
    assert_eq!(rt; screen.written.as_slice(), dialogue.answers.as_slice());
    Ok(())
}

// The operator's morning at a desk of its own, which took a capture.
fn check_morning(
    rt: &(impl Abort + AllocGlobal),
    bytes: &[u8],
    manner: Manner,
    cut: usize,
) -> Result<(), Fail> {
    let mut held = desk(rt.alloc(), bytes)?;
    check_typed(rt, &mut held, morning(), manner, cut)
}

#[test]
fn a_morning_in_pieces(rt: HostRuntime) -> Result<(), Fail> {
    let bytes = captured(rt.alloc(), TRADE)?;
    for manner in [BY_LINES, AT_ONCE, BY_BYTES, INTERRUPTED] {
        check_morning(&rt, &bytes, manner, 0)?;
        check_morning(&rt, &bytes, manner, 1)?;
    }
    Ok(())
}

// A read that fails leaves the commands taken that came before. Each capture has sessions of its own.
fn take_failing(
    rt: &(impl Abort + AllocGlobal),
    held: &mut Held,
    bytes: &[u8],
) -> Result<(), Fail> {
    for (fails_at, events) in [(1, 0), (2, 0), (3, 1)] {
        let mut source = reader(bytes, failing(cut_at(100), fails_at));
        let expected = (Err(ReplayFault::Read), events, events);
        check_taken(rt, held, &mut source, expected)?;
    }
    Ok(())
}

// The first trade again is refused, and recorded; then it comes once more with another after it.
fn take_whole(rt: &(impl Abort + AllocGlobal), held: &mut Held, bytes: &[u8]) -> Result<(), Fail> {
    check_taken(rt, held, &mut reader(bytes, cut_at(100)), (Ok(()), 2, 1))?;
    let more = two_trades(rt.alloc())?;
    check_taken(rt, held, &mut reader(&more, AT_ONCE), (Ok(()), 4, 2))
}

#[test]
fn captures_into_a_desk_that_holds_events(rt: HostRuntime) -> Result<(), Fail> {
    let mut held = Held::new(rt.alloc());
    let bytes = captured(rt.alloc(), TRADE)?;
    take_failing(&rt, &mut held, &bytes)?;
    take_whole(&rt, &mut held, &bytes)?;
    check_typed(&rt, &mut held, report_of_two(), BY_LINES, 0)
}
