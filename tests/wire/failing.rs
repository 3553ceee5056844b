//! Wires that fail at each read and at each write in turn.

use crate::frames::{frame, stream};
use crate::rows::{allocation, booked, first_trade, gap, written_text};
use crate::runs::{
    BY_BYTES, BY_SEVENS, Manner, Row, Run, WHOLE, commands_text, expect_ended, expect_number,
    expect_run, expect_text, expect_written, new_session, run_of, serve,
};
use crate::streams::shown;
use blot_gateway::{Ended, MemoryWire, Wire};
use blot_session::{CloseReason, Session};
use std::alloc::{AllocError as NoMemory, Global};
use std::test::Fail;

// More calls than a wire of these tests gets.
const CALLS: usize = 10_000;

// How many of a row's frames begin before a place of what is written.
fn begun(row: &Row, place: usize) -> u64 {
    let (mut count, mut start) = (0u64, 0usize);
    for frame in row.written {
        if start < place {
            count = count.saturating_add(1);
        }
        start = start.saturating_add(frame.len());
    }
    count
}

// What was taken and written is a front of what the row says.
fn expect_front(alloc: Global, row: &Row, run: &Run) -> Result<(), Fail> {
    let taken = commands_text(alloc, run.sink.taken())?;
    let wanted = written_text(alloc, row)?;
    let written = shown(alloc, run.wire.written())?;
    if !row.taken.starts_with(taken.as_str()) || !wanted.as_str().starts_with(written.as_str()) {
        return Err(Fail::new(format_args!("{}: {taken}{written}", row.name)));
    }
    Ok(())
}

// No command is lost, and none counts twice: after the first that was taken, the session expects the number after the last.
fn expect_counted(row: &Row, run: &Run, session: &Session) -> Result<(), Fail> {
    let (expected, taken) = (session.expected(), run.sink.taken().len() as u64);
    let commands = row.taken.split("; ").count().saturating_sub(1) as u64;
    let first = row.expected.saturating_sub(commands);
    if expected == first.saturating_add(taken) || (taken == 0 && expected < first) {
        return Ok(());
    }
    Err(Fail::new(format_args!("{}: {expected} behind {taken}", row.name)))
}

// A Logon under this number, and a Logout after it.
fn on_and_off(alloc: Global, from: &str, moment: &str, number: u64) -> Result<Vec<u8>, NoMemory> {
    let behind = number.saturating_add(1);
    let on = format!(in alloc; "35=A|{from}|34={number}|52={moment}|98=0|108=30|")?;
    let off = format!(in alloc; "35=5|{from}|34={behind}|52={moment}|")?;
    let mut bytes = frame(alloc, on.as_str())?;
    bytes.extend_from_slice(frame(alloc, off.as_str())?.as_slice())?;
    Ok(bytes)
}

// Over another wire the session goes on with its numbers, where it has sent so many messages.
fn expect_going_on(alloc: Global, row: &Row, session: &mut Session, sent: u64) -> Result<(), Fail> {
    let number = session.expected();
    session.wait_again();
    let peers = on_and_off(alloc, "49=BRKA|56=MO", "20240105-10:00:00", number)?;
    let wanted = on_and_off(
        alloc,
        "49=MO|56=BRKA",
        "20240105-10:00:01.000",
        sent.saturating_add(1),
    )?;
    let mut wire = MemoryWire::new(alloc, peers);
    let ended = serve(alloc, &mut wire, session)?;
    if ended != Ended::Closed(CloseReason::LoggedOut) || wire.written() != wanted.as_slice() {
        let written = shown(alloc, wire.written())?;
        return Err(Fail::new(format_args!("{}: {ended:?} {written}", row.name)));
    }
    expect_number(row.name, session.expected(), number.saturating_add(2))
}

// A run with one failure: how it ended, what was done before, and what the session does then.
fn expect_failure(
    alloc: Global,
    row: &Row,
    run: &Run,
    session: &mut Session,
    writes: bool,
) -> Result<(), Fail> {
    let wanted = if writes { "WriteFault" } else { "ReadFault" };
    expect_ended(alloc, row.name, run.ended, wanted)?;
    expect_number(row.name, run.wire.faults(), 1)?;
    expect_front(alloc, row, run)?;
    expect_counted(row, run, session)?;
    let written = run.wire.written().len();
    let place = if writes {
        written.saturating_add(1)
    } else {
        written
    };
    expect_going_on(alloc, row, session, begun(row, place))
}

// Whether a call failed. If none did, the run came to what its row says.
fn fails(alloc: Global, row: &Row, manner: Manner) -> Result<bool, Fail> {
    let mut session = new_session()?;
    let run = run_of(alloc, row, manner, &mut session)?;
    if run.wire.faults() == 0 {
        expect_run(alloc, row, &run, &session)?;
        return Ok(false);
    }
    let writes = manner.failing_write.is_some();
    expect_failure(alloc, row, &run, &mut session, writes)?;
    Ok(true)
}

// Each read fails in turn: how many there are.
fn fail_reads(alloc: Global, row: &Row, manner: Manner) -> Result<usize, Fail> {
    for read in 0..CALLS {
        let failing = Manner {
            failing_read: Some(read),
            ..manner
        };
        if !fails(alloc, row, failing)? {
            return Ok(read);
        }
    }
    Err(Fail::new("too many reads"))
}

// Each write fails in turn: how many there are.
fn fail_writes(alloc: Global, row: &Row, manner: Manner) -> Result<usize, Fail> {
    for write in 0..CALLS {
        let failing = Manner {
            failing_write: Some(write),
            ..manner
        };
        if !fails(alloc, row, failing)? {
            return Ok(write);
        }
    }
    Err(Fail::new("too many writes"))
}

// There are as many reads as pieces at least.
fn expect_reads(alloc: Global, row: &Row, manner: Manner) -> Result<(), Fail> {
    let bytes = stream(alloc, row.stream)?;
    let reads = fail_reads(alloc, row, manner)?;
    if reads < bytes.len().div_ceil(manner.piece.max(1)) {
        return Err(Fail::new(format_args!("{}: {reads} reads", row.name)));
    }
    Ok(())
}

#[test]
fn each_read_fails_in_turn(rt: HostRuntime) -> Result<(), Fail> {
    for row in [first_trade(), gap(), allocation(), booked()] {
        for manner in [WHOLE, BY_SEVENS] {
            expect_reads(rt.alloc(), row, manner)?;
        }
    }
    Ok(())
}

// There is a write for each frame where they are taken whole, and one for each byte where they aren't.
fn expect_writes(alloc: Global, row: &Row) -> Result<(), Fail> {
    let whole = fail_writes(alloc, row, WHOLE)?;
    let bytes = fail_writes(alloc, row, BY_BYTES)?;
    if whole != row.written.len() || bytes != written_text(alloc, row)?.len() {
        return Err(Fail::new(format_args!("{}: {whole}, {bytes} writes", row.name)));
    }
    Ok(())
}

#[test]
fn each_write_fails_in_turn(rt: HostRuntime) -> Result<(), Fail> {
    for row in [first_trade(), gap(), allocation(), booked()] {
        expect_writes(rt.alloc(), row)?;
    }
    Ok(())
}

// The Logon is answered, and the command after it counts, though its acknowledgment can't be written.
fn expect_unacknowledged(alloc: Global, row: &Row, session: &mut Session) -> Result<(), Fail> {
    let manner = Manner {
        failing_write: Some(1),
        ..WHOLE
    };
    let run = run_of(alloc, row, manner, session)?;
    let taken = commands_text(alloc, run.sink.taken())?;
    expect_text(row.name, taken.as_str(), row.taken)?;
    expect_ended(alloc, row.name, run.ended, "WriteFault")?;
    expect_number(row.name, run.wire.faults(), 1)?;
    expect_number(row.name, session.expected(), row.expected)?;
    expect_written(
        alloc,
        row.name,
        &run.wire,
        row.written.get(..1).unwrap_or(&[]),
    )
}

// Over another wire the peer sends the allocation again, as one that it sent before: the sink gets no command.
fn expect_no_second(alloc: Global, row: &Row, session: &mut Session) -> Result<(), Fail> {
    session.wait_again();
    let again = "\
35=A|49=BRKA|56=MO|34=3|52=20240105-10:00:00|98=0|108=30|\n\
35=J|49=BRKA|56=MO|34=2|43=Y|52=20240105-10:00:00|70=AL1|71=0|54=1|55=XYZ|53=100|6=10.5|75=20240105|124=1|17=E1|78=2|79=A|80=60|366=10.25|79=B|80=40|";
    let mut wire = MemoryWire::new(alloc, stream(alloc, again)?);
    let ended = serve(alloc, &mut wire, session)?;
    expect_ended(alloc, row.name, ended, "End")?;
    expect_number(row.name, session.expected(), 4)
}

#[test]
fn an_acknowledgment_that_is_not_written(rt: HostRuntime) -> Result<(), Fail> {
    let mut session = new_session()?;
    expect_unacknowledged(rt.alloc(), allocation(), &mut session)?;
    expect_no_second(rt.alloc(), allocation(), &mut session)
}
