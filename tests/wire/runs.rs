//! A session served over a wire in memory, and what comes of it.

use crate::expect::text;
use crate::frames::stream;
use crate::streams::{answers, moments, shown};
use blot_gateway::{
    Ended, ListClock, ListSink, MemoryWire, Wire, greet, serve_session, serve_session_within,
};
use blot_session::{Phase, Session};
use blot_tag::Reader;
use blot_types::{Command, Text64};
use std::alloc::{AllocError as NoMemory, Global};
use std::test::Fail;

/// What a wire gives, when, and how the commands are answered; and what comes of it.
pub struct Row {
    pub name: &'static str,
    /// What the clock tells.
    pub moments: &'static str,
    pub stream: &'static str,
    /// How many reads bring nothing after the stream.
    pub quiet: usize,
    /// How the sink answers the first three commands.
    pub answer: &'static str,
    /// The commands that the sink takes.
    pub taken: &'static str,
    /// The frames that are written.
    pub written: &'static [&'static str],
    pub ended: &'static str,
    /// The number that the session expects then.
    pub expected: u64,
}

/// How a wire gives a stream, and takes what is written.
#[derive(Clone, Copy)]
pub struct Manner {
    /// The bytes of a read, at least 1.
    pub piece: usize,
    /// The most bytes of a write.
    pub room: usize,
    /// Whether the wire is greeted before it is served.
    pub greets: bool,
    /// The most reads after the greeting, where they are bounded.
    pub reads: Option<u64>,
    pub failing_read: Option<usize>,
    pub failing_write: Option<usize>,
}

/// All at once, after a greeting.
pub const WHOLE: Manner = Manner {
    piece: 10_000_000,
    room: 10_000_000,
    greets: true,
    reads: None,
    failing_read: None,
    failing_write: None,
};

/// A byte a read and a byte a write, with no greeting.
pub const BY_BYTES: Manner = Manner {
    piece: 1,
    room: 1,
    greets: false,
    reads: None,
    failing_read: None,
    failing_write: None,
};

/// Seven bytes a read and seven a write.
pub const BY_SEVENS: Manner = Manner {
    piece: 7,
    room: 7,
    greets: true,
    reads: None,
    failing_read: None,
    failing_write: None,
};

/// What comes of a run.
#[derive(Drop)]
pub struct Run {
    pub ended: Ended,
    pub wire: MemoryWire,
    pub sink: ListSink,
}

/// A new session of own MO with BRKA.
pub fn new_session() -> Result<Session, Fail> {
    Ok(Session::new(text(b"MO")?, text(b"BRKA")?))
}

/// The wire that gives a row's stream.
pub fn wire_of(alloc: Global, row: &Row, manner: Manner) -> Result<MemoryWire, Fail> {
    let bytes = stream(alloc, row.stream)?;
    let mut sizes = Vec::new(alloc);
    for _ in 0..bytes.len().div_ceil(manner.piece.max(1)) {
        sizes.push(manner.piece)?;
    }
    for _ in 0..row.quiet {
        sizes.push(0)?;
    }
    let mut wire = MemoryWire::new(alloc, bytes);
    wire.set_reads(sizes);
    wire.set_write_room(manner.room);
    if let Some(read) = manner.failing_read {
        wire.fail_read(read);
    }
    if let Some(write) = manner.failing_write {
        wire.fail_write(write);
    }
    Ok(wire)
}

// Serves a session, with so many reads at most where they are bounded.
fn serve_at_most(
    alloc: Global,
    wire: &mut MemoryWire,
    clock: &mut ListClock,
    sink: &mut ListSink,
    reader: &mut Reader,
    session: &mut Session,
    reads: Option<u64>,
) -> Ended {
    match reads {
        Some(reads) => serve_session_within(alloc, wire, clock, sink, reader, session, reads),
        None => serve_session(alloc, wire, clock, sink, reader, session),
    }
}

/// Serves a session by a row's stream, from the greeting on where there is one.
pub fn run_of(
    alloc: Global,
    row: &Row,
    manner: Manner,
    session: &mut Session,
) -> Result<Run, Fail> {
    let mut wire = wire_of(alloc, row, manner)?;
    let mut clock = ListClock::new(moments(alloc, row.moments)?);
    let mut sink = ListSink::new(alloc, answers(alloc, row.answer)?);
    let mut reader = Reader::new(alloc);
    if manner.greets {
        if let Err(ended) = greet(alloc, &mut wire, &mut reader, text(b"MO")?) {
            return Ok(Run { ended, wire, sink });
        }
    }
    if session.is_awaiting() {
        return Err(Fail::new("a reply is awaited"));
    }
    let ended = serve_at_most(
        alloc,
        &mut wire,
        &mut clock,
        &mut sink,
        &mut reader,
        session,
        manner.reads,
    );
    if session.phase() != Phase::Closed {
        return Err(Fail::new(format_args!("{}: not closed", row.name)));
    }
    Ok(Run { ended, wire, sink })
}

/// Serves a session that delivers nothing over a wire, at one moment.
pub fn serve<W: Wire>(alloc: Global, wire: &mut W, session: &mut Session) -> Result<Ended, Fail> {
    let mut clock = ListClock::new(moments(alloc, "20240105-10:00:01.000")?);
    let mut sink = ListSink::new(alloc, Vec::new(alloc));
    let mut reader = Reader::new(alloc);
    if session.is_awaiting() {
        return Err(Fail::new("a reply is awaited"));
    }
    let ended = serve_session(alloc, wire, &mut clock, &mut sink, &mut reader, session);
    if !sink.taken().is_empty() {
        return Err(Fail::new("a command"));
    }
    Ok(ended)
}

/// Commands, each with what it asks and its own identifier.
pub fn commands_text(alloc: Global, commands: &[Command]) -> Result<String, NoMemory> {
    let mut text = String::new(alloc);
    for command in commands {
        push_command(&mut text, command)?;
        text.push_str("; ")?;
    }
    Ok(text)
}

// A command: what it asks, and its own identifier.
fn push_command(text: &mut String, command: &Command) -> Result<(), NoMemory> {
    match command {
        Command::Trade(trade) => push_word(text, "trade ", &trade.key.id),
        Command::AllocNew(new) => push_word(text, "allocate ", &new.key.id),
        _ => text.push_str("another"),
    }
}

// A word and an identifier.
fn push_word(text: &mut String, word: &str, id: &Text64) -> Result<(), NoMemory> {
    text.push_str(word)?;
    for byte in id.bytes() {
        text.push(char::from(*byte))?;
    }
    Ok(())
}

/// A text of a row is the one that is wanted.
pub fn expect_text(name: &str, found: &str, wanted: &str) -> Result<(), Fail> {
    if found != wanted {
        return Err(Fail::new(format_args!("{name}: {found} for {wanted}")));
    }
    Ok(())
}

/// A number of a row is the one that is wanted.
pub fn expect_number(name: &str, found: u64, wanted: u64) -> Result<(), Fail> {
    if found != wanted {
        return Err(Fail::new(format_args!("{name}: {found} for {wanted}")));
    }
    Ok(())
}

/// A run ended so.
pub fn expect_ended(alloc: Global, name: &str, ended: Ended, wanted: &str) -> Result<(), Fail> {
    let text = format!(in alloc; "{ended:?}")?;
    expect_text(name, text.as_str(), wanted)
}

/// What was written to a wire is just these frames.
pub fn expect_written(
    alloc: Global,
    name: &str,
    wire: &MemoryWire,
    frames: &[&str],
) -> Result<(), Fail> {
    let mut wanted = String::new(alloc);
    for frame in frames {
        wanted.push_str(frame)?;
    }
    let text = shown(alloc, wire.written())?;
    expect_text(name, text.as_str(), wanted.as_str())
}

/// A run came to what its row says, and nothing failed in it.
pub fn expect_run(alloc: Global, row: &Row, run: &Run, session: &Session) -> Result<(), Fail> {
    let taken = commands_text(alloc, run.sink.taken())?;
    expect_text(row.name, taken.as_str(), row.taken)?;
    expect_written(alloc, row.name, &run.wire, row.written)?;
    expect_ended(alloc, row.name, run.ended, row.ended)?;
    expect_number(row.name, session.expected(), row.expected)?;
    expect_number(row.name, run.wire.faults(), 0)
}
