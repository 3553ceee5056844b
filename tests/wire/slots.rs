//! The table of sessions: who is connected, once.

use crate::expect::{expect, text};
use blot_session::{Phase, Session};
use blot_slots::{SlotFault, SlotTable, are_distinct};
use blot_tag::Reader;
use blot_time::Moment;
use blot_types::Text64;
use std::alloc::Global;
use std::process::Abort;
use std::test::Fail;

// The texts of some names.
fn texts(alloc: Global, names: &[&str]) -> Result<Vec<Text64>, Fail> {
    let mut texts = Vec::new(alloc);
    for name in names {
        texts.push(text(name.as_bytes())?)?;
    }
    Ok(texts)
}

// The table of MO with these peers.
fn table_of(alloc: Global, names: &[&str]) -> Result<SlotTable, Fail> {
    match SlotTable::new(alloc, text(b"MO")?, &texts(alloc, names)?) {
        Ok(table) => Ok(table),
        Err(fault) => Err(Fail::new(format_args!("{fault}"))),
    }
}

// The session of a peer, handed out.
fn out(table: &mut SlotTable, name: &str) -> Result<Session, Fail> {
    match table.check_out(&text(name.as_bytes())?) {
        Ok(session) => Ok(session),
        Err(fault) => Err(Fail::new(format_args!("{fault}"))),
    }
}

// A session comes back, whose peer is out.
fn back(table: &mut SlotTable, session: Session) -> Result<(), Fail> {
    match table.check_out(session.peer()) {
        Err(SlotFault::AlreadyOn) => {
            table.check_in(session);
            Ok(())
        }
        _ => Err(Fail::new("a session was in")),
    }
}

// The session of a peer isn't handed out, for this reason.
fn expect_kept(
    rt: &impl Abort,
    table: &mut SlotTable,
    name: &str,
    fault: SlotFault,
) -> Result<(), Fail> {
    let found = table.check_out(&text(name.as_bytes())?).err();
    expect(rt, name, found == Some(fault));
    Ok(())
}

/// A session is this peer's, waits for a Logon, and expects this number.
pub fn expect_waiting(session: &Session, name: &str, number: u64) -> Result<(), Fail> {
    let (phase, expected) = (session.phase(), session.expected());
    let is_its = *session.peer() == text(name.as_bytes())?;
    if !is_its || phase != Phase::Waiting || expected != number {
        return Err(Fail::new(format_args!("{name}: {phase:?}, number {expected}")));
    }
    Ok(())
}

#[test]
fn check_out_and_check_in(rt: HostRuntime) -> Result<(), Fail> {
    let mut table = table_of(rt.alloc(), &["BRKA"])?;
    expect(&rt, "own", table.own() == text(b"MO")?);
    expect_kept(&rt, &mut table, "BRKX", SlotFault::UnknownPeer)?;
    let mut session = out(&mut table, "BRKA")?;
    expect_waiting(&session, "BRKA", 1)?;
    expect_kept(&rt, &mut table, "BRKA", SlotFault::AlreadyOn)?;
    expect_kept(&rt, &mut table, "BRKX", SlotFault::UnknownPeer)?;
    deliver(&rt, rt.alloc(), &mut session)?;
    back(&mut table, session)?;
    let session = out(&mut table, "BRKA")?;
    expect_waiting(&session, "BRKA", 2)
}

/// BRKA's Logon.
pub const LOGON: &[u8] =
    b"8=FIX.4.4\x019=57\x0135=A\x0149=BRKA\x0156=MO\x0134=1\x0152=20240105-09:59:59\x0198=0\x01108=30\x0110=003\x01";

// Its first execution.
const TRADE: &[u8] =
    b"8=FIX.4.4\x019=164\x0135=8\x0149=BRKA\x0156=MO\x0134=2\x0152=20240105-10:00:00\x0137=O1\x0117=E1\x01150=F\x0139=1\x011=A1\x0155=XYZ\x0154=1\x0138=300\x0132=100\x0131=10.50\x01151=200\x0114=100\x016=10.50\x0160=20240105-10:00:00\x0175=20240105\x0110=199\x01";

// A peer logs on and sends an execution, which awaits its reply: its number is expected still.
fn deliver(rt: &impl Abort, alloc: Global, session: &mut Session) -> Result<(), Fail> {
    take(alloc, session, LOGON)?;
    take(alloc, session, TRADE)?;
    expect(rt, "an execution", session.is_awaiting());
    expect(rt, "its number", session.expected() == 2);
    Ok(())
}

/// The frame of a stream comes.
pub fn take(alloc: Global, session: &mut Session, stream: &[u8]) -> Result<(), Fail> {
    let now = Moment::read(b"20240105-10:00:01.000")?;
    let mut reader = Reader::new(alloc);
    reader.feed(stream)?;
    let frame = reader.next()?.ok_or("no frame")?;
    if session.is_awaiting() {
        return Err(Fail::new("a reply is awaited"));
    }
    session.on_frame(alloc, &frame, now)?;
    Ok(())
}

// No table is made of peers of which two are the same; of others one is.
fn expect_made(
    rt: &impl Abort,
    alloc: Global,
    names: &[&str],
    fault: Option<SlotFault>,
) -> Result<(), Fail> {
    let peers = texts(alloc, names)?;
    let made = SlotTable::new(alloc, text(b"MO")?, &peers).err();
    expect(rt, "table", made == fault);
    expect(rt, "peers", are_distinct(&peers) == fault.is_none());
    Ok(())
}

#[test]
fn peers_that_differ(rt: HostRuntime) -> Result<(), Fail> {
    let repeated = Some(SlotFault::RepeatedPeer);
    expect_made(&rt, rt.alloc(), &[], None)?;
    expect_made(&rt, rt.alloc(), &["BRKA", "BRKB", "BRKC"], None)?;
    expect_made(&rt, rt.alloc(), &["BRKA", "MO"], None)?;
    expect_made(&rt, rt.alloc(), &["BRKA", "BRKA"], repeated)?;
    expect_made(&rt, rt.alloc(), &["BRKA", "BRKB", "BRKA"], repeated)?;
    expect_made(&rt, rt.alloc(), &["BRKA", "BRKB", "BRKB"], repeated)
}
