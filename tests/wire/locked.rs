//! The table of sessions under its lock.

use crate::expect::text;
use crate::slots::{LOGON, expect_waiting, take};
use blot_session::Session;
use blot_slots::{SlotFault, Slots};
use blot_types::Text64;
use std::alloc::Global;
use std::sync::Wait;
use std::test::Fail;
use std::thread::{Threads, join};

/// The table of MO with these peers.
pub fn table_of(alloc: Global, peers: &[Text64]) -> Result<Slots, Fail> {
    match Slots::new(alloc, text(b"MO")?, peers) {
        Ok(slots) => Ok(slots),
        Err(fault) => Err(Fail::new(format_args!("{fault:?}"))),
    }
}

/// The session of a peer, handed out.
pub fn out(rt: &impl Wait, slots: &Slots, peer: &Text64) -> Result<Session, Fail> {
    match slots.check_out(rt, peer) {
        Ok(session) => Ok(session),
        Err(fault) => Err(Fail::new(format_args!("{fault:?}"))),
    }
}

// The session of a peer isn't handed out, for this reason.
fn expect_kept(
    rt: &impl Wait,
    slots: &Slots,
    peer: &Text64,
    wanted: SlotFault,
) -> Result<(), Fail> {
    let found = slots.check_out(rt, peer).err();
    if found != Some(wanted) {
        return Err(Fail::new(format_args!("{found:?} for {wanted:?}")));
    }
    Ok(())
}

// A peer that isn't listed, and one whose session is out; the numbers outlive a connection, and a session that comes back while
// its peer's is in is let go.
fn check_out_and_check_in(rt: &impl Wait, alloc: Global) -> Result<(), Fail> {
    let (brka, brkx) = (text(b"BRKA")?, text(b"BRKX")?);
    let slots = table_of(alloc, &[brka])?;
    if slots.own() != text(b"MO")? {
        return Err(Fail::new("another own"));
    }
    expect_kept(rt, &slots, &brkx, SlotFault::UnknownPeer)?;
    let mut session = out(rt, &slots, &brka)?;
    expect_waiting(&session, "BRKA", 1)?;
    expect_kept(rt, &slots, &brka, SlotFault::AlreadyOn)?;
    take(alloc, &mut session, LOGON)?;
    slots.check_in(rt, session);
    slots.check_in(rt, Session::new(text(b"MO")?, brka));
    let again = out(rt, &slots, &brka)?;
    expect_waiting(&again, "BRKA", 2)?;
    expect_kept(rt, &slots, &brka, SlotFault::AlreadyOn)
}

#[test]
fn check_out_and_check_in_under_the_lock(rt: HostRuntime) -> Result<(), Fail> {
    check_out_and_check_in(&rt, rt.alloc())
}

// Why the session of a peer isn't handed out, if it isn't.
fn refusal(rt: &impl Wait, slots: &Slots, peer: &Text64) -> Option<SlotFault> {
    match slots.check_out(rt, peer) {
        Ok(_) => None,
        Err(fault) => Some(fault),
    }
}

// Two threads ask for one session.
fn ask_twice<R: Threads + Wait + Sync>(rt: &R, alloc: Global) -> Result<(), Fail> {
    let brka = text(b"BRKA")?;
    let slots = table_of(alloc, &[brka])?;
    let (lent, peer) = (&slots, &brka);
    let (a, b) = join(
        rt,
        move || refusal(rt, lent, peer),
        move || refusal(rt, lent, peer),
    );
    match (a, b) {
        (None, Some(SlotFault::AlreadyOn)) | (Some(SlotFault::AlreadyOn), None) => Ok(()),
        _ => Err(Fail::new(format_args!("{a:?}, {b:?}"))),
    }
}

#[test]
fn one_of_two_is_let_in(rt: HostRuntime) -> Result<(), Fail> {
    ask_twice(&rt, rt.alloc())
}
