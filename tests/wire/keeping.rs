//! A diary over a file in memory: what it keeps is durable after a sync, and none is kept after one that failed.

use crate::expect::expect;
use crate::frames::frame;
use blot_desk::{Event, KeepFault, Keeper};
use blot_diary::{Diary, read_kept};
use blot_journal::{Journal, MemoryDevice};
use blot_tag::Reader;
use std::alloc::Global;
use std::test::Fail;

const LOGON: &str = "35=A|49=BRKA|56=MO|34=1|52=20240105-10:00:00|98=0|108=30|";

const TRADE: &str =
    "35=8|49=BRKA|56=MO|34=2|52=20240105-10:00:00|37=O1|17=E1|150=F|39=1|55=XYZ|54=1|38=300|32=100|31=10.5|14=100|151=200|6=10.5|";

// The diary of an empty journal whose calls fail after so many.
fn empty(alloc: Global, fails_in: Option<u64>) -> Result<Diary<MemoryDevice>, Fail> {
    let mut file = vec![in alloc; 0; 4096]?;
    file[1536..1552].copy_from_slice(b"blotter journal\n");
    let device = MemoryDevice::new(alloc, &file, fails_in)?;
    let Ok(journal) = Journal::recover(alloc, device) else {
        return Err(Fail::from("no journal"));
    };
    Ok(Diary::new(journal))
}

// Keeps the Logon and the Trade.
fn keep_both(alloc: Global, diary: &mut Diary<MemoryDevice>) -> Result<(), Fail> {
    let (logon, trade) = (frame(alloc, LOGON)?, frame(alloc, TRADE)?);
    diary.keep_other(&logon).ok().ok_or("no room")?;
    let mut reader = Reader::new(alloc);
    reader.feed(&trade)?;
    let read = reader.next()?.ok_or("no frame")?;
    let kept = read_kept(alloc, &read)?.ok_or("nothing is kept")?;
    let event: Event = kept.into_noted().ok_or("no event")?.event;
    diary.reserve(&trade).ok().ok_or("no room")?;
    diary.keep(&trade, &event);
    Ok(())
}

#[test]
fn what_is_kept_is_durable_after_a_sync(rt: HostRuntime) -> Result<(), Fail> {
    let alloc = rt.alloc();
    let mut diary = empty(alloc, None)?;
    keep_both(alloc, &mut diary)?;
    let before = diary.device().durable().len();
    expect(&rt, "nothing before it", before == 4096);
    expect(&rt, "a sync", diary.sync().is_ok());
    let mut text = frame(alloc, LOGON)?;
    text.extend_from_slice(&frame(alloc, TRADE)?)?;
    let durable = diary.device().durable();
    expect(&rt, "both behind it", &durable[4096..] == text.as_slice());
    Ok(())
}

#[test]
fn nothing_is_kept_after_a_sync_that_failed(rt: HostRuntime) -> Result<(), Fail> {
    let alloc = rt.alloc();
    // The recovery's four calls, and one of the sync.
    let mut diary = empty(alloc, Some(5))?;
    keep_both(alloc, &mut diary)?;
    let broken = Err(KeepFault::Broken);
    expect(&rt, "a sync that fails", diary.sync() == broken);
    let changes = diary.device().changes().len();
    expect(&rt, "one that is tried again", diary.sync() == broken);
    expect(&rt, "room", diary.reserve(b"8=FIX") == broken);
    expect(
        &rt,
        "the file isn't touched",
        diary.device().changes().len() == changes,
    );
    Ok(())
}
