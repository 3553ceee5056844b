//! Files that aren't taken up, and are left as they were.
use crate::runs::{empty_file, run};
use blot_journal::{Journal, JournalFault, MemoryDevice, RecoveryFault};
use std::alloc::Global;
use std::test::Fail;

fn expect_refused(
    alloc: Global,
    name: &str,
    file: &[u8],
    wanted: RecoveryFault,
) -> Result<(), Fail> {
    let device = MemoryDevice::new(alloc, file, None)?;
    match Journal::recover(alloc, device) {
        Err((fault, device))
            if fault == wanted
                && *device.bytes() == *file
                && *device.durable() == *file
                && device.changes().is_empty() => Ok(()),
        _ => Err(Fail::new(format_args!("{name}"))),
    }
}

#[test]
fn other_files(rt: HostRuntime) -> Result<(), Fail> {
    let alloc = rt.alloc();
    let empty = empty_file(alloc)?;
    expect_refused(alloc, "no bytes", &[], RecoveryFault::NoJournal)?;
    expect_refused(
        alloc,
        "a short head",
        &empty[..4095],
        RecoveryFault::NoJournal,
    )?;
    expect_refused(
        alloc,
        "zeros",
        &vec![in alloc; 0; 5000]?,
        RecoveryFault::NoJournal,
    )?;
    for place in 1536..1552 {
        let mut other = empty.to_vec(alloc)?;
        other[place] ^= 1;
        expect_refused(alloc, "another signature", &other, RecoveryFault::NoJournal)?;
    }
    let ended = run(alloc, None)?;
    let Some(journal) = ended.journal else {
        return Err(Fail::new(format_args!("not taken up")));
    };
    let whole = journal.device().bytes().to_vec(alloc)?;
    for len in 4096..whole.len() {
        expect_refused(
            alloc,
            "cut short",
            &whole[..len],
            RecoveryFault::Damaged(len),
        )?;
    }
    let mut long = empty.to_vec(alloc)?;
    long[519] = 0xFF;
    expect_refused(
        alloc,
        "a length past all bounds",
        &long,
        RecoveryFault::Damaged(4096),
    )
}

#[test]
fn a_full_journal(rt: HostRuntime) -> Result<(), Fail> {
    let alloc = rt.alloc();
    let device = MemoryDevice::new(alloc, &empty_file(alloc)?, None)?;
    let Ok(mut journal) = Journal::recover(alloc, device) else {
        return Err(Fail::new(format_args!("not taken up")));
    };
    if journal.reserve((1 << 40) + 1) != Err(JournalFault::Full) || journal.is_broken() {
        return Err(Fail::new(format_args!("not full")));
    }
    Ok(())
}
