//! Each call of a run fails in turn, and each image that a crash may then leave is taken up.
use crate::images::images;
use crate::runs::{
    BATCH_CALLS, BATCHES, OPENING_CALLS, RECOVERY_CALLS, append, empty_file, read, run, text_of,
};
use blot_journal::{Change, Device, DeviceFault, HEAD, Journal, JournalFault, MemoryDevice};
use std::alloc::Global;
use std::test::Fail;

// Takes an image up: the text is that of the durable batches, or of one more, and nothing of the file is changed. What stands behind the text is cut
// off, and the run goes on.
fn expect_image(alloc: Global, image: &[u8], durable: usize) -> Result<(), Fail> {
    let device = MemoryDevice::new(alloc, image, None)?;
    let Ok(mut journal) = Journal::recover(alloc, device) else {
        return Err(Fail::new(format_args!("not taken up behind {durable} batches")));
    };
    if !is_untouched(journal.device(), image) {
        return Err(Fail::new(format_args!("changed behind {durable} batches")));
    }
    let text = read(alloc, &mut journal)?;
    let found = if text == text_of(alloc, durable)? {
        durable
    } else if durable < BATCHES.len() && text == text_of(alloc, durable + 1)? {
        durable + 1
    } else {
        return Err(Fail::new(format_args!("another text behind {durable} batches")));
    };
    if journal.trim().is_err() || !is_untouched(journal.device(), &image[..HEAD + text.len()]) {
        return Err(Fail::new(format_args!("not cut behind {durable} batches")));
    }
    if found < BATCHES.len() {
        if !append(&mut journal, BATCHES[found])?
            || journal.len() != text_of(alloc, found + 1)?.len()
        {
            return Err(Fail::new(format_args!("it doesn't go on behind {found} batches")));
        }
    }
    Ok(())
}

// Whether a file has just these bytes, all of them durable.
fn is_untouched(device: &MemoryDevice, bytes: &[u8]) -> bool {
    *device.bytes() == *bytes && *device.durable() == *bytes && device.changes().is_empty()
}

// The recovery itself fails at each call, and leaves the file as it was.
fn expect_recovery(alloc: Global, image: &[u8]) -> Result<(), Fail> {
    for call in 0..RECOVERY_CALLS {
        let device = MemoryDevice::new(alloc, image, Some(call))?;
        let Err((_, device)) = Journal::recover(alloc, device) else {
            return Err(Fail::new(format_args!("call {call} didn't fail")));
        };
        if !is_untouched(&device, image) {
            return Err(Fail::new(format_args!("changed by call {call}")));
        }
    }
    Ok(())
}

// The cut behind the text fails at each call, and what that leaves is taken up.
fn expect_cut(alloc: Global, image: &[u8], durable: usize) -> Result<(), Fail> {
    for call in RECOVERY_CALLS..OPENING_CALLS {
        let device = MemoryDevice::new(alloc, image, Some(call))?;
        let Ok(mut journal) = Journal::recover(alloc, device) else {
            return Err(Fail::new(format_args!("call {call} failed before its turn")));
        };
        if journal.trim() != Err(JournalFault::Failed) || !journal.is_broken() {
            return Err(Fail::new(format_args!("call {call} didn't fail")));
        }
        for left in images(alloc, journal.device())?.iter() {
            expect_image(alloc, left, durable)?;
        }
    }
    Ok(())
}

// Call by call, of the calls from one on to another.
fn expect_calls(alloc: Global, from: u64, to: u64) -> Result<(), Fail> {
    for call in from..to {
        let ended = run(alloc, Some(call))?;
        let Some(mut journal) = ended.journal else {
            continue;
        };
        if ended.durable as u64 != call.saturating_sub(OPENING_CALLS) / BATCH_CALLS
            || !journal.is_broken()
        {
            return Err(Fail::new(format_args!("{} batches at call {call}", ended.durable)));
        }
        if !matches!(journal.sync(), Err(JournalFault::Broken))
            || !matches!(journal.reserve(1), Err(JournalFault::Broken))
        {
            return Err(Fail::new(format_args!("not broken after call {call}")));
        }
        let left = images(alloc, journal.device())?;
        for image in left.iter() {
            expect_image(alloc, image, ended.durable)?;
            expect_recovery(alloc, image)?;
        }
        expect_cut(alloc, &left[left.len() / 2], ended.durable)?;
    }
    Ok(())
}

#[test]
fn each_call_of_the_first_batches(rt: HostRuntime) -> Result<(), Fail> {
    expect_calls(rt.alloc(), 0, OPENING_CALLS + 4 * BATCH_CALLS)
}

#[test]
fn each_call_of_the_next_batches(rt: HostRuntime) -> Result<(), Fail> {
    expect_calls(
        rt.alloc(),
        OPENING_CALLS + 4 * BATCH_CALLS,
        OPENING_CALLS + 8 * BATCH_CALLS,
    )
}

#[test]
fn each_call_of_the_last_batches(rt: HostRuntime) -> Result<(), Fail> {
    expect_calls(
        rt.alloc(),
        OPENING_CALLS + 8 * BATCH_CALLS,
        OPENING_CALLS + 12 * BATCH_CALLS,
    )
}

// What a crash may leave is made of what the file tells.
#[test]
fn what_was_done_since_a_sync(rt: HostRuntime) -> Result<(), Fail> {
    let alloc = rt.alloc();
    let mut device = MemoryDevice::new(alloc, b"four", None)?;
    if device.write_at(4, b"five").is_err() || device.cut(6).is_err() {
        return Err(Fail::new("a call failed"));
    }
    let [Change::Write(4, bytes), Change::Cut(6)] = device.changes() else {
        return Err(Fail::new("other changes"));
    };
    if bytes.as_slice() != b"five".as_slice() || device.durable() != b"four".as_slice() {
        return Err(Fail::new("other bytes"));
    }
    if device.sync().is_err()
        || !device.changes().is_empty()
        || device.durable() != b"fourfi".as_slice()
    {
        return Err(Fail::new("not synced"));
    }
    Ok(())
}

// A read that the disk fails is told as that.
#[test]
fn a_read_that_fails(rt: HostRuntime) -> Result<(), Fail> {
    let alloc = rt.alloc();
    let device = MemoryDevice::new(alloc, &empty_file(alloc)?, Some(RECOVERY_CALLS))?;
    let Ok(mut journal) = Journal::recover(alloc, device) else {
        return Err(Fail::new(format_args!("not taken up")));
    };
    if journal.read(0, &mut []) != Err(DeviceFault::Failed) {
        return Err(Fail::new(format_args!("read, or another fault")));
    }
    Ok(())
}

// The first batches by one call, of which a call of the device fails.
#[test]
fn batches_in_one_call(rt: HostRuntime) -> Result<(), Fail> {
    let alloc = rt.alloc();
    let batches = ["one".as_bytes(), "two, and more".as_bytes(), "3".as_bytes()];
    for call in RECOVERY_CALLS..RECOVERY_CALLS + 3 * BATCH_CALLS + 1 {
        let device = MemoryDevice::new(alloc, &empty_file(alloc)?, Some(call))?;
        let Ok(mut journal) = Journal::recover(alloc, device) else {
            return Err(Fail::new(format_args!("not taken up")));
        };
        let wanted = ((call - RECOVERY_CALLS) / BATCH_CALLS) as usize;
        let is_right = match journal.append_each(&batches) {
            Ok(()) => wanted == batches.len(),
            Err((durable, fault)) => durable == wanted && fault == JournalFault::Failed,
        };
        if !is_right {
            return Err(Fail::new(format_args!("another end at call {call}")));
        }
        for image in images(alloc, journal.device())?.iter() {
            expect_image(alloc, image, wanted)?;
        }
    }
    Ok(())
}

#[test]
fn nothing_fails(rt: HostRuntime) -> Result<(), Fail> {
    let alloc = rt.alloc();
    let ended = run(alloc, None)?;
    let Some(mut journal) = ended.journal else {
        return Err(Fail::new(format_args!("not taken up")));
    };
    if ended.durable != BATCHES.len()
        || journal.len() != text_of(alloc, BATCHES.len())?.len()
        || !journal.waiting().is_empty()
    {
        return Err(Fail::new(format_args!("{} batches", ended.durable)));
    }
    // Where nothing waits, the file isn't touched.
    let before = journal.device().bytes().to_vec(alloc)?;
    if journal.sync().is_err()
        || before.as_slice() != journal.device().bytes()
        || !journal.device().changes().is_empty()
    {
        return Err(Fail::new(format_args!("a sync of nothing")));
    }
    expect_image(alloc, &before, BATCHES.len())
}
