//! Runs of twelve batches over a file in memory.
use blot_journal::{Journal, MemoryDevice};
use std::alloc::{AllocError as NoMemory, Global};
use std::test::Fail;

/// What is appended, a batch a sync; some batches have two parts.
pub const BATCHES: [&[&str]; 12] = [
    &["one"],
    &["two, ", "and more"],
    &["3"],
    &["four"],
    &["five ", "5"],
    &["six"],
    &["a longer seventh batch"],
    &["8"],
    &["nine"],
    &["ten"],
    &["eleven, ", "and ", "more"],
    &["twelve"],
];

/// The calls of a recovery, of it and of the cut behind the text, and of a batch.
pub const RECOVERY_CALLS: u64 = 2;

pub const OPENING_CALLS: u64 = 4;

pub const BATCH_CALLS: u64 = 5;

/// A run that ended, since all was done or since a call failed: its file, and how many batches it said are durable.
#[derive(Drop)]
pub struct Run {
    pub journal: Option<Journal<MemoryDevice>>,
    pub durable: usize,
}

/// The file of an empty text.
pub fn empty_file(alloc: Global) -> Result<Vec<u8>, NoMemory> {
    let mut file = vec![in alloc; 0; 4096]?;
    file[1536..1552].copy_from_slice(b"blotter journal\n");
    Ok(file)
}

/// The text of so many batches.
pub fn text_of(alloc: Global, batches: usize) -> Result<Vec<u8>, NoMemory> {
    let mut text = Vec::new(alloc);
    for batch in &BATCHES[..batches] {
        for part in batch.iter() {
            text.extend_from_slice(part.as_bytes())?;
        }
    }
    Ok(text)
}

/// Appends a batch, and makes it durable: whether it is.
pub fn append(journal: &mut Journal<MemoryDevice>, batch: &[&str]) -> Result<bool, Fail> {
    for part in batch.iter() {
        if journal.reserve(part.len()).is_err() {
            return Ok(false);
        }
        journal.append(part.as_bytes());
    }
    Ok(journal.sync().is_ok())
}

/// The batches over an empty file, until all are durable or a call fails.
pub fn run(alloc: Global, fails_in: Option<u64>) -> Result<Run, Fail> {
    let device = MemoryDevice::new(alloc, &empty_file(alloc)?, fails_in)?;
    let Ok(mut journal) = Journal::recover(alloc, device) else {
        return Ok(Run {
            journal: None,
            durable: 0,
        });
    };
    let mut durable = 0;
    if journal.trim().is_err() {
        return Ok(Run {
            journal: Some(journal),
            durable,
        });
    }
    for batch in BATCHES.iter() {
        if !append(&mut journal, batch)? {
            break;
        }
        durable += 1;
    }
    Ok(Run {
        journal: Some(journal),
        durable,
    })
}

/// The whole text of a journal, read in pieces of seven bytes.
pub fn read(alloc: Global, journal: &mut Journal<MemoryDevice>) -> Result<Vec<u8>, Fail> {
    let mut text = Vec::new(alloc);
    let mut piece = [0; 7];
    while text.len() < journal.len() {
        let count = (journal.len() - text.len()).min(7);
        if journal.read(text.len(), &mut piece[..count]).is_err() {
            return Err(Fail::new(format_args!("a read failed")));
        }
        text.extend_from_slice(&piece[..count])?;
    }
    Ok(text)
}
