//! How often each kind of command was taken, and each refusal came.

use blot_types::{Command, Refused};
use std::test::Fail;

/// How often each kind of command was taken, and each refusal came, each in its order.
#[derive(Drop)]
pub struct Tally {
    taken: [u32; 7],
    refused: [u32; 15],
}

// The place of a kind of command.
fn place_of_kind(command: &Command) -> usize {
    match command {
        Command::Trade(_) => 0,
        Command::Correct(_) => 1,
        Command::Bust(_) => 2,
        Command::AllocNew(_) => 3,
        Command::AllocReplace(_) => 4,
        Command::AllocCancel(_) => 5,
        Command::Withdraw(_) => 6,
    }
}

// The place of a refusal.
fn place_of_refusal(refused: &Refused) -> usize {
    match refused {
        Refused::DuplicateExec(_) => 0,
        Refused::DuplicateAlloc(_) => 1,
        Refused::UnknownAlloc => 2,
        Refused::DeadAlloc(_) => 3,
        Refused::UnknownExec(_) => 4,
        Refused::BustedExec(_) => 5,
        Refused::RepeatedExec(_) => 6,
        Refused::ExecTaken(_) => 7,
        Refused::Instrument(_) => 8,
        Refused::Quantity(_, _) => 9,
        Refused::NotLive(_) => 10,
        Refused::Needed(_) => 11,
        Refused::NothingToUndo => 12,
        Refused::Moved(_) => 13,
        Refused::NothingToRedo => 14,
    }
}

impl Tally {
    /// Nothing came yet.
    pub fn new() -> Tally {
        Tally {
            taken: [0; 7],
            refused: [0; 15],
        }
    }

    /// A command was taken, or refused.
    pub fn count(&mut self, command: &Command, refusal: Option<Refused>) {
        match refusal {
            None => self.count_taken(command),
            Some(refused) => self.count_refused(refused),
        }
    }

    /// A command was taken.
    pub fn count_taken(&mut self, command: &Command) {
        let place = place_of_kind(command);
        self.taken[place] = self.taken[place].saturating_add(1);
    }

    /// An event was refused.
    pub fn count_refused(&mut self, refused: Refused) {
        let place = place_of_refusal(&refused);
        self.refused[place] = self.refused[place].saturating_add(1);
    }

    /// Each kind of command was taken this often at least.
    pub fn expect_of_each_kind(&self, least: u32) -> Result<(), Fail> {
        expect_least(&self.taken, least, "kind")
    }

    /// Each kind of command that is an entry was taken.
    pub fn expect_each_entry(&self) -> Result<(), Fail> {
        expect_each(&self.taken[..6], "kind")
    }

    /// Each of the first refusals came: twelve of a book, all of a desk.
    pub fn expect_each_refusal(&self, count: usize) -> Result<(), Fail> {
        match self.refused.get(..count) {
            Some(refused) => expect_each(refused, "refusal"),
            None => Err(Fail::new("no such count of refusals")),
        }
    }
}

/// Each of these came.
pub fn expect_each(counts: &[u32], what: &str) -> Result<(), Fail> {
    expect_least(counts, 1, what)
}

/// Each of these came this often at least.
fn expect_least(counts: &[u32], least: u32, what: &str) -> Result<(), Fail> {
    for (place, count) in counts.iter().enumerate() {
        if *count < least {
            return Err(Fail::new(format_args!("too few of {what} {place} among {counts:?}")));
        }
    }
    Ok(())
}
