//! What the book says to a command, and what comes back.

use crate::model::expect_entry;
use blot_command::{ApplyFault, Tables};
use blot_types::{Command, Refused};
use std::test::Fail;

/// A command was taken under a number, where no refusal was expected.
pub fn expect_taken(
    tables: &Tables,
    refusal: Option<Refused>,
    number: u64,
    sent: &Command,
) -> Result<(), Fail> {
    match refusal {
        None => expect_entry(tables, number, sent),
        Some(refused) => Err(Fail::new(format_args!("{refused:?}, but taken under {number}"))),
    }
}

/// A command came back.
pub fn expect_back(sent: &Command, back: Command, number: u64) -> Result<(), Fail> {
    if back != *sent {
        return Err(Fail::new(format_args!("another command came back from {number}")));
    }
    Ok(())
}

/// A command was refused for a reason, and came back.
pub fn expect_refused(
    sent: &Command,
    reason: Option<Refused>,
    back: Command,
    fault: ApplyFault,
    number: u64,
) -> Result<(), Fail> {
    if reason.map(ApplyFault::Refused) != Some(fault) {
        return Err(Fail::new(format_args!("refused under {number} with {fault:?}")));
    }
    expect_back(sent, back, number)
}
