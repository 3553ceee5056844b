//! Steps taken, undone and redone, of any type of command.

use blot_command::Undoable;
use blot_undo::{StepFault, Steps};
use std::test::Fail;

/// A command is taken under a number.
pub fn expect_taken<C: Undoable>(
    steps: &mut Steps<C>,
    command: C,
    number: u64,
) -> Result<(), Fail> {
    if !steps.room() {
        return Err(Fail::new("no room"));
    }
    match steps.apply(command) {
        Ok(found) => expect_number(Some(found), Some(number)),
        Err(_) => Err(Fail::new("not taken")),
    }
}

/// A command is refused, for this reason.
pub fn expect_refused<C: Undoable>(steps: &mut Steps<C>, command: C) -> Result<C::Refusal, Fail> {
    if !steps.room() {
        return Err(Fail::new("no room"));
    }
    match steps.apply(command) {
        Err(StepFault::Refused(_, reason)) => Ok(reason),
        _ => Err(Fail::new("not refused")),
    }
}

/// The newest step has a number, is undone, and answers it.
pub fn expect_undone<C: Undoable>(steps: &mut Steps<C>, number: Option<u64>) -> Result<(), Fail> {
    expect_number(steps.newest(), number)?;
    expect_number(steps.undo(), number)
}

/// The step that was undone last is redone, and answers its number.
pub fn expect_redone<C: Undoable>(steps: &mut Steps<C>, number: Option<u64>) -> Result<(), Fail> {
    match steps.redo() {
        Ok(found) => {
            expect_number(found, number)?;
            expect_number(steps.newest(), number.or(steps.newest()))
        }
        Err(_) => Err(Fail::new("not redone")),
    }
}

// A number is this one.
fn expect_number(found: Option<u64>, number: Option<u64>) -> Result<(), Fail> {
    if found != number {
        return Err(Fail::new(format_args!("{found:?} for {number:?}")));
    }
    Ok(())
}

/// The newest steps are undone at once, so many as are there.
pub fn rewind<C: Undoable>(steps: &mut Steps<C>, count: usize) -> Result<(), Fail> {
    if steps.done() != count {
        return Err(Fail::new("another count of steps"));
    }
    steps.rewind(count);
    expect_number(steps.newest(), None)
}

/// As many steps as are counted are undone and redone.
pub fn there_and_back<C: Undoable>(steps: &mut Steps<C>, count: usize) -> Result<(), Fail> {
    let done = steps.done();
    callers::there_and_back(steps, count)?;
    if steps.done() != done {
        return Err(Fail::new("not redone"));
    }
    Ok(())
}
