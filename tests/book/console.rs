//! The texts of answers that no operator's line brings about.

use blot_console::{Answer, LineFault, answer_text};
use blot_desk::Reply;
use blot_types::Refused;
use std::alloc::Global;
use std::test::Fail;

// An answer has this text.
fn expect_answer(alloc: Global, answer: &Answer, wanted: &str) -> Result<(), Fail> {
    if answer_text(alloc, answer)?.as_slice() != wanted.as_bytes() {
        return Err(Fail::new(format_args!("no {wanted}")));
    }
    Ok(())
}

// The greatest number of a step is told.
fn expect_greatest(alloc: Global) -> Result<(), Fail> {
    let (accepted, undone) = (Reply::Accepted(250_000), Reply::Undone(250_000));
    expect_answer(alloc, &Answer::Replied(accepted), "accepted\t250000\n")?;
    expect_answer(alloc, &Answer::Replied(undone), "undone\t250000\n")?;
    let redone = Reply::Redone(250_000);
    expect_answer(alloc, &Answer::Replied(redone), "redone\t250000\n")
}

// So is it as the value of a refusal; and that there was no memory.
fn expect_refused(alloc: Global) -> Result<(), Fail> {
    let taken = Reply::Refused(Refused::ExecTaken(250_000));
    let text = "refused\t8\tExecTaken\t250000\n";
    expect_answer(alloc, &Answer::Replied(taken), text)?;
    expect_answer(alloc, &Answer::Bad(LineFault::NoMemory), "bad\t5\n")
}

#[test]
fn answers_and_their_texts(rt: HostRuntime) -> Result<(), Fail> {
    expect_greatest(rt.alloc())?;
    expect_refused(rt.alloc())
}
