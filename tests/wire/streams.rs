//! Bytes as text, and moments and answers in words.

use blot_desk::{DeskFault, Reply};
use blot_time::Moment;
use blot_types::Refused;
use std::alloc::{AllocError as NoMemory, Global};
use std::test::Fail;

/// The bytes as text, with `|` for SOH.
pub fn shown(alloc: Global, bytes: &[u8]) -> Result<String, NoMemory> {
    let mut text = String::new(alloc);
    for byte in bytes {
        text.push(if *byte == 1 { '|' } else { char::from(*byte) })?;
    }
    Ok(text)
}

/// The moments of a text, which are parted by spaces.
pub fn moments(alloc: Global, text: &str) -> Result<Vec<Moment>, Fail> {
    let mut moments = Vec::new(alloc);
    for word in text.split(' ') {
        moments.push(Moment::read(word.as_bytes())?)?;
    }
    Ok(moments)
}

/// Three answers, each the one that a word stands for.
pub fn answers(alloc: Global, word: &str) -> Result<Vec<Result<Reply, DeskFault>>, Fail> {
    match answer(word) {
        Ok(answer) => three_of(alloc, answer),
        Err(fail) => Err(fail),
    }
}

// An answer, three times.
fn three_of(
    alloc: Global,
    answer: Result<Reply, DeskFault>,
) -> Result<Vec<Result<Reply, DeskFault>>, Fail> {
    match [answer; 3].to_vec(alloc) {
        Ok(answers) => Ok(answers),
        Err(_) => Err(Fail::new("no memory")),
    }
}

// The answer that a word stands for.
fn answer(word: &str) -> Result<Result<Reply, DeskFault>, Fail> {
    match word {
        "accepted" => Ok(Ok(Reply::Accepted(1))),
        "duplicate" => Ok(Ok(Reply::Refused(Refused::DuplicateExec(1)))),
        "undone" => Ok(Ok(Reply::Undone(1))),
        "full" => Ok(Err(DeskFault::Full)),
        "no-memory" => Ok(Err(DeskFault::NoMemory)),
        _ => Err(Fail::new(format_args!("no answer: {word}"))),
    }
}
