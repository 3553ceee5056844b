//! Scripts as bytes, and desks that took a capture.

use crate::calls::{push_words, taken};
use crate::capture_rows::{LOGON, OTHER_TRADE, TRADE};
use crate::frames::{frame, stream};
use crate::memory::{AT_ONCE, reader};
use blot_desk::Held;
use std::alloc::{AllocError, Global};
use std::test::Fail;

/// What is typed, and what is answered. `>` stands for a tab, and `/` for the end of a line within an answer.
pub type Told = (&'static str, &'static str);

/// A script as bytes: what is typed, and what is answered.
#[derive(Drop)]
pub struct Dialogue {
    pub typed: Vec<u8>,
    pub answers: Vec<u8>,
}

// Puts words after a text, and ends its line.
fn push_line(text: &mut Vec<u8>, words: &str) -> Result<(), AllocError> {
    push_words(text, words)?;
    text.push(b'\n')?;
    Ok(())
}

// Puts some lines after a script; the answers are those to the first of them.
fn put_rows(dialogue: &mut Dialogue, rows: &[Told], answered: u64) -> Result<(), AllocError> {
    let mut left = answered;
    for (line, answer) in rows {
        push_line(&mut dialogue.typed, line)?;
        if left > 0 {
            push_line(&mut dialogue.answers, answer)?;
            left -= 1;
        }
    }
    Ok(())
}

/// The bytes of some rows, of which so many are answered.
pub fn spell(alloc: Global, rows: &[Told], answered: u64) -> Result<Dialogue, AllocError> {
    let mut dialogue = Dialogue {
        typed: Vec::new(alloc),
        answers: Vec::new(alloc),
    };
    put_rows(&mut dialogue, rows, answered)?;
    Ok(dialogue)
}

/// A desk that took a capture.
pub fn desk(alloc: Global, bytes: &[u8]) -> Result<Held, Fail> {
    let mut held = Held::new(alloc);
    match taken(alloc, &mut reader(bytes, AT_ONCE), &mut held)? {
        Ok(()) => Ok(held),
        Err(_) => Err(Fail::new("no capture")),
    }
}

/// The capture of BRKA's Logon and some messages.
pub fn captured(alloc: Global, messages: &str) -> Result<Vec<u8>, AllocError> {
    let mut bytes = frame(alloc, LOGON)?;
    bytes.extend_from_slice(stream(alloc, messages)?.as_slice())?;
    Ok(bytes)
}

/// The capture of BRKA's Logon, the first trade, and another of 50 at 11.
pub fn two_trades(alloc: Global) -> Result<Vec<u8>, AllocError> {
    let mut bytes = captured(alloc, TRADE)?;
    bytes.extend_from_slice(frame(alloc, OTHER_TRADE)?.as_slice())?;
    Ok(bytes)
}
