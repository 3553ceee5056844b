//! Streams of frames, from the bodies of their messages.

use std::alloc::{AllocError as NoMemory, Global};

/// A stream: each line of the text is a message from MsgType on, with `|` for SOH, and becomes a frame; a line that begins
/// with `!` stands as it is.
pub fn stream(alloc: Global, text: &str) -> Result<Vec<u8>, NoMemory> {
    let mut bytes = Vec::new(alloc);
    for line in text.lines() {
        match line.strip_prefix('!') {
            Some(raw) => bytes.extend_from_slice(soh(alloc, raw)?.as_slice())?,
            None => bytes.extend_from_slice(frame(alloc, line)?.as_slice())?,
        }
    }
    Ok(bytes)
}

/// A frame with this body: BodyLength and CheckSum are filled in.
pub fn frame(alloc: Global, body: &str) -> Result<Vec<u8>, NoMemory> {
    let body = soh(alloc, body)?;
    let length = body.len();
    let head = format!(in alloc; "8=FIX.4.4\u{1}9={length}\u{1}")?;
    let mut bytes = Vec::new(alloc);
    bytes.extend_from_slice(head.as_bytes())?;
    bytes.extend_from_slice(body.as_slice())?;
    let mut sum = 0u8;
    for byte in &bytes {
        sum = sum.wrapping_add(*byte);
    }
    let trailer = format!(in alloc; "10={sum:03}\u{1}")?;
    bytes.extend_from_slice(trailer.as_bytes())?;
    Ok(bytes)
}

// The text with SOH for `|`.
fn soh(alloc: Global, text: &str) -> Result<Vec<u8>, NoMemory> {
    let mut bytes = Vec::new(alloc);
    for byte in text.as_bytes() {
        bytes.push(if *byte == b'|' { 1 } else { *byte })?;
    }
    Ok(bytes)
}
