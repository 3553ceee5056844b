//! A reader and a writer in memory, whose calls fail or are interrupted where they are told to.

use std::alloc::Global;
use std::io::{Error, ErrorKind, Read, Result, Write};

/// Which call fails, and whether some are interrupted.
#[derive(Clone, Copy)]
pub struct Trouble {
    /// The call that fails, counted from 1; 0: none.
    pub fails_at: u64,
    /// Each call of an odd number is interrupted.
    pub interrupts: bool,
}

/// A call does what it is for.
pub const NO_TROUBLE: Trouble = Trouble {
    fails_at: 0,
    interrupts: false,
};

impl Trouble {
    // Whether a call may do what it is for.
    fn admit(self, call: u64) -> Result<()> {
        if call == self.fails_at {
            return Err(Error::from(ErrorKind::BrokenPipe));
        }
        if self.interrupts && call % 2 == 1 {
            return Err(Error::from(ErrorKind::Interrupted));
        }
        Ok(())
    }
}

/// How a reader and a writer take their calls.
#[derive(Clone, Copy)]
pub struct Manner {
    /// The most bytes of the first read.
    pub first: usize,
    /// The most bytes of each other call.
    pub most: usize,
    /// Each read ends at the end of a line.
    pub by_lines: bool,
    pub trouble: Trouble,
}

/// All at once.
pub const AT_ONCE: Manner = Manner {
    first: 10_000_000,
    most: 10_000_000,
    by_lines: false,
    trouble: NO_TROUBLE,
};

/// A byte a call.
pub const BY_BYTES: Manner = Manner {
    first: 1,
    most: 1,
    by_lines: false,
    trouble: NO_TROUBLE,
};

/// A line a read, and an answer a write.
pub const BY_LINES: Manner = Manner {
    first: 10_000_000,
    most: 10_000_000,
    by_lines: true,
    trouble: NO_TROUBLE,
};

/// Seven bytes a call, and each other call interrupted.
pub const INTERRUPTED: Manner = Manner {
    first: 7,
    most: 7,
    by_lines: false,
    trouble: Trouble {
        fails_at: 0,
        interrupts: true,
    },
};

/// A first read of so many bytes, and then all the rest.
pub fn cut_at(first: usize) -> Manner {
    Manner { first, ..AT_ONCE }
}

/// A call that fails.
pub fn failing(manner: Manner, fails_at: u64) -> Manner {
    Manner {
        trouble: Trouble {
            fails_at,
            interrupts: false,
        },
        ..manner
    }
}

/// A reader of these bytes.
pub fn reader(rest: &[u8], manner: Manner) -> Source<'_> {
    Source {
        rest,
        manner,
        reads: 0,
    }
}

/// A writer to which nothing was written.
pub fn writer(alloc: Global, manner: Manner) -> Sink {
    Sink {
        written: Vec::new(alloc),
        manner,
        calls: 0,
        flushes: 0,
    }
}

/// Gives its bytes, one at least a read.
#[derive(Drop)]
pub struct Source<'a> {
    pub rest: &'a [u8],
    pub manner: Manner,
    pub reads: u64,
}

impl Read for Source<'_> {
    fn read(&mut self, buffer: &mut [u8]) -> Result<usize> {
        self.reads = self.reads.wrapping_add(1);
        self.manner.trouble.admit(self.reads)?;
        let most = if self.reads == 1 {
            self.manner.first
        } else {
            self.manner.most
        };
        let most = most.max(1).min(buffer.len()).min(self.rest.len());
        let count = if self.manner.by_lines {
            line_length(&self.rest[..most])
        } else {
            most
        };
        let (piece, rest) = self.rest.split_at(count);
        buffer[..count].copy_from_slice(piece);
        self.rest = rest;
        Ok(count)
    }
}

// The bytes of the first line, its end among them.
fn line_length(text: &[u8]) -> usize {
    for (place, byte) in text.iter().enumerate() {
        if *byte == b'\n' {
            return place + 1;
        }
    }
    text.len()
}

/// Takes what is written. A flush is a call too.
#[derive(Drop)]
pub struct Sink {
    pub written: Vec<u8>,
    pub manner: Manner,
    pub calls: u64,
    pub flushes: u64,
}

impl Write for Sink {
    fn write(&mut self, buffer: &[u8]) -> Result<usize> {
        self.calls = self.calls.wrapping_add(1);
        self.manner.trouble.admit(self.calls)?;
        let count = buffer.len().min(self.manner.most);
        self.written.extend_from_slice(&buffer[..count])?;
        Ok(count)
    }

    fn flush(&mut self) -> Result<()> {
        self.calls = self.calls.wrapping_add(1);
        self.manner.trouble.admit(self.calls)?;
        self.flushes = self.flushes.wrapping_add(1);
        Ok(())
    }
}
