//! A gate that holds submits.

use blot_gateway::Gate;
use std::sync::atomic::{AtomicU64, Ordering};
use std::test::Fail;
use std::thread::yield_now;

// The turns that a submit is held at most.
const TURNS: u32 = 10_000_000;

/// Holds the submits of one place until one of another place was answered.
#[derive(Drop)]
pub struct Turns {
    held: usize,
    answered: AtomicU64,
    late: AtomicU64,
}

impl Turns {
    /// Holds those of this place.
    pub fn new(held: usize) -> Turns {
        Turns {
            held,
            answered: AtomicU64::new(0),
            late: AtomicU64::new(0),
        }
    }

    /// No submit was held to the last turn.
    pub fn expect_in_time(&self) -> Result<(), Fail> {
        if self.late.load(Ordering::SeqCst) != 0 {
            return Err(Fail::new("held too long"));
        }
        Ok(())
    }
}

impl Gate for Turns {
    fn before(&self, place: usize) {
        if place == self.held && !is_raised(&self.answered, 1) {
            self.late.store(1, Ordering::SeqCst);
        }
    }

    fn after(&self, place: usize) {
        if place != self.held {
            self.answered.store(1, Ordering::SeqCst);
        }
    }
}

// Waits until a number is as high: whether it came to that.
fn is_raised(number: &AtomicU64, least: u64) -> bool {
    for _ in 0..TURNS {
        if number.load(Ordering::SeqCst) >= least {
            return true;
        }
        yield_now();
    }
    false
}
