//! Lists drawn from a seed, without the chain of each key in turn.

use crate::draws::{Draws, drawn_execs};
use crate::erasure::{fault_of, offer};
use crate::keys::exec;
use blot_desk::{Held, Snapshot};
use blot_types::{Command, Entry, ExecKey};
use blot_withdraw::EraseFault;
use std::alloc::Global;
use std::test::Fail;

// A command for a list. One in eight is a bust besides those that come anyway.
fn drawn(alloc: Global, draws: &mut Draws, list: &[Entry]) -> Result<Command, Fail> {
    if draws.draw() & 7 == 0 {
        return draws.any_bust();
    }
    draws.command(alloc, list)
}

// A desk takes a command that is drawn, or refuses it.
fn offer_drawn(alloc: Global, held: &mut Held, draws: &mut Draws) -> Result<(), Fail> {
    let snapshot = held.snapshot()?;
    let command = drawn(alloc, draws, snapshot.entries())?;
    offer(held, command)?;
    Ok(())
}

// So it does with 40 commands.
fn offer_each_drawn(alloc: Global, held: &mut Held, draws: &mut Draws) -> Result<(), Fail> {
    for _ in 0..40u32 {
        offer_drawn(alloc, held, draws)?;
    }
    Ok(())
}

// The list of a day of commands that are drawn.
fn drawn_list(alloc: Global, draws: &mut Draws) -> Result<Snapshot, Fail> {
    let mut held = Held::new(alloc);
    offer_each_drawn(alloc, &mut held, draws)?;
    Ok(held.snapshot()?)
}

// How often each answer came.
#[derive(Clone, Copy, Debug)]
struct Counts {
    rests: u32,
    unknown: u32,
    not_busted: u32,
    named: u32,
}

impl Counts {
    // An answer came.
    fn count(&mut self, fault: Option<EraseFault>) {
        let count = match fault {
            None => &mut self.rests,
            Some(EraseFault::UnknownExec) => &mut self.unknown,
            Some(EraseFault::NotBusted) => &mut self.not_busted,
            Some(_) => &mut self.named,
        };
        *count = count.saturating_add(1);
    }

    // Each answer came 20 times and more.
    fn expect_each(&self) -> Result<(), Fail> {
        let Counts {
            rests,
            unknown,
            not_busted,
            named,
        } = *self;
        if rests < 20 || unknown < 20 || not_busted < 20 || named < 20 {
            return Err(Fail::new(format_args!("{self:?}")));
        }
        Ok(())
    }
}

// The answers for some keys are the plain program's, and so is that for a key that isn't drawn.
fn compare(
    alloc: Global,
    list: &[Entry],
    keys: &[ExecKey],
    counts: &mut Counts,
) -> Result<(), Fail> {
    for key in keys {
        let fault = fault_of(alloc, list, key)?;
        counts.count(fault);
    }
    fault_of(alloc, list, &exec(b"BRKA", b"E9")?)?;
    Ok(())
}

#[test]
fn drawn_lists_without_each_chain(rt: HostRuntime) -> Result<(), Fail> {
    let keys = drawn_execs()?;
    let mut draws = Draws::new(3);
    let mut counts = Counts {
        rests: 0,
        unknown: 0,
        not_busted: 0,
        named: 0,
    };
    for _ in 0..100u32 {
        let snapshot = drawn_list(rt.alloc(), &mut draws)?;
        compare(rt.alloc(), snapshot.entries(), &keys, &mut counts)?;
    }
    counts.expect_each()
}
