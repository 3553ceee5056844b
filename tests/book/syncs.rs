//! Two who ask a desk for a sync, the second while the first goes on. One that only asks is served by it; one that keeps something needs another.

use blot_desk::{Desk, Event, KeepFault, Keeper, Opening};
use std::alloc::Global;
use std::marker::Brand;
use std::sync::Wait;
use std::sync::atomic::AtomicU64;
use std::sync::atomic::Ordering::SeqCst;
use std::sync::ledger::{Blank, Ledger};
use std::test::Fail;
use std::thread;
use std::thread::{Threads, for_each_mut};
use std::time::{Clock, Duration};

// How far the two are: nobody has asked, the first sync goes on, the second is asked for.
const QUIET: u64 = 0;

const SYNCING: u64 = 1;

const ASKED: u64 = 2;

// How many milliseconds one waits for the other at most, and how many the first sync still takes then.
const MOST: u32 = 10_000;

const LONGER: u64 = 300;

// It keeps nothing, and its first sync goes on until a second one is asked for, and a while longer.
#[derive(Drop)]
struct Slow<'a, R> {
    rt: &'a R,
    stage: &'a AtomicU64,
    syncs: u32,
}

impl<R: Wait + Clock> Keeper for Slow<'_, R> {
    ghost IsKept = { ⊥ };

    ghost events = { λ _. [] };

    ghost found = { λ _. 0 };

    ghost durable = { λ _. 0 };

    ghost leaves = { λ _ _. ⊥ };

    ghost left = { λ _ _. ⊥ };

    ghost room = { λ _. 1 };

    ghost is_broken = { λ _. false };

    ghost spells = { λ _ _. Unit {0} };

    ghost spells_none = { λ _. Unit {0} };

    fn reserve(&mut self, _text: &[u8]) -> Result<(), KeepFault> {
        Ok(())
    }

    fn keep(&mut self, _text: &[u8], _event: &Event) {}

    fn keep_other(&mut self, _text: &[u8]) -> Result<(), KeepFault> {
        Ok(())
    }

    fn sync(&mut self) -> Result<(), KeepFault> {
        self.syncs = self.syncs.saturating_add(1);
        if self.syncs == 1 {
            self.stage.store(SYNCING, SeqCst);
            wait_for(self.rt, self.stage, ASKED);
            let _ = thread::sleep(self.rt, Duration::from_millis(LONGER));
        }
        Ok(())
    }

    fn ever(&self) {}
}

// Waits until a stage has come.
fn wait_for<R: Wait + Clock>(rt: &R, stage: &AtomicU64, wanted: u64) {
    for _ in 0..MOST {
        if stage.load(SeqCst) == wanted {
            return;
        }
        let _ = thread::sleep(rt, Duration::from_millis(1));
    }
}

// One who asks, whether the second, and whether something is kept first; and whether the sync was Ok.
#[derive(Drop)]
struct Asking {
    is_second: bool,
    keeps: bool,
    is_done: bool,
}

impl Asking {
    fn ask<R: Wait + Clock, L: Ledger>(
        &mut self,
        rt: &R,
        desk: &Desk<L, Slow<'_, R>>,
        stage: &AtomicU64,
    ) {
        if self.is_second {
            wait_for(rt, stage, SYNCING);
            stage.store(ASKED, SeqCst);
        }
        let kept = !self.keeps || desk.note(rt, b"text").is_ok();
        self.is_done = kept && desk.sync(rt).is_ok();
    }
}

// How many syncs the keeper made for the two, of whom the second keeps something, or only asks.
fn syncs_of_two<R: Threads + Wait + Clock + Sync, L: Ledger + Sync + Send>(
    rt: &R,
    alloc: Global,
    blank: Blank,
    keeps: bool,
) -> Result<u32, Fail> {
    let stage = AtomicU64::new(QUIET);
    let (opening, _seats) = Opening::<L>::new(alloc, blank, 1)?;
    let desk = opening.open(Slow {
        rt,
        stage: &stage,
        syncs: 0,
    });
    let mut two = Vec::new(alloc);
    for is_second in [false, true] {
        two.push(Asking {
            is_second,
            keeps: is_second && keeps,
            is_done: false,
        })?;
    }
    let (lent, stage) = (&desk, &stage);
    for_each_mut(
        rt,
        &mut two,
        2,
        &|_, asking: &mut Asking| asking.ask(rt, lent, stage),
    );
    if !two.iter().all(|asking| asking.is_done) {
        return Err(Fail::new("not synced"));
    }
    let (_, keeper) = desk.close_kept();
    Ok(keeper.syncs)
}

#[test]
fn a_sync_serves_who_asks_meanwhile_and_nobody_who_keeps_more(rt: HostRuntime) -> Result<(), Fail> {
    for (keeps, wanted) in [(true, 2), (false, 1)] {
        let syncs = syncs_of_two::<_, Brand>(&rt, rt.alloc(), Blank::new(1), keeps)?;
        if syncs != wanted {
            return Err(Fail::new(format_args!("{syncs} syncs, keeps: {keeps}")));
        }
    }
    Ok(())
}
