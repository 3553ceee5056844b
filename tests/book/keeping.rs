//! A desk whose events are kept beside it.

use crate::keys::text;
use crate::many::drawn_events;
use crate::seats::settle;
use blot_desk::{
    Closed, Desk, DeskFault, Event, KeepFault, Keeper, Opening, Recorded, Reply, Seat,
};
use std::alloc::Global;
use std::marker::Brand;
use std::sync::Wait;
use std::sync::ledger::{Blank, Ledger};
use std::test::Fail;

// How many of the drawn events each run takes at most.
const EVENTS: usize = 80;

// The room for each so-manieth record is refused.
const REFUSED: u32 = 5;

// An event with its record.
#[derive(Drop)]
struct Kept {
    event: Event,
    text: u8,
}

// It keeps events in memory, refuses some of them room, and breaks at a sync.
#[derive(Drop)]
struct Toy {
    alloc: Global,
    kept: Vec<Kept>,
    durable: usize,
    reserved: u32,
    syncs_left: u32,
    broken: bool,
}

impl Toy {
    // It keeps nothing yet, and breaks after so many syncs.
    fn new(alloc: Global, syncs: u32) -> Toy {
        Toy {
            alloc,
            kept: Vec::new(alloc),
            durable: 0,
            reserved: 0,
            syncs_left: syncs,
            broken: false,
        }
    }
}

impl Keeper for Toy {
    ghost use Rattle.std.specs.Prelude.{map};

    ghost IsKept = { Unit {0} };

    ghost events = { λ toy. map (λ kept. kept.event) toy.kept.items };

    ghost found = { λ _. 0 };

    ghost durable = { λ toy. toy.durable };

    ghost leaves = { λ _ _. ⊥ };

    ghost left = { λ _ _. ⊥ };

    ghost room = { λ _. 1 };

    ghost is_broken = { λ toy. toy.broken };

    ghost spells = { λ _ _. Unit {0} };

    ghost spells_none = { λ _. Unit {0} };

    fn reserve(&mut self, _text: &[u8]) -> Result<(), KeepFault> {
        if self.broken {
            return Err(KeepFault::Broken);
        }
        self.reserved = self.reserved.saturating_add(1);
        if self.reserved % REFUSED == 0 {
            return Err(KeepFault::NoMemory);
        }
        Ok(())
    }

    fn keep(&mut self, text: &[u8], event: &Event) {
        let text = text.first().copied().unwrap_or(0);
        if let Ok(event) = event.try_copy(self.alloc) {
            let _ = self.kept.push(Kept { event, text });
        }
    }

    fn keep_other(&mut self, _text: &[u8]) -> Result<(), KeepFault> {
        if self.broken {
            Err(KeepFault::Broken)
        } else {
            Ok(())
        }
    }

    fn sync(&mut self) -> Result<(), KeepFault> {
        if self.syncs_left == 0 {
            self.broken = true;
        }
        if self.broken {
            return Err(KeepFault::Broken);
        }
        self.syncs_left = self.syncs_left.saturating_sub(1);
        self.durable = self.kept.len();
        Ok(())
    }

    fn ever(&self) {}
}

// What is kept of a history is its events in their order, asks aside, each by its record: the place of the event among those of the run.
fn expect_kept(history: &[Recorded], toy: &Toy) -> Result<(), Fail> {
    let mut kept = toy.kept.iter();
    let mut last = None;
    for recorded in history {
        if recorded.event.is_ask() {
            continue;
        }
        let next = kept.next().ok_or("an event isn't kept")?;
        if next.event != recorded.event || last.is_some_and(|text| next.text <= text) {
            return Err(Fail::new("another event is kept"));
        }
        last = Some(next.text);
    }
    if kept.next().is_some() {
        return Err(Fail::new("an event is kept that isn't recorded"));
    }
    Ok(())
}

// A desk with a toy that breaks after so many syncs, and its seats.
fn opened<L: Ledger>(
    alloc: Global,
    blank: Blank,
    syncs: u32,
) -> Result<(Desk<L, Toy>, Vec<Seat<L>>), Fail> {
    let (opening, seats) = Opening::<L>::new(alloc, blank, 3)?;
    Ok((opening.open(Toy::new(alloc, syncs)), seats))
}

// How many events a run has submitted that don't only ask, and how many of all were answered.
#[derive(Drop)]
struct Count {
    records: u32,
    answered: usize,
}

impl Count {
    fn new() -> Count {
        Count {
            records: 0,
            answered: 0,
        }
    }

    // An answer is a reply, or want of memory where the room for the record is refused.
    fn take(&mut self, asks: bool, answer: &Result<Reply, DeskFault>) -> Result<(), Fail> {
        let mut refused = false;
        if !asks {
            self.records = self.records.saturating_add(1);
            refused = self.records % REFUSED == 0;
        }
        match answer {
            Ok(_) if !refused => {
                self.answered = self.answered.saturating_add(1);
                Ok(())
            }
            Err(DeskFault::NoMemory) if refused => Ok(()),
            other => Err(Fail::new(format_args!("{other:?}, refused: {refused}"))),
        }
    }
}

// Submits so many of some events, the last of them first, each by one of three seats, and each with its place as its record.
fn submit<L: Ledger>(
    rt: &impl Wait,
    alloc: Global,
    desk: &Desk<L, Toy>,
    seats: &mut [Seat<L>],
    events: &[Event],
) -> Result<Count, Fail> {
    let mut count = Count::new();
    let mut place = 0u8;
    let maker = text(b"ANNA")?;
    for event in events.iter().rev() {
        let seat = usize::from(place % 3);
        let asks = event.is_ask();
        let event = event.try_copy(alloc)?;
        let answer = desk.submit_with(rt, &mut seats[seat], &maker, event, &[place]);
        count.take(asks, &answer)?;
        place = place.saturating_add(1);
    }
    Ok(count)
}

// A run of some events: what is recorded of them is kept, and is what the seats were told.
fn run<L: Ledger>(
    rt: &impl Wait,
    alloc: Global,
    blank: Blank,
    events: &[Event],
) -> Result<(), Fail> {
    let (desk, mut seats) = opened::<L>(alloc, blank, 1)?;
    let count = submit(rt, alloc, &desk, &mut seats, events)?;
    let synced = desk.sync(rt);
    let (closed, toy): (Closed<L>, Toy) = desk.close_kept();
    expect_kept(closed.held.history(), &toy)?;
    if synced != Ok(()) || toy.durable != toy.kept.len() {
        return Err(Fail::new("not durable"));
    }
    settle(closed, seats, count.answered)?;
    Ok(())
}

#[test]
fn what_is_kept_is_what_is_recorded(rt: HostRuntime) -> Result<(), Fail> {
    let alloc = rt.alloc();
    let events = drawn_events(alloc, 7)?;
    let first = events.len().saturating_sub(EVENTS);
    for start in first..events.len() {
        run::<Brand>(&rt, alloc, Blank::new(3), &events[start..])?;
    }
    Ok(())
}

// Once a sync has failed, what only asks is answered, and all else is Broken.
fn expect_broken<L: Ledger>(
    rt: &impl Wait,
    desk: &Desk<L, Toy>,
    seat: &mut Seat<L>,
    event: Event,
) -> Result<bool, Fail> {
    let asks = event.is_ask();
    let answer = desk.submit_with(rt, seat, &text(b"ANNA")?, event, &[0]);
    if asks != answer.is_ok() || !asks && answer != Err(DeskFault::Broken) {
        return Err(Fail::new(format_args!("{answer:?}")));
    }
    if desk.sync(rt) != Err(KeepFault::Broken) || desk.note(rt, &[0]) != Err(KeepFault::Broken) {
        return Err(Fail::new("a broken keeper goes on"));
    }
    Ok(asks)
}

// A run of some events, of which the first half is durable when the keeper breaks.
fn run_broken<L: Ledger>(
    rt: &impl Wait,
    alloc: Global,
    blank: Blank,
    events: &[Event],
) -> Result<(), Fail> {
    let (later, earlier) = events.split_at(events.len() / 2);
    let (desk, mut seats) = opened::<L>(alloc, blank, 1)?;
    let mut count = submit(rt, alloc, &desk, &mut seats, earlier)?;
    if desk.sync(rt) != Ok(()) || desk.note(rt, &[0]) != Ok(()) {
        return Err(Fail::new("broken too early"));
    }
    if desk.sync(rt) != Err(KeepFault::Broken) {
        return Err(Fail::new("not broken"));
    }
    for event in later.iter().rev() {
        let asks = expect_broken(rt, &desk, &mut seats[0], event.try_copy(alloc)?)?;
        count.answered = count.answered.saturating_add(usize::from(asks));
    }
    let (closed, toy) = desk.close_kept();
    expect_kept(closed.held.history(), &toy)?;
    if toy.durable != toy.kept.len() {
        return Err(Fail::new("kept after a failed sync"));
    }
    settle(closed, seats, count.answered)?;
    Ok(())
}

#[test]
fn a_broken_keeper_takes_no_more(rt: HostRuntime) -> Result<(), Fail> {
    let alloc = rt.alloc();
    let events = drawn_events(alloc, 8)?;
    let first = events.len().saturating_sub(EVENTS);
    run_broken::<Brand>(&rt, alloc, Blank::new(3), &events[first..])
}
