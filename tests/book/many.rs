//! Eight seats in eight threads, with events of every kind.

use crate::draws::Draws;
use crate::keys::{order, text};
use crate::seats::settle;
use blot_desk::{Desk, Event, Held, Recorded, Seat};
use blot_types::Command;
use std::alloc::{AllocError, Global};
use std::marker::Brand;
use std::sync::Wait;
use std::sync::ledger::{Blank, Ledger};
use std::test::Fail;
use std::thread::{Threads, for_each_mut};

// The events of each seat.
const EVENTS: usize = 500;

// A seat with the events that it is to submit, and how many of them were answered.
#[derive(Drop)]
struct Caller<L: Ledger> {
    seat: Seat<L>,
    events: Vec<Event>,
    answered: usize,
}

impl<L: Ledger> Caller<L> {
    // Submits all events. An undo names the newest number of the seat, where it has one.
    fn submit_all(&mut self, rt: &impl Wait, desk: &Desk<L>) {
        for _ in 0..EVENTS {
            let event = match self.events.pop() {
                Some(Event::Undo { newest }) => Event::Undo {
                    newest: self.seat.newest().unwrap_or(newest),
                },
                Some(event) => event,
                None => return,
            };
            if desk.submit(rt, &mut self.seat, event).is_ok() {
                self.answered = self.answered.saturating_add(1);
            }
        }
    }
}

// An event that is drawn: mostly a command, a withdrawal among them, else an undo, a redo or an ask.
fn drawn_event(alloc: Global, draws: &mut Draws, held: &Held) -> Result<Event, Fail> {
    match draws.draw() & 15 {
        0 => Ok(Event::Undo { newest: 1 }),
        1 => Ok(Event::Redo),
        2 => Ok(Event::AskOrder(order(b"BRKA", b"O1")?)),
        3 => Ok(Event::AskPosition(text(b"A1")?, text(b"XYZ")?)),
        4 => Ok(Event::Submit(draws.withdrawal(held.snapshot()?.entries()))),
        _ => drawn_command(alloc, draws, held),
    }
}

// A command that is drawn from what a desk shows.
fn drawn_command(alloc: Global, draws: &mut Draws, held: &Held) -> Result<Event, Fail> {
    let snapshot = held.snapshot()?;
    let command = draws.command(alloc, snapshot.entries())?;
    Ok(Event::Submit(command))
}

/// Events of every kind, drawn from a desk that takes them alone; the last one is to be taken first.
pub fn drawn_events(alloc: Global, seed: u32) -> Result<Vec<Event>, Fail> {
    let mut draws = Draws::new(seed);
    let mut held = Held::new(alloc);
    let mut events = Vec::new(alloc);
    for _ in 0..EVENTS {
        let event = drawn_event(alloc, &mut draws, &held)?;
        let _ = held.step(event.try_copy(alloc)?);
        put(&mut events, event)?;
    }
    events.reverse();
    Ok(events)
}

// Adds an event after others.
fn put(events: &mut Vec<Event>, event: Event) -> Result<(), AllocError> {
    match events.push(event) {
        Ok(()) => Ok(()),
        Err(_) => Err(AllocError),
    }
}

// A caller for each seat.
fn callers_of<L: Ledger>(alloc: Global, seats: Vec<Seat<L>>) -> Result<Vec<Caller<L>>, Fail> {
    let mut seats = seats;
    let mut callers = Vec::new(alloc);
    for seed in 0..8u32 {
        let seat = seats.pop().ok_or("no seat")?;
        let events = drawn_events(alloc, seed)?;
        callers.push(Caller {
            seat,
            events,
            answered: 0,
        })?;
    }
    Ok(callers)
}

// The seats of callers whose events were all answered.
fn seats_of<L: Ledger>(alloc: Global, callers: Vec<Caller<L>>) -> Result<Vec<Seat<L>>, Fail> {
    let mut callers = callers;
    let mut seats = Vec::new(alloc);
    for _ in 0..8u32 {
        let Caller {
            seat,
            events: _,
            answered,
        } = callers.pop().ok_or("no caller")?;
        if answered != EVENTS {
            return Err(Fail::new(format_args!("{answered} events answered")));
        }
        seats.push(seat)?;
    }
    Ok(seats)
}

// The same events at a desk of one thread: the same replies, and the same entries at the end.
fn expect_replayed(alloc: Global, held: &Held) -> Result<(), Fail> {
    let mut again = Held::new(alloc);
    for recorded in held.history() {
        replay(alloc, &mut again, recorded)?;
    }
    let (snapshot, other) = (held.snapshot()?, again.snapshot()?);
    if snapshot.entries() != other.entries() {
        return Err(Fail::new("other entries"));
    }
    Ok(())
}

// Events of each kind, and commands of each kind, are among the records.
fn expect_each_kind(history: &[Recorded]) -> Result<(), Fail> {
    let mut counts = [0u32; 11];
    for recorded in history {
        let kind = kind_of(&recorded.event);
        counts[kind] = counts[kind].saturating_add(1);
    }
    for count in &counts {
        if *count < 8 {
            return Err(Fail::new(format_args!("{counts:?}")));
        }
    }
    Ok(())
}

// The place of a kind of event among all.
fn kind_of(event: &Event) -> usize {
    match event {
        Event::Submit(Command::Trade(_)) => 0,
        Event::Submit(Command::Correct(_)) => 1,
        Event::Submit(Command::Bust(_)) => 2,
        Event::Submit(Command::AllocNew(_)) => 3,
        Event::Submit(Command::AllocReplace(_)) => 4,
        Event::Submit(Command::AllocCancel(_)) => 5,
        Event::Submit(Command::Withdraw(_)) => 6,
        Event::Undo { newest: _ } => 7,
        Event::Redo => 8,
        Event::AskOrder(_) => 9,
        Event::AskPosition(..) => 10,
    }
}

// A recorded event is answered as it was.
fn replay(alloc: Global, held: &mut Held, recorded: &Recorded) -> Result<(), Fail> {
    let event = recorded.event.try_copy(alloc)?;
    match held.step(event) {
        Ok(reply) if reply == recorded.reply => Ok(()),
        Ok(reply) => Err(Fail::new(format_args!("{reply:?}"))),
        Err(fault) => Err(Fail::new(format_args!("{fault:?}"))),
    }
}

// Eight seats in eight threads, and how they are settled.
fn run_many<L: Ledger + Send + Sync, R: Threads + Wait + Sync>(
    rt: &R,
    alloc: Global,
    blank: Blank,
) -> Result<(), Fail> {
    let (desk, seats) = Desk::<L>::new(alloc, blank, 8)?;
    let mut callers = callers_of(alloc, seats)?;
    let lent = &desk;
    for_each_mut(
        rt,
        &mut callers,
        8,
        &|_, caller: &mut Caller<L>| caller.submit_all(rt, lent),
    );
    let seats = seats_of(alloc, callers)?;
    let settled = settle(desk.close(), seats, 4_000)?;
    expect_each_kind(settled.held.history())?;
    expect_replayed(alloc, &settled.held)
}

#[test]
fn eight_seats_in_eight_threads(rt: HostRuntime) -> Result<(), Fail> {
    run_many::<Brand, _>(&rt, rt.alloc(), Blank::new(8))
}
