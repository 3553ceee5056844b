//! Who made each command, at a desk of three seats: what it tells is what a plain loop keeps.

use crate::keys::text;
use crate::many::drawn_events;
use crate::seats::settle;
use blot_desk::{Desk, Event, Found, NoKeeper, Opening, Question, Reply, Seat, StepRow};
use blot_types::Text64;
use std::alloc::Global;
use std::marker::Brand;
use std::sync::Wait;
use std::sync::ledger::{Blank, Ledger};
use std::test::Fail;

// What is asked for after each event, and after each so-manieth.
const FEW: u16 = 4;

const ALL: u16 = 1_000;

const EACH: usize = 50;

// The makers of the done steps, of the undone ones and of the refused commands, each with the newest last.
#[derive(Drop)]
struct Plain {
    done: Vec<Text64>,
    undone: Vec<Text64>,
    refused: Vec<Text64>,
    redone: usize,
}

impl Plain {
    // An event of a maker got this reply.
    fn take(&mut self, maker: Text64, is_command: bool, reply: &Reply) -> Result<(), Fail> {
        match *reply {
            Reply::Accepted(_) => {
                self.undone.clear();
                self.done.push(maker)?;
            }
            Reply::Refused(_) if is_command => self.refused.push(maker)?,
            Reply::Undone(_) => self.undone.push(self.done.pop().ok_or("no step")?)?,
            Reply::Redone(_) => {
                self.done.push(self.undone.pop().ok_or("no undone step")?)?;
                self.redone = self.redone.saturating_add(1);
            }
            _ => {}
        }
        Ok(())
    }
}

// Three seats, each with its own name, and the plain loop beside their desk.
#[derive(Drop)]
struct Day<L: Ledger> {
    desk: Desk<L>,
    seats: Vec<Seat<L>>,
    names: [Text64; 3],
    plain: Plain,
    events: usize,
}

impl<L: Ledger> Day<L> {
    // An event of a seat.
    fn take(&mut self, rt: &impl Wait, seat: usize, event: Event) -> Result<(), Fail> {
        let maker = self.names[seat];
        let is_command = matches!(event, Event::Submit(_));
        let seat = &mut self.seats[seat];
        let Ok(reply) = self.desk.submit_with(rt, seat, &maker, event, &[]) else {
            return Err(Fail::new("a fault"));
        };
        self.events = self.events.saturating_add(1);
        self.plain.take(maker, is_command, &reply)
    }

    // The names of so many of the newest done steps and refused commands are those that the plain loop kept.
    fn expect_told(&self, rt: &impl Wait, count: u16) -> Result<(), Fail> {
        let (Found::Steps(rows), names) = self.desk.look_by(rt, &Question::Steps(count))? else {
            return Err(Fail::new("no steps"));
        };
        expect_newest(&self.plain.done, &names, rows.as_slice().len(), count)?;
        let question = Question::Refusals(count);
        let (Found::Refusals(rows), names) = self.desk.look_by(rt, &question)? else {
            return Err(Fail::new("no refusals"));
        };
        expect_newest(&self.plain.refused, &names, rows.as_slice().len(), count)
    }

    // The number of the newest done step.
    fn newest(&self, rt: &impl Wait) -> Result<u64, Fail> {
        let Found::Steps(rows) = self.desk.look(rt, &Question::Steps(1))? else {
            return Err(Fail::new("no steps"));
        };
        Ok(match rows.as_slice().first() {
            Some(StepRow::Entry(entry)) => entry.number,
            Some(StepRow::Withdraw(number, _) | StepRow::Withdrawn(number)) => *number,
            None => 1,
        })
    }
}

// So many names are the last of some that were kept, the last first, one for each row.
fn expect_newest(kept: &[Text64], names: &[Text64], rows: usize, count: u16) -> Result<(), Fail> {
    if names.len() != rows || rows != kept.len().min(usize::from(count)) {
        return Err(Fail::new(format_args!("{rows} rows, {} names", names.len())));
    }
    for (name, wanted) in names.iter().zip(kept.iter().rev()) {
        if name != wanted {
            return Err(Fail::new(format_args!("{name:?} for {wanted:?}")));
        }
    }
    Ok(())
}

// A desk of three seats without events.
fn empty_day<L: Ledger>(alloc: Global, blank: Blank) -> Result<Day<L>, Fail> {
    let (opening, seats) = Opening::<L>::new(alloc, blank, 3)?;
    let names = [text(b"BRKA")?, text(b"ANNA")?, text(b"BRKB")?];
    Ok(Day {
        desk: opening.open(NoKeeper {}),
        seats,
        names,
        plain: Plain {
            done: Vec::new(alloc),
            undone: Vec::new(alloc),
            refused: Vec::new(alloc),
            redone: 0,
        },
        events: 0,
    })
}

// Events of every kind, each of the next seat. An undo names the newest step, and another seat does it again every other time.
fn run<L: Ledger>(rt: &impl Wait, alloc: Global, blank: Blank) -> Result<(), Fail> {
    let mut day = empty_day::<L>(alloc, blank)?;
    let mut undone = 0usize;
    for (place, event) in drawn_events(alloc, 11)?.iter().rev().enumerate() {
        let seat = place % 3;
        if let Event::Undo { .. } = event {
            let newest = day.newest(rt)?;
            day.take(rt, seat, Event::Undo { newest })?;
            undone = undone.saturating_add(1);
            if undone % 2 == 0 {
                day.expect_told(rt, FEW)?;
                day.take(rt, (place + 1) % 3, Event::Redo)?;
            }
        } else {
            day.take(rt, seat, event.try_copy(alloc)?)?;
        }
        day.expect_told(rt, if place % EACH == 0 { ALL } else { FEW })?;
    }
    day.expect_told(rt, ALL)?;
    let Day {
        desk,
        seats,
        plain,
        events,
        ..
    } = day;
    let (done, refused, redone) = (plain.done.len(), plain.refused.len(), plain.redone);
    if done < 20 || refused < 20 || redone < 5 {
        return Err(Fail::new(format_args!("{done} done, {refused} refused, {redone} redone")));
    }
    settle(desk.close(), seats, events)?;
    Ok(())
}

#[test]
fn each_command_has_its_maker(rt: HostRuntime) -> Result<(), Fail> {
    run::<Brand>(&rt, rt.alloc(), Blank::new(3))
}
