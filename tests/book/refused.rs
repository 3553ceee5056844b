//! Scripts of which one request for memory is refused. What was refused is made once more, and then the replies, the history, the book
//! and the reports are those of a run with ample memory. `tests/refused` has a certain request of the process refused, and runs each
//! script after so many others that it is the first of the script's own, then the second, and so on to its end.

use crate::draws::Draws;
use crate::keys::order;
use crate::words::Step::{Allocates, Busts, Trades, Withdraws};
use crate::words::{Booked, Filled, Step, command};
use blot_command::{ApplyFault, Tables};
use blot_desk::{Closed, Desk, DeskFault, Event, Held, Reply, Seat, Settled, Snapshot};
use blot_report::{day_lines, day_lines_parallel, report_text};
use blot_time::Day;
use blot_types::{Command, Sign};
use blot_undo::{StepFault, Steps};
use std::alloc::{AllocError, Global};
use std::marker::Brand;
use std::sync::Wait;
use std::sync::ledger::{Blank, Ledger};
use std::test::Fail;
use std::thread::Threads;

/// Where the refused request was.
#[derive(Clone, Copy, Debug, PartialEq, Eq)]
pub enum Refusal {
    /// In front of the script.
    InFront,
    /// In the script, which made it once more.
    Met,
    /// Behind the script, or nowhere.
    NotMet,
}

// More requests than any script makes, and than come after one.
const MANY: usize = 4_000;

// The seed of the drawn events, and how many there are.
const SEED: u32 = 443_950_618;

const DRAWN: usize = 150;

// A trade, its allocation to two accounts, and its bust.
const STEPS: [Step; 3] = [
    Trades(b"E2", Filled::Bought(b"50", b"11")),
    Allocates(
        b"AL1",
        Booked {
            sign: Sign::Buy,
            execs: &[b"E2"],
            block: b"50",
            lines: &[[b"A", b"30", b"11"], [b"B", b"20", b"11"]],
        },
    ),
    Busts(b"E3", b"E2"),
];

// What the events are answered.
const REPLIES: [Reply; 10] = [
    Reply::Accepted(1),
    Reply::Accepted(2),
    Reply::Accepted(3),
    Reply::Undone(3),
    Reply::Redone(3),
    Reply::Order(None),
    Reply::Accepted(4),
    Reply::Undone(4),
    Reply::Redone(4),
    Reply::Undone(4),
];

// The report at the end: the bust counts.
const REPORT: &str = "\
report\t20240105\n\
position\t*\tXYZ\t-50\t-550\n\
position\tA\tXYZ\t30\t330\n\
position\tB\tXYZ\t20\t220\n\
end\t3\n";

// The events: the three commands, the bust undone, redone and asked about, withdrawn and put back, and that done again and undone.
fn events(alloc: Global) -> Result<Vec<Event>, Fail> {
    let mut events = Vec::new(alloc);
    for step in &STEPS {
        events.push(Event::Submit(command(alloc, b"BRKA", step)?))?;
    }
    events.push(Event::Undo { newest: 3 })?;
    events.push(Event::Redo)?;
    events.push(Event::AskOrder(order(b"BRKA", b"O1")?))?;
    events.push(Event::Submit(command(alloc, b"BRKA", &Withdraws(3))?))?;
    events.push(Event::Undo { newest: 4 })?;
    events.push(Event::Redo)?;
    events.push(Event::Undo { newest: 4 })?;
    Ok(events)
}

// An event of any kind, drawn from what a desk shows: mostly a command, else a withdrawal, an undo or a redo.
fn drawn_event(alloc: Global, draws: &mut Draws, held: &Held) -> Result<Event, Fail> {
    let snapshot = held.snapshot()?;
    let list = snapshot.entries();
    Ok(match draws.draw() & 15 {
        0 | 1 => Event::Submit(draws.withdrawal(list)),
        2 | 3 => Event::Undo {
            newest: held.newest_entry().unwrap_or(1),
        },
        4 => Event::Redo,
        _ => Event::Submit(draws.command(alloc, list)?),
    })
}

// Events that are drawn from a seed, and what each is answered with ample memory.
fn drawn_events(alloc: Global) -> Result<(Vec<Event>, Vec<Reply>), Fail> {
    let (mut draws, mut held) = (Draws::new(SEED), Held::new(alloc));
    let (mut events, mut replies) = (Vec::new(alloc), Vec::new(alloc));
    for _ in 0..DRAWN {
        let event = drawn_event(alloc, &mut draws, &held)?;
        events.push(event.try_copy(alloc)?).ok().ok_or("no room")?;
        replies.push(answer(&mut held, event)?)?;
    }
    expect_each_kind(&events, &replies)?;
    Ok((events, replies))
}

// A command of each kind is taken, and a step undone and redone.
fn expect_each_kind(events: &[Event], replies: &[Reply]) -> Result<(), Fail> {
    let mut counts = [0u32; 10];
    for (place, reply) in replies.iter().enumerate() {
        let kind = kind_of(&events[place], reply);
        counts[kind] = counts[kind].saturating_add(1);
    }
    if counts.contains(&0) {
        return Err(Fail::new(format_args!("{counts:?}")));
    }
    Ok(())
}

// The kind of an event that was taken, or 9.
fn kind_of(event: &Event, reply: &Reply) -> usize {
    match (event, reply) {
        (Event::Submit(Command::Trade(_)), Reply::Accepted(_)) => 0,
        (Event::Submit(Command::Correct(_)), Reply::Accepted(_)) => 1,
        (Event::Submit(Command::Bust(_)), Reply::Accepted(_)) => 2,
        (Event::Submit(Command::AllocNew(_)), Reply::Accepted(_)) => 3,
        (Event::Submit(Command::AllocReplace(_)), Reply::Accepted(_)) => 4,
        (Event::Submit(Command::AllocCancel(_)), Reply::Accepted(_)) => 5,
        (Event::Submit(Command::Withdraw(_)), Reply::Accepted(_)) => 6,
        (_, Reply::Undone(_)) => 7,
        (_, Reply::Redone(_)) => 8,
        _ => 9,
    }
}

// The events last one first, in a list of their own.
fn reversed(alloc: Global, events: &[Event]) -> Result<Vec<Event>, Fail> {
    let mut copies = Vec::new(alloc);
    for event in events {
        copies.push(event.try_copy(alloc)?).ok().ok_or("no room")?;
    }
    copies.reverse();
    Ok(copies)
}

// What an event is answered with ample memory.
fn answer(held: &mut Held, event: Event) -> Result<Reply, Fail> {
    match held.step(event) {
        Ok(reply) => Ok(reply),
        Err(fault) => Err(Fail::new(format_args!("{fault:?} with ample memory"))),
    }
}

// Makes so many requests; whether none was refused.
fn spend(alloc: Global, requests: usize) -> bool {
    for _ in 0..requests {
        let mut one: Vec<u8> = Vec::new(alloc);
        if one.push(0).is_err() {
            return false;
        }
    }
    true
}

// How a script ended that met a refusal or none. A refusal that is still to come is spent, so that nothing after it meets it.
fn ended(alloc: Global, is_met: bool) -> Refusal {
    if is_met {
        return Refusal::Met;
    }
    spend(alloc, MANY);
    Refusal::NotMet
}

// Makes a call, and makes it once more where memory ran out.
fn once_more<T, F: Fn() -> Result<T, AllocError>>(is_met: &mut bool, call: &F) -> Result<T, Fail> {
    if let Ok(value) = call() {
        return Ok(value);
    }
    *is_met = true;
    Ok(call()?)
}

// A desk at which these events were taken, with ample memory.
fn reached(alloc: Global, events: &[Event]) -> Result<Held, Fail> {
    let mut held = Held::new(alloc);
    for event in events {
        answer(&mut held, event.try_copy(alloc)?)?;
    }
    Ok(held)
}

// Two desks have the same history and the same book.
fn expect_same(held: &Held, other: &Held) -> Result<(), Fail> {
    if held.history() != other.history() {
        return Err(Fail::new("another history"));
    }
    if held.snapshot()?.entries() != other.snapshot()?.entries() {
        return Err(Fail::new("another book"));
    }
    Ok(())
}

// The reply is the one with ample memory.
fn expect_reply(reply: &Reply, wanted: &Reply) -> Result<(), Fail> {
    if reply != wanted {
        return Err(Fail::new(format_args!("{reply:?} for {wanted:?}")));
    }
    Ok(())
}

// Takes an event after others. Where memory ran out nothing has changed, and it is taken once more.
fn step(
    alloc: Global,
    held: &mut Held,
    event: Event,
    again: Event,
    before: &[Event],
    is_met: &mut bool,
) -> Result<Reply, Fail> {
    match held.step(event) {
        Ok(reply) => return Ok(reply),
        Err(DeskFault::NoMemory) => *is_met = true,
        Err(fault) => return Err(Fail::new(format_args!("{fault:?}"))),
    }
    expect_same(held, &reached(alloc, before)?)?;
    match held.step(again) {
        Ok(reply) => Ok(reply),
        Err(fault) => Err(Fail::new(format_args!("{fault:?} once more"))),
    }
}

// These events at a desk of one thread, each with its reply.
fn at_a_desk(
    alloc: Global,
    events: &[Event],
    replies: &[Reply],
    in_front: usize,
) -> Result<Refusal, Fail> {
    let (mut left, mut spare) = (reversed(alloc, events)?, reversed(alloc, events)?);
    if !spend(alloc, in_front) {
        return Ok(Refusal::InFront);
    }
    let (mut held, mut is_met) = (Held::new(alloc), false);
    for (place, wanted) in replies.iter().enumerate() {
        let event = left.pop().ok_or("no event")?;
        let again = spare.pop().ok_or("no event")?;
        let reply = step(
            alloc,
            &mut held,
            event,
            again,
            &events[..place],
            &mut is_met,
        )?;
        expect_reply(&reply, wanted)?;
    }
    let refusal = ended(alloc, is_met);
    expect_same(&held, &reached(alloc, events)?)?;
    Ok(refusal)
}

/// The events at a desk of one thread.
pub fn held(alloc: Global, in_front: usize) -> Result<Refusal, Fail> {
    at_a_desk(alloc, &events(alloc)?, &REPLIES, in_front)
}

/// Drawn events of every kind at a desk of one thread.
pub fn drawn(alloc: Global, in_front: usize) -> Result<Refusal, Fail> {
    let (events, replies) = drawn_events(alloc)?;
    at_a_desk(alloc, &events, &replies, in_front)
}

// A desk with one seat; it is opened once more where memory ran out.
fn open<L: Ledger>(alloc: Global, is_met: &mut bool) -> Result<(Desk<L>, Vec<Seat<L>>), Fail> {
    if let Ok(opened) = Desk::<L>::new(alloc, Blank::new(1), 1) {
        return Ok(opened);
    }
    *is_met = true;
    Ok(Desk::<L>::new(alloc, Blank::new(1), 1)?)
}

// Submits an event. Where memory ran out there is no receipt of it, and it is submitted once more.
fn submit<L: Ledger>(
    rt: &impl Wait,
    desk: &Desk<L>,
    seat: &mut Seat<L>,
    event: Event,
    again: Event,
    is_met: &mut bool,
) -> Result<Reply, Fail> {
    let receipts = seat.receipts().len();
    match desk.submit(rt, seat, event) {
        Ok(reply) => return Ok(reply),
        Err(DeskFault::NoMemory) => *is_met = true,
        Err(fault) => return Err(Fail::new(format_args!("{fault:?}"))),
    }
    if seat.receipts().len() != receipts {
        return Err(Fail::new("a receipt of what wasn't taken"));
    }
    match desk.submit(rt, seat, again) {
        Ok(reply) => Ok(reply),
        Err(fault) => Err(Fail::new(format_args!("{fault:?} once more"))),
    }
}

// Settles a desk. Where memory ran out all is handed back, and it is settled once more.
fn settle<L: Ledger>(
    closed: Closed<L>,
    seats: Vec<Seat<L>>,
    is_met: &mut bool,
) -> Result<Settled<L>, Fail> {
    let (fault, closed, seats) = match closed.settle(seats) {
        Ok(settled) => return Ok(settled),
        Err(refused) => refused,
    };
    if fault != DeskFault::NoMemory {
        return Err(Fail::new(format_args!("{fault:?}")));
    }
    *is_met = true;
    match closed.settle(seats) {
        Ok(settled) => Ok(settled),
        Err(refused) => Err(Fail::new(format_args!("{:?} once more", refused.0))),
    }
}

// The report is the wanted one, from one thread and from several.
fn expect_reports<R: Threads + Sync>(
    rt: &R,
    alloc: Global,
    snapshot: &Snapshot,
    is_met: &mut bool,
) -> Result<(), Fail> {
    let day = Day::read(b"20240105")?;
    let lines = once_more(is_met, &|| day_lines(alloc, snapshot, day))?;
    let others = once_more(is_met, &|| day_lines_parallel(rt, alloc, snapshot, day))?;
    let text = once_more(is_met, &|| report_text(alloc, &lines))?;
    if lines != others || text.as_slice() != REPORT.as_bytes() {
        return Err(Fail::new("another report"));
    }
    Ok(())
}

// The events at one seat of a desk, the settling and both reports.
fn one_seat<L: Ledger, R: Threads + Wait + Sync>(
    rt: &R,
    alloc: Global,
    in_front: usize,
) -> Result<Refusal, Fail> {
    let events = events(alloc)?;
    let (mut left, mut spare) = (reversed(alloc, &events)?, reversed(alloc, &events)?);
    if !spend(alloc, in_front) {
        return Ok(Refusal::InFront);
    }
    let mut is_met = false;
    let (desk, mut seats) = open::<L>(alloc, &mut is_met)?;
    let mut seat = seats.pop().ok_or("no seat")?;
    for wanted in &REPLIES {
        let event = left.pop().ok_or("no event")?;
        let again = spare.pop().ok_or("no event")?;
        let reply = submit(rt, &desk, &mut seat, event, again, &mut is_met)?;
        expect_reply(&reply, wanted)?;
    }
    seats.push(seat)?;
    let settled = settle(desk.close(), seats, &mut is_met)?;
    let snapshot = once_more(&mut is_met, &|| settled.held.snapshot())?;
    expect_reports(rt, alloc, &snapshot, &mut is_met)?;
    let refusal = ended(alloc, is_met);
    expect_same(&settled.held, &reached(alloc, &events)?)?;
    Ok(refusal)
}

/// The events at one seat of a desk, the settling and both reports.
pub fn seat<R: Threads + Wait + Sync>(
    rt: &R,
    alloc: Global,
    in_front: usize,
) -> Result<Refusal, Fail> {
    one_seat::<Brand, R>(rt, alloc, in_front)
}

// Takes a command under its number. Where memory ran out it comes back, and is taken once more.
fn apply(
    steps: &mut Steps<Command>,
    command: Command,
    number: u64,
    is_met: &mut bool,
) -> Result<(), Fail> {
    let found = match steps.apply(command) {
        Ok(found) => found,
        Err(StepFault::NoMemory(back)) | Err(StepFault::Refused(back, ApplyFault::NoMemory)) => {
            *is_met = true;
            steps.apply(back).ok().ok_or("refused once more")?
        }
        Err(_) => return Err(Fail::new("refused")),
    };
    if found != number {
        return Err(Fail::new(format_args!("{found} for {number}")));
    }
    Ok(())
}

// Redoes a step. Where memory ran out it stays undone, and the next redo gives the same number.
fn redo(steps: &mut Steps<Command>, number: u64, is_met: &mut bool) -> Result<(), Fail> {
    let (newest, done) = (steps.newest(), steps.done());
    let found = match steps.redo() {
        Ok(found) => found,
        Err(_) => {
            *is_met = true;
            if steps.newest() != newest || steps.done() != done {
                return Err(Fail::new("a step that was refused and done"));
            }
            steps.redo()?
        }
    };
    if found != Some(number) || steps.newest() != Some(number) {
        return Err(Fail::new(format_args!("{found:?} for {number}")));
    }
    Ok(())
}

// The commands under their numbers, all undone, and redone one by one.
fn there_and_back(
    steps: &mut Steps<Command>,
    commands: Vec<Command>,
    is_met: &mut bool,
) -> Result<(), Fail> {
    let mut number = 0;
    for command in commands {
        number += 1;
        apply(steps, command, number, is_met)?;
    }
    for number in [3, 2, 1] {
        if steps.undo() != Some(number) {
            return Err(Fail::new(format_args!("{number} isn't undone")));
        }
    }
    for number in [1, 2, 3] {
        redo(steps, number, is_met)?;
    }
    Ok(())
}

/// The three commands at a stack of steps.
pub fn steps(alloc: Global, in_front: usize) -> Result<Refusal, Fail> {
    let mut commands = Vec::new(alloc);
    for step in &STEPS {
        commands.push(command(alloc, b"BRKA", step)?)?;
    }
    if !spend(alloc, in_front) {
        return Ok(Refusal::InFront);
    }
    let (mut steps, mut is_met) = (Steps::new(alloc, Tables::new(alloc)), false);
    there_and_back(&mut steps, commands, &mut is_met)?;
    let refusal = ended(alloc, is_met);
    let wanted = reached(alloc, &events(alloc)?[..3])?.snapshot()?;
    if steps.state().entries(alloc)?.as_slice() != wanted.entries() {
        return Err(Fail::new("another book"));
    }
    Ok(refusal)
}

#[test]
fn nothing_refused(rt: HostRuntime) -> Result<(), Fail> {
    let alloc = rt.alloc();
    let refusals = [
        held(alloc, 0)?,
        drawn(alloc, 0)?,
        seat(&rt, alloc, 0)?,
        steps(alloc, 0)?,
    ];
    if refusals != [Refusal::NotMet; 4] {
        return Err(Fail::new(format_args!("{refusals:?}")));
    }
    Ok(())
}
