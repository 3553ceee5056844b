//! A long run of commands, withdrawals among them, with steps undone and redone between them, beside a plain stack of steps and the
//! plain slow program.

use crate::draws::{Draws, drawn_orders};
use crate::model::{compare_lines, live};
use crate::tally::Tally;
use blot_command::{ApplyFault, BoxedCommand, Tables};
use blot_model::accepts;
use blot_types::{Command, EVENTS_MAX, Entry, OrderKey, Refused};
use blot_undo::{StepFault, Steps};
use std::alloc::Global;
use std::test::Fail;

// How many commands are sent.
const COMMANDS: u32 = 2_000;

// A done step: an entry of a number, or a withdrawal of a number with the entry that it took out.
#[derive(Drop)]
enum Done {
    Entered(u64),
    Took(u64, Entry),
}

// An undone step: an entry, or a withdrawal of a number with the number that it took out.
#[derive(Drop)]
enum Undone {
    Entry(Entry),
    Withdrawal(u64, u64),
}

// A live list, the done steps, the newest last, the undone ones, the one undone last last, and the next number; and how long the list
// ever was, and how many steps were undone and redone.
#[derive(Drop)]
struct Stack {
    list: Vec<Entry>,
    done: Vec<Done>,
    undone: Vec<Undone>,
    next: u64,
    longest: usize,
    steps_back: u32,
    steps_forth: u32,
}

// The place of a number in a list, or that of the first one above it.
fn place_of(list: &[Entry], number: u64) -> usize {
    list.iter()
        .take_while(|entry| entry.number < number)
        .count()
}

// Takes the entry of a number out of a list.
fn take_out(list: &mut Vec<Entry>, number: u64) -> Result<Entry, Fail> {
    let place = place_of(list, number);
    match list.get(place) {
        Some(entry) if entry.number == number => Ok(list.remove(place)),
        _ => Err(Fail::new("no such entry")),
    }
}

// Takes a command: its number.
fn take(stack: &mut Stack, command: Command) -> Result<u64, Fail> {
    let number = stack.next;
    match command.withdrawn() {
        Some(taken) => {
            let entry = take_out(&mut stack.list, taken)?;
            stack.done.push(Done::Took(number, entry))?;
        }
        None => {
            stack.list.push(Entry { number, command })?;
            stack.done.push(Done::Entered(number))?;
        }
    }
    stack.undone.clear();
    stack.next = number.saturating_add(1);
    stack.longest = stack.longest.max(stack.list.len());
    Ok(number)
}

// Undoes the newest step: its number, if there is one.
fn undo(stack: &mut Stack) -> Result<Option<u64>, Fail> {
    let Some(step) = stack.done.pop() else {
        return Ok(None);
    };
    stack.steps_back = stack.steps_back.saturating_add(1);
    match step {
        Done::Entered(number) => {
            let entry = stack.list.pop().ok_or("no entry")?;
            stack.undone.push(Undone::Entry(entry))?;
            Ok(Some(number))
        }
        Done::Took(number, entry) => {
            stack.undone.push(Undone::Withdrawal(number, entry.number))?;
            let place = place_of(&stack.list, entry.number);
            stack.list.insert(place, entry)?;
            Ok(Some(number))
        }
    }
}

// Redoes the step that was undone last: its number, if there is one.
fn redo(stack: &mut Stack) -> Result<Option<u64>, Fail> {
    let Some(step) = stack.undone.pop() else {
        return Ok(None);
    };
    stack.steps_forth = stack.steps_forth.saturating_add(1);
    match step {
        Undone::Entry(entry) => {
            let number = entry.number;
            stack.list.push(entry)?;
            stack.done.push(Done::Entered(number))?;
            Ok(Some(number))
        }
        Undone::Withdrawal(number, taken) => {
            let entry = take_out(&mut stack.list, taken)?;
            stack.done.push(Done::Took(number, entry))?;
            Ok(Some(number))
        }
    }
}

// A number is the one that the plain stack has.
fn expect_number(found: Option<u64>, wanted: Option<u64>) -> Result<(), Fail> {
    if found != wanted {
        return Err(Fail::new(format_args!("number {found:?} for {wanted:?}")));
    }
    Ok(())
}

// The book has the plain stack's live list, whole and by number, and shows what the plain program says of it. That it is legal isn't asked
// at each step, since the plain program said so of each command that was taken.
fn examine(alloc: Global, tables: &Tables, stack: &Stack, orders: &[OrderKey]) -> Result<(), Fail> {
    if tables.entries(alloc)? != stack.list || live(alloc, tables, stack.next)? != stack.list {
        return Err(Fail::new("the live list isn't that of the plain stack"));
    }
    if stack.next > EVENTS_MAX {
        return Err(Fail::new("no room"));
    }
    compare_lines(alloc, tables, &stack.list, orders)
}

// Undoes up to three steps, and then redoes up to two. The book is examined after each.
fn go_back(
    alloc: Global,
    steps: &mut Steps<BoxedCommand>,
    stack: &mut Stack,
    draws: &mut Draws,
    orders: &[OrderKey],
) -> Result<(), Fail> {
    for _ in 0..draws.draw() & 3 {
        let wanted = undo(stack)?;
        expect_number(steps.undo(), wanted)?;
        examine(alloc, steps.state(), stack, orders)?;
    }
    for _ in 0..(draws.draw() & 1) + (draws.draw() & 1) {
        let wanted = redo(stack)?;
        expect_number(steps.redo()?, wanted)?;
        examine(alloc, steps.state(), stack, orders)?;
    }
    Ok(())
}

// What the steps answer to a command, which goes on the heap first, as at a desk: its number, or why it is refused.
fn answer(
    alloc: Global,
    steps: &mut Steps<BoxedCommand>,
    command: &Command,
) -> Result<Result<u64, Refused>, Fail> {
    if !steps.room() {
        return Err(Fail::new("no room"));
    }
    let boxed = BoxedCommand::copy_of(alloc, command)?;
    match steps.apply(boxed) {
        Ok(number) => Ok(Ok(number)),
        Err(StepFault::Refused(_, ApplyFault::Refused(refused))) => Ok(Err(refused)),
        Err(_) => Err(Fail::new("no memory")),
    }
}

// A command that is drawn: one in eight is a withdrawal.
fn drawn(alloc: Global, draws: &mut Draws, list: &[Entry]) -> Result<Command, Fail> {
    match draws.draw() & 7 {
        0 => Ok(draws.withdrawal(list)),
        1 => draws.any_bust(),
        _ => draws.command(alloc, list),
    }
}

// Sends a command that is drawn, which is taken or refused as the plain program says.
fn send(
    alloc: Global,
    steps: &mut Steps<BoxedCommand>,
    stack: &mut Stack,
    draws: &mut Draws,
    tally: &mut Tally,
) -> Result<(), Fail> {
    let command = drawn(alloc, draws, &stack.list)?;
    let refusal = accepts(alloc, &stack.list, &command)?;
    tally.count(&command, refusal);
    let wanted = match refusal {
        Some(refused) => Err(refused),
        None => Ok(take(stack, command.try_copy(alloc)?)?),
    };
    let found = answer(alloc, steps, &command)?;
    if found != wanted {
        return Err(Fail::new(format_args!("{found:?} for {wanted:?}")));
    }
    Ok(())
}

// Sends all commands, with steps undone and redone before every other one.
fn run(
    alloc: Global,
    steps: &mut Steps<BoxedCommand>,
    stack: &mut Stack,
    tally: &mut Tally,
) -> Result<(), Fail> {
    let orders = drawn_orders()?;
    let mut draws = Draws::new(2);
    for _ in 0..COMMANDS {
        if draws.draw() & 1 == 0 {
            go_back(alloc, steps, stack, &mut draws, &orders)?;
        }
        send(alloc, steps, stack, &mut draws, tally)?;
        examine(alloc, steps.state(), stack, &orders)?;
    }
    Ok(())
}

// The run was worth it: each kind of command was taken, each refusal came, the list grew long, and many steps were undone and redone.
fn expect_much(stack: &Stack, tally: &Tally) -> Result<(), Fail> {
    tally.expect_of_each_kind(10)?;
    tally.expect_each_refusal(12)?;
    if stack.longest < 15 || stack.steps_back < 1_000 || stack.steps_forth < 500 {
        return Err(Fail::new(format_args!(
            "at most {} entries, {} steps undone, {} redone",
            stack.longest, stack.steps_back, stack.steps_forth
        )));
    }
    Ok(())
}

#[test]
fn two_thousand_commands_with_steps_undone_and_redone(rt: HostRuntime) -> Result<(), Fail> {
    let mut tally = Tally::new();
    let mut stack = Stack {
        list: Vec::new(rt.alloc()),
        done: Vec::new(rt.alloc()),
        undone: Vec::new(rt.alloc()),
        next: 1,
        longest: 0,
        steps_back: 0,
        steps_forth: 0,
    };
    let mut steps = Steps::new(rt.alloc(), Tables::new(rt.alloc()));
    run(rt.alloc(), &mut steps, &mut stack, &mut tally)?;
    expect_much(&stack, &tally)
}
