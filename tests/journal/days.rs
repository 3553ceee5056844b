//! Days of twelve events over a file in memory: each call of one fails in turn, and a few of the images that a crash may
//! then leave are taken up, torn in the middle among them.
use crate::images::few_images;
use crate::runs::empty_file;
use blot_desk::{Desk, Event, Found, NoKeeper, Question, Seat, StepRow};
use blot_diary::{Diary, asked_record, read_kept};
use blot_journal::MemoryDevice;
use blot_recovery::{OPERATOR_SEATS, Recovered, open_day};
use blot_tag::{FrameText, Reader};
use blot_time::{Day, Moment};
use blot_types::{Command, Text64};
use std::alloc::Global;
use std::marker::Brand;
use std::sync::Wait;
use std::sync::ledger::{Blank, Ledger};
use std::test::Fail;

// An operator's lines, and in their places BRKA's executions.
const LINES: [Option<&str>; 12] = [
    None,
    None,
    Some("allocate\tBRKA\tAL1\tXYZ\tB\t20240105\t10.5\t1\tE1\tC\t100"),
    None,
    Some("undo\t4"),
    Some("redo"),
    None,
    Some("withdraw\t2"),
    Some("undo\t9"),
    None,
    Some("withdraw\t3"),
    None,
];

// More calls than a day makes.
const CALLS: u64 = 200;

fn failed<T, E: Drop>(found: Result<T, E>, what: &str) -> Result<T, Fail> {
    match found {
        Ok(value) => Ok(value),
        Err(_) => Err(Fail::new(format_args!("{what}"))),
    }
}

fn name(text: &[u8]) -> Result<Text64, Fail> {
    failed(Text64::read(text).ok_or(()), "no text")
}

fn ten() -> Result<Moment, Fail> {
    failed(Moment::read(b"20240105-10:00:00.000"), "no moment")
}

fn day() -> Result<Day, Fail> {
    failed(Day::read(b"20240105"), "no day")
}

// BRKA's execution of 100 XYZ under this number.
fn execution(alloc: Global, number: usize) -> Result<Vec<u8>, Fail> {
    let sequence = format!(in alloc; "{}", number + 1)?;
    let id = format!(in alloc; "E{number}")?;
    let mut text = failed(FrameText::new(alloc, b"8"), "no frame")?;
    let fields: [(u32, &[u8]); 17] = [
        (49, b"BRKA"),
        (56, b"MO"),
        (34, sequence.as_bytes()),
        (52, b"20240105-10:00:00.000"),
        (37, b"O1"),
        (17, id.as_bytes()),
        (150, b"F"),
        (39, b"1"),
        (1, b"A1"),
        (55, b"XYZ"),
        (54, b"1"),
        (38, b"3000"),
        (32, b"100"),
        (31, b"10.5"),
        (151, b"0"),
        (14, b"100"),
        (6, b"10.5"),
    ];
    for (tag, value) in fields {
        failed(text.put(tag, value), "no field")?;
    }
    failed(text.put(75, b"20240105"), "no field")?;
    Ok(text.finish()?)
}

// What is kept of the events, in their order.
fn records(alloc: Global) -> Result<Vec<Vec<u8>>, Fail> {
    let (own, operator) = (name(b"MO")?, name(b"operator")?);
    let mut records = Vec::new(alloc);
    let (mut executions, mut lines) = (0, 0);
    for line in LINES {
        let record = match line {
            None => {
                executions += 1;
                execution(alloc, executions)?
            }
            Some(line) => {
                lines += 1;
                let line = line.as_bytes();
                let made = asked_record(alloc, &own, &operator, lines, ten()?, line)?;
                failed(made.ok_or(()), "no record")?
            }
        };
        records.push(record)?;
    }
    Ok(records)
}

// The event that a record keeps.
fn event_of(alloc: Global, record: &[u8]) -> Result<Event, Fail> {
    let mut reader = Reader::new(alloc);
    reader.feed(record)?;
    let Some(frame) = reader.next()? else {
        return Err(Fail::new("no frame"));
    };
    let Some(kept) = read_kept(alloc, &frame)? else {
        return Err(Fail::new("nothing kept"));
    };
    match kept.into_noted() {
        Some(noted) => Ok(noted.event),
        None => Err(Fail::new("no event")),
    }
}

// The file as a day leaves it that goes on until a call fails, and how many of its events are durable; none of it where it isn't opened.
fn day_until<L: Ledger>(
    rt: &impl Wait,
    alloc: Global,
    blank: Blank,
    fails_in: Option<u64>,
) -> Result<(MemoryDevice, usize), Fail> {
    let device = MemoryDevice::new(alloc, &empty_file(alloc)?, fails_in)?;
    let (own, peers) = (name(b"MO")?, [name(b"BRKA")?]);
    let opened = open_day::<L, MemoryDevice>(
        alloc,
        blank,
        device,
        own,
        day()?,
        ten()?,
        &peers,
        Some(name(b"operator")?),
    );
    let (diary, recovered) = match opened {
        Ok(opened) => opened,
        Err((_, device)) => return Ok((device, 0)),
    };
    let Recovered {
        opening,
        peers: mut kept,
        mut operators,
        ..
    } = recovered;
    let desk = opening.open(diary);
    let Some(peer) = kept.pop() else {
        return Err(Fail::new("no peer"));
    };
    let Some(operator) = operators.named.pop() else {
        return Err(Fail::new("no operator"));
    };
    let (mut broker, mut operator, mut durable) = (peer.seat, operator.seat, 0);
    for (line, record) in LINES.iter().zip(records(alloc)?.iter()) {
        let (seat, maker): (&mut Seat<L>, Text64) = if line.is_some() {
            (&mut operator, name(b"operator")?)
        } else {
            (&mut broker, name(b"BRKA")?)
        };
        let event = event_of(alloc, record)?;
        let answer = desk.submit_with(rt, seat, &maker, event, record);
        if answer.is_err() || desk.sync(rt).is_err() {
            break;
        }
        durable += 1;
    }
    let (_, diary) = desk.close_kept();
    Ok((diary.into_device(), durable))
}

// Each execution is made by BRKA, and all else by the operator, as the entry of 3, which a withdrawal may have taken out.
fn expect_makers<L: Ledger>(rt: &impl Wait, desk: &Desk<L>) -> Result<(), Fail> {
    let (Found::Steps(rows), makers) = desk.look_by(rt, &Question::Steps(99))? else {
        return Err(Fail::new("no steps"));
    };
    if rows.as_slice().len() != makers.len() {
        return Err(Fail::new("as many makers as steps"));
    }
    for (row, maker) in rows.as_slice().iter().zip(makers.iter()) {
        let is_brokers = match row {
            StepRow::Entry(entry) => matches!(entry.command, Command::Trade(_)),
            StepRow::Withdraw(..) => false,
            StepRow::Withdrawn(number) => *number != 3,
        };
        if *maker != name(if is_brokers { b"BRKA" } else { b"operator" })? {
            return Err(Fail::new(format_args!("{row:?} by {maker:?}")));
        }
    }
    Ok(())
}

// Takes an image up: how many events it has, each of them the one at its place, and by its maker.
fn events_in<L: Ledger>(
    rt: &impl Wait,
    alloc: Global,
    blank: Blank,
    image: &[u8],
) -> Result<usize, Fail> {
    let device = MemoryDevice::new(alloc, image, None)?;
    let (own, peers) = (name(b"MO")?, [name(b"BRKA")?]);
    let opened = open_day::<L, MemoryDevice>(
        alloc,
        blank,
        device,
        own,
        day()?,
        ten()?,
        &peers,
        Some(name(b"operator")?),
    );
    let Ok((_, recovered)) = opened else {
        return Err(Fail::new("not taken up"));
    };
    let desk = recovered.opening.open(NoKeeper {});
    expect_makers(rt, &desk)?;
    let held = desk.close().held;
    for (recorded, record) in held.history().iter().zip(records(alloc)?.iter()) {
        if recorded.event != event_of(alloc, record)? {
            return Err(Fail::new("another event"));
        }
    }
    Ok(held.history().len())
}

// Seats for BRKA and for the operators.
fn seats() -> Blank {
    Blank::new(1 + u64::from(OPERATOR_SEATS))
}

// A day whose call of this number fails, and each image of what that leaves: whether there was such a call.
fn expect_call(rt: &impl Wait, alloc: Global, call: u64) -> Result<bool, Fail> {
    let (device, durable) = day_until::<Brand>(rt, alloc, seats(), Some(call))?;
    for image in few_images(alloc, &device)?.iter() {
        let found = events_in::<Brand>(rt, alloc, seats(), image)?;
        if found < durable || found > durable + 1 || found > LINES.len() {
            return Err(Fail::new(format_args!("{found} events of {durable} at call {call}")));
        }
    }
    Ok(durable < LINES.len())
}

#[test]
fn a_crash_at_each_call_of_a_day_leaves_what_was_told(rt: HostRuntime) -> Result<(), Fail> {
    for call in 0..CALLS {
        if !expect_call(&rt, rt.alloc(), call)? {
            return if call > 40 {
                Ok(())
            } else {
                Err(Fail::new("too few calls"))
            };
        }
    }
    Err(Fail::new("it never comes to its end"))
}
