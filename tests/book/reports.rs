//! Reports of a day from one thread and from several, which are the same.

use crate::keys::{exec, fill, order};
use crate::words::Step::{Allocates, Trades};
use crate::words::{Booked, Filled, Step, command};
use blot_desk::{Event, Held, Reply};
use blot_report::{day_lines, day_lines_parallel, report_text};
use blot_time::Day;
use blot_types::{Command, Sign, Trade};
use std::alloc::Global;
use std::test::Fail;
use std::thread::Threads;

// The average-price allocation.
const DAY: [Step; 3] = [
    Trades(b"E1", Filled::Bought(b"100", b"10")),
    Trades(b"E2", Filled::Bought(b"50", b"10.01")),
    Allocates(
        b"AL1",
        Booked {
            sign: Sign::Buy,
            execs: &[b"E1", b"E2"],
            block: b"150",
            lines: &[[b"A", b"100", b"10.0033"], [b"B", b"50", b"10.0033"]],
        },
    ),
];

// Its report.
const REPORT: &str = "\
report>20240105\n\
order>BRKA>O1>XYZ>B>150>150>1500.5\n\
position>*>XYZ>0>0.005\n\
position>A>XYZ>100>1000.33\n\
position>B>XYZ>50>500.165\n\
end>4\n";

// How many trades the large day has, each of an order of its own.
const TRADES: u64 = 3_000;

// A command is taken.
fn take(held: &mut Held, command: Command) -> Result<(), Fail> {
    match held.step(Event::Submit(command)) {
        Ok(Reply::Accepted(_)) => Ok(()),
        _ => Err(Fail::new("not taken")),
    }
}

// The report of the day from one thread, which is the same from several; `>` is a tab.
fn report<R: Threads + Sync>(rt: &R, alloc: Global, held: &Held) -> Result<String, Fail> {
    let day = Day::read(b"20240105")?;
    let snapshot = held.snapshot()?;
    let lines = day_lines(alloc, &snapshot, day)?;
    if day_lines_parallel(rt, alloc, &snapshot, day)? != lines {
        return Err(Fail::new("other lines from several threads"));
    }
    let mut text = String::new(alloc);
    for byte in report_text(alloc, &lines)?.iter() {
        let shown = if *byte == b'\t' { b'>' } else { *byte };
        text.push(char::from(shown))?;
    }
    Ok(text)
}

#[test]
fn the_average_price_report(rt: HostRuntime) -> Result<(), Fail> {
    let alloc = rt.alloc();
    let mut held = Held::new(alloc);
    for step in &DAY {
        take(&mut held, command(alloc, b"BRKA", step)?)?;
    }
    let text = report(&rt, alloc, &held)?;
    if text.as_str() != REPORT {
        return Err(Fail::new(format_args!("{text}")));
    }
    Ok(())
}

// A letter and four digits.
fn id(alloc: Global, letter: char, number: u64) -> Result<String, Fail> {
    Ok(format!(in alloc; "{letter}{number:04}")?)
}

// A trade of 1 of 300 at 1, under an ExecID and an OrderID of this number.
fn small_trade(alloc: Global, number: u64) -> Result<Command, Fail> {
    let exec_id = id(alloc, 'E', number)?;
    let order_id = id(alloc, 'O', number)?;
    let key = exec(b"BRKA", exec_id.as_bytes())?;
    let order = order(b"BRKA", order_id.as_bytes())?;
    let fill = fill(order, b"1", b"1", b"300")?;
    Ok(Command::Trade(Trade { key, fill }))
}

#[test]
fn three_thousand_orders(rt: HostRuntime) -> Result<(), Fail> {
    let alloc = rt.alloc();
    let mut held = Held::new(alloc);
    for number in 1..=TRADES {
        take(&mut held, small_trade(alloc, number)?)?;
    }
    let text = report(&rt, alloc, &held)?;
    let begins = text.starts_with("report>20240105\norder>BRKA>O0001>XYZ>B>1>299>1\n");
    let ends = text.ends_with("position>A1>XYZ>3000>3000\nend>3001\n");
    if !begins || !ends {
        return Err(Fail::new("another first or last line"));
    }
    Ok(())
}
