//! The text of a day's journal, read frame by frame: what each brings, and the numbers of a peer after it.

use crate::expect::{expect, text};
use crate::frames::{frame, stream};
use blot_desk::Event;
use blot_diary::{
    Kept, Noted, Party, SequenceNumbers, asked_record, beginning_record, is_plain, numbers_record,
    read_kept, wrapped_record,
};
use blot_tag::Reader;
use blot_time::{Day, Moment};
use blot_types::Command;
use std::alloc::Global;
use std::test::Fail;

// The body of a frame, what it brings, and the numbers of BRKA after it: the expected one and the next.
const ROWS: &[(&str, &str, u64, u64)] = &[
    (
        "35=UD|49=MO|56=MO|34=1|52=20240105-10:00:00|75=20240105|",
        "none",
        1,
        1,
    ),
    (
        "35=A|49=BRKA|56=MO|34=1|52=20240105-10:00:00|98=0|108=30|",
        "none",
        1,
        1,
    ),
    (
        "35=A|49=MO|56=BRKA|34=1|52=20240105-10:00:00|98=0|108=30|",
        "none",
        1,
        2,
    ),
    (
        "35=UN|49=MO|56=BRKA|34=1|52=20240105-10:00:00|789=2|36=2|",
        "none",
        2,
        2,
    ),
    (
        "35=8|49=BRKA|56=MO|34=2|52=20240105-10:00:00|37=O1|17=E1|150=F|39=1|55=XYZ|54=1|38=300|32=100|31=10.5|14=100|151=200|6=10.5|",
        "trade",
        3,
        2,
    ),
    (
        "35=UR|49=MO|56=BRKA|34=2|52=20240105-10:00:00|95=4|96=8=E2|",
        "none",
        3,
        2,
    ),
    (
        "35=UL|49=MO|56=MO|50=desk|34=1|52=20240105-10:00:00|58=allocate\tBRKA\tAL1\tXYZ\tB\t20240105\t10.5\t1\tE1\tA\t100|",
        "allocate",
        3,
        2,
    ),
    (
        "35=UL|49=MO|56=MO|50=desk|34=2|52=20240105-10:00:00|58=order\tBRKA\tO1|",
        "none",
        3,
        2,
    ),
    (
        "35=UL|49=MO|56=MO|50=desk|34=3|52=20240105-10:00:00|58=undo\t2|",
        "undo",
        3,
        2,
    ),
    (
        "35=8|49=BRKA|56=MO|34=3|52=20240105-10:00:00|17=E3|19=E1|150=H|",
        "bust",
        4,
        2,
    ),
    (
        "35=P|49=MO|56=BRKA|34=2|52=20240105-10:00:00|70=AL2|87=0|",
        "none",
        4,
        3,
    ),
    (
        "35=P|49=MO|56=BRKA|34=1|43=Y|52=20240105-10:00:00|70=AL2|87=0|",
        "none",
        4,
        3,
    ),
    (
        "35=UN|49=MO|56=BRKB|34=1|52=20240105-10:00:00|789=9|36=9|",
        "none",
        4,
        3,
    ),
];

// What the frame of a body keeps.
fn kept_of(alloc: Global, body: &str) -> Result<Option<Kept>, Fail> {
    let mut reader = Reader::new(alloc);
    reader.feed(frame(alloc, body)?.as_slice())?;
    let frame = reader.next()?.ok_or("no frame")?;
    Ok(read_kept(alloc, &frame)?)
}

// The moment of all records here.
fn ten() -> Result<Moment, Fail> {
    Ok(Moment::read(b"20240105-10:00:00")?)
}

// Whether a record is this text, with `|` for SOH.
fn is_text(alloc: Global, record: &[u8], text: &str) -> Result<bool, Fail> {
    Ok(record == stream(alloc, text)?.as_slice())
}

// What an event is, in a word.
fn word_of(noted: &Option<Noted>) -> &'static str {
    let Some(noted) = noted else {
        return "none";
    };
    match (&noted.party, &noted.event) {
        (Party::Peer(_), Event::Submit(Command::Trade(_))) => "trade",
        (Party::Peer(_), Event::Submit(Command::Bust(_))) => "bust",
        (Party::Operator(_), Event::Submit(Command::AllocNew(_))) => "allocate",
        (Party::Operator(_), Event::Undo { .. }) => "undo",
        _ => "another",
    }
}

#[test]
fn a_journal_frame_by_frame(rt: HostRuntime) -> Result<(), Fail> {
    let alloc = rt.alloc();
    let (own, peer) = (text(b"MO")?, text(b"BRKA")?);
    let mut numbers = SequenceNumbers::first();
    for (body, word, expected, next) in ROWS {
        let kept = kept_of(alloc, body)?.ok_or("nothing is kept")?;
        numbers = numbers.after(&own, &peer, &kept);
        let brings = kept.into_noted();
        expect(&rt, body, word_of(&brings) == *word);
        let counts = numbers.expected == *expected && numbers.next == *next;
        expect(&rt, body, counts);
    }
    Ok(())
}

#[test]
fn a_journal_begins_and_a_fault_keeps_nothing(rt: HostRuntime) -> Result<(), Fail> {
    let alloc = rt.alloc();
    let kept = kept_of(alloc, ROWS[0].0)?.ok_or("nothing is kept")?;
    let beginning = kept.beginning().ok_or("no beginning")?;
    let day = Day::read(b"20240105")?;
    let own = text(b"MO")?;
    expect(
        &rt,
        "its own and its day",
        beginning.own == own && beginning.day == day,
    );
    let fault = kept_of(
        alloc,
        "35=8|49=BRKA|56=MO|34=2|52=20240105-10:00:00|17=E1|150=F|",
    )?;
    expect(&rt, "a trade without an order", fault.is_none());
    Ok(())
}

#[test]
fn writes_the_beginning_of_a_journal(rt: HostRuntime) -> Result<(), Fail> {
    let record = beginning_record(rt.alloc(), &text(b"MO")?, Day::read(b"20240105")?, ten()?)?;
    let text =
        "!8=FIX.4.4|9=60|35=UD|49=MO|56=MO|34=1|52=20240105-10:00:00.000|75=20240105|10=138|";
    expect(&rt, "35=UD", is_text(rt.alloc(), &record, text)?);
    Ok(())
}

#[test]
fn writes_the_numbers_of_a_peer(rt: HostRuntime) -> Result<(), Fail> {
    let numbers = SequenceNumbers {
        expected: 2,
        next: 1_000_000_000,
    };
    let (own, peer) = (text(b"MO")?, text(b"BRKA")?);
    let record = numbers_record(rt.alloc(), &own, &peer, 999_999_999, ten()?, numbers)?;
    let text =
        "!8=FIX.4.4|9=78|35=UN|49=MO|56=BRKA|34=999999999|52=20240105-10:00:00.000|789=2|36=1000000000|10=089|";
    expect(&rt, "35=UN", is_text(rt.alloc(), &record, text)?);
    Ok(())
}

#[test]
fn writes_an_operators_line_that_fits(rt: HostRuntime) -> Result<(), Fail> {
    let alloc = rt.alloc();
    let (own, desk) = (text(b"MO")?, text(b"desk")?);
    let record = asked_record(alloc, &own, &desk, 2, ten()?, b"undo\t2")?.ok_or("none")?;
    let text =
        "!8=FIX.4.4|9=66|35=UL|49=MO|56=MO|50=desk|34=2|52=20240105-10:00:00.000|58=undo\t2|10=071|";
    expect(&rt, "35=UL", is_text(rt.alloc(), &record, text)?);
    let soh = asked_record(alloc, &own, &desk, 2, ten()?, b"undo\x012")?;
    expect(&rt, "an SOH in a line", soh.is_none());
    // A body has 65,536 bytes, and 60 of them are around the line.
    let line = vec![in alloc; b'a'; 65_477]?;
    let longest = asked_record(alloc, &own, &desk, 2, ten()?, &line[1..])?;
    expect(&rt, "the longest line", longest.is_some());
    let longer = asked_record(alloc, &own, &desk, 2, ten()?, &line)?;
    expect(&rt, "a line that is longer", longer.is_none());
    Ok(())
}

#[test]
fn wraps_a_message_that_fits(rt: HostRuntime) -> Result<(), Fail> {
    let alloc = rt.alloc();
    let (own, peer) = (text(b"MO")?, text(b"BRKA")?);
    let logon =
        "!8=FIX.4.4|9=61|35=A|49=BRKA|56=MO|34=1|52=20240105-10:00:00.000|98=0|108=30|10=152|";
    let mut reader = Reader::new(alloc);
    reader.feed(&stream(alloc, logon)?)?;
    let early = reader.next()?.ok_or("no frame")?;
    let record = wrapped_record(alloc, &own, &peer, 7, ten()?, &early)?.ok_or("none")?;
    let text =
        "!8=FIX.4.4|9=143|35=UR|49=MO|56=BRKA|34=7|52=20240105-10:00:00.000|95=83|96=8=FIX.4.4|9=61|35=A|49=BRKA|56=MO|34=1|52=20240105-10:00:00.000|98=0|108=30|10=152||10=175|";
    expect(&rt, "35=UR", is_text(rt.alloc(), &record, text)?);
    let long = format!(in alloc; "35=B|58={:a>65500}|", "")?;
    let mut reader = Reader::new(alloc);
    reader.feed(&frame(alloc, &long)?)?;
    let long = reader.next()?.ok_or("no frame")?;
    let none = wrapped_record(alloc, &own, &peer, 7, ten()?, &long)?;
    expect(&rt, "a message that doesn't fit", none.is_none());
    Ok(())
}

#[test]
fn is_plain_where_one_frame_keeps_its_message_alone(rt: HostRuntime) -> Result<(), Fail> {
    let alloc = rt.alloc();
    for (body, word, _, _) in ROWS {
        let text = frame(alloc, body)?;
        let is_message = *word == "none" && !body.starts_with("35=U");
        expect(&rt, body, is_plain(alloc, &text)? == is_message);
    }
    let logon = frame(alloc, ROWS[1].0)?;
    expect(&rt, "a part of one", !is_plain(alloc, &logon[1..])?);
    let two = stream(
        alloc,
        "35=0|49=BRKA|56=MO|34=2|52=20240105-10:00:00|\n35=0|49=BRKA|56=MO|34=3|52=20240105-10:00:00|",
    )?;
    expect(&rt, "two of them", !is_plain(alloc, &two)?);
    expect(&rt, "none", !is_plain(alloc, b"")?);
    let faulty = frame(alloc, "35=A|49=BRKA|56=MO|34=2|52=20240105-10:00:00|98=0|")?;
    expect(&rt, "one at fault", !is_plain(alloc, &faulty)?);
    Ok(())
}
