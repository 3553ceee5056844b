//! What the callers of the byte side answer.

use crate::expect::expect;
use blot_decimal::DecimalFault;
use blot_fields::first_value;
use blot_tag::{Frame, Reader};
use blot_time::TimeFault;
use callers::{day_of, has_frame, logout, number_of, worth};
use std::alloc::Global;
use std::test::Fail;

// The heartbeat of a peer, made by hand.
const HEARTBEAT: &[u8] =
    b"8=FIX.4.4\x019=45\x0135=0\x0149=BRKA\x0156=MO\x0134=2\x0152=20240105-10:00:00\x0110=179\x01";

#[test]
fn callers_of_decimals_and_times(rt: HostRuntime) -> Result<(), Fail> {
    let value = worth(b"80", b"10.25")?;
    let exact = value.units() == 82_000_000_000_000_000;
    expect(&rt, "80 at 10.25", exact);
    let fine = worth(b"80", b"10.000000001").err() == Some(DecimalFault::TooFine);
    expect(&rt, "a price that is too fine", fine);
    let day = day_of(b"20240105-23:59:60")?;
    expect(&rt, "the day of a leap second", day == *b"20240105");
    let none = day_of(b"20240230-10:00:00").err() == Some(TimeFault::NoSuchDate);
    expect(&rt, "no such day", none);
    Ok(())
}

// The sequence number of a frame, none where its message has a fault.
fn number_found(alloc: Global, frame: &Frame) -> Option<u64> {
    match number_of(alloc, frame) {
        Ok(number) => Some(number),
        Err(_) => None,
    }
}

// A Logout, garbage, and the heartbeat that was made by hand.
fn logout_and_heartbeat(alloc: Global) -> Result<Vec<u8>, Fail> {
    let mut stream = logout(alloc, b"done")?;
    stream.extend_from_slice(b"garbage")?;
    stream.extend_from_slice(HEARTBEAT)?;
    Ok(stream)
}

#[test]
fn callers_of_frames_and_messages(rt: HostRuntime) -> Result<(), Fail> {
    let alloc = rt.alloc();
    let stream = logout_and_heartbeat(alloc)?;
    expect(&rt, "a stream with frames", has_frame(alloc, &stream)?);
    expect(&rt, "a stream of garbage", !has_frame(alloc, b"garbage")?);
    let mut reader = Reader::new(alloc);
    reader.feed(&stream)?;
    let first = reader.next()?.ok_or("no frame")?;
    let reason = first_value(&first, 58) == Some(b"done");
    expect(&rt, "the reason of the logout", reason);
    let refused = number_found(alloc, &first).is_none();
    expect(&rt, "a message without a header", refused);
    let second = reader.next()?.ok_or("no second frame")?;
    let number = number_found(alloc, &second) == Some(2);
    expect(&rt, "the number of the heartbeat", number);
    let none = first_value(&second, 58).is_none();
    expect(&rt, "no text in the heartbeat", none);
    Ok(())
}
