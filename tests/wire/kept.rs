//! A connection of an open day whose messages are kept: what is kept, in which order, and that nothing is written or read before all is
//! durable that was taken.

use crate::expect::text;
use crate::frames::stream;
use crate::streams::moments;
use blot_desk::{Event, KeepFault, Keeper, Opening};
use blot_gateway::{Ended, FrameKeeper, ListClock, MemoryWire, Reading, RecordHead, Wire, Writing};
use blot_lanes::{BrokerSeat, ListedPeer, Peers, serve_connection};
use blot_session::CloseReason;
use blot_sockets::Door;
use blot_tag::Frame;
use std::alloc::{AllocError as NoMemory, Global};
use std::marker::Brand;
use std::net::{Ipv4Addr, Net, SocketAddr, SocketAddrV4, TcpListener, TcpStream};
use std::os::fd::OwnedFd;
use std::sync::ledger::{Blank, Ledger};
use std::sync::{Mutex, Wait};
use std::test::Fail;
use std::time::Clock;

// A Logon, a Heartbeat, a trade, the Heartbeat again, and an allocation of the trade, which is acknowledged.
const STREAM: &str = "\
35=A|49=BRKA|56=MO|34=1|52=20240105-09:59:59|98=0|108=30|\n\
35=0|49=BRKA|56=MO|34=2|52=20240105-10:00:00|\n\
35=8|49=BRKA|56=MO|34=3|52=20240105-10:00:00|37=O1|17=E2|150=F|39=1|1=A1|55=XYZ|54=1|38=300|32=50|31=11|151=250|14=50|6=11|60=20240105-10:00:00|75=20240105|\n\
35=0|49=BRKA|56=MO|34=2|43=Y|52=20240105-10:00:00|122=20240105-10:00:00|\n\
35=J|49=BRKA|56=MO|34=4|52=20240105-10:00:00|70=AL1|71=0|54=1|55=XYZ|53=50|6=11|75=20240105|124=1|17=E2|78=2|79=A|80=30|366=11|79=B|80=20|366=11|";

// What is done, one after the other: `put`, a message that is kept as it is; `numbers`, those that are expected next and sent next; `event`,
// that of a message; `wrapped`, a message within a record; each record of one's own with its number. A sync comes only where something was taken.
const DONE: &str =
    "sync read put A numbers 1 2 2 put A sync write put 0 numbers 2 3 2 event 8 wrapped 3 0 event J put P sync write read numbers 4 5 3 ";

// What is done of the first three messages alone, and of the first two: what was taken is durable before the next read.
const TRADED: &str =
    "sync read put A numbers 1 2 2 put A sync write put 0 numbers 2 3 2 event 8 sync read numbers 3 4 2 ";

const HEARD: &str =
    "sync read put A numbers 1 2 2 put A sync write put 0 numbers 2 3 2 sync read numbers 3 3 2 ";

// The same where the second sync fails: the Logon isn't answered.
const BROKEN: &str = "sync read put A numbers 1 2 2 put A broken numbers 2 2 2 ";

// The same where no numbers can be kept: nothing is told any more, and the connection ends.
const LOST: &str = "sync read put A lost lost ";

// The same where the desk takes no command: the trade is kept within a record, and the session closes.
const DECLINED: &str =
    "sync read put A numbers 1 2 2 put A sync write put 0 numbers 2 3 2 wrapped 3 8 put 5 sync write numbers 4 3 3 ";

// What is done, by all who do something.
type Log = Mutex<Vec<u8>>;

fn note<R: Wait>(rt: &R, log: &Log, words: &[&[u8]]) {
    let mut log = log.lock(rt);
    for word in words {
        let _ = log.extend_from_slice(word);
        let _ = log.push(b' ');
    }
}

// The type of a message.
fn kind_of(text: &[u8]) -> &[u8] {
    for (place, window) in text.windows(4).enumerate() {
        if window == b"\x0135=".as_slice() {
            return &text[place + 4..place + 5];
        }
    }
    b"?"
}

// What goes wrong.
#[derive(Clone, Copy)]
enum Wrong {
    Nothing,
    // After so many syncs none succeeds.
    Broken(u32),
    // There is no memory for numbers.
    NoNumbers,
    // There is no memory for events.
    NoEvents,
}

// It keeps nothing but what it was asked.
#[derive(Drop)]
struct Noting<'a, R> {
    rt: &'a R,
    log: &'a Log,
    wrong: Wrong,
}

impl<R: Wait> Keeper for Noting<'_, R> {
    ghost IsKept = { ⊥ };

    ghost events = { λ _. [] };

    ghost found = { λ _. 0 };

    ghost durable = { λ _. 0 };

    ghost leaves = { λ _ _. ⊥ };

    ghost left = { λ _ _. ⊥ };

    ghost room = { λ _. 1 };

    ghost is_broken = { λ _. false };

    ghost spells = { λ _ _. Unit {0} };

    ghost spells_none = { λ _. Unit {0} };

    fn reserve(&mut self, _text: &[u8]) -> Result<(), KeepFault> {
        match self.wrong {
            Wrong::NoEvents => Err(KeepFault::NoMemory),
            _ => Ok(()),
        }
    }

    fn keep(&mut self, text: &[u8], _event: &Event) {
        note(self.rt, self.log, &[b"event", kind_of(text)]);
    }

    fn keep_other(&mut self, text: &[u8]) -> Result<(), KeepFault> {
        if matches!(self.wrong, Wrong::NoNumbers) && text.starts_with(b"numbers") {
            note(self.rt, self.log, &[b"lost"]);
            return Err(KeepFault::NoMemory);
        }
        if text.starts_with(b"8=") {
            note(self.rt, self.log, &[b"put", kind_of(text)]);
        } else {
            note(self.rt, self.log, &[text]);
        }
        Ok(())
    }

    fn sync(&mut self) -> Result<(), KeepFault> {
        if let Wrong::Broken(left) = self.wrong {
            if left == 0 {
                note(self.rt, self.log, &[b"broken"]);
                return Err(KeepFault::Broken);
            }
            self.wrong = Wrong::Broken(left - 1);
        }
        note(self.rt, self.log, &[b"sync"]);
        Ok(())
    }

    fn ever(&self) {}
}

impl<R: Wait> FrameKeeper for Noting<'_, R> {
    fn is_kept() -> bool {
        true
    }

    fn keeps_plain(_alloc: Global, _text: &[u8]) -> Result<bool, NoMemory> {
        Ok(true)
    }

    fn wrapped_record(
        alloc: Global,
        head: &RecordHead,
        frame: &Frame,
    ) -> Result<Option<Vec<u8>>, NoMemory> {
        let kind = kind_of(frame.text()).first().copied().unwrap_or(b'?') as char;
        Ok(Some(format!(in alloc; "wrapped {} {kind}", head.number)?.into_bytes()))
    }

    fn numbers_record(
        alloc: Global,
        head: &RecordHead,
        expected: u64,
        next: u64,
    ) -> Result<Option<Vec<u8>>, NoMemory> {
        Ok(Some(format!(in alloc; "numbers {} {expected} {next}", head.number)?.into_bytes()))
    }

    fn line_record(
        _alloc: Global,
        _head: &RecordHead,
        _line: &[u8],
        _event: &Event,
    ) -> Result<Option<Vec<u8>>, NoMemory> {
        Ok(None)
    }

    ghost numbers_after = { λ own peer text numbers. numbers };

    ghost spells_frames = { λ text command valid brings. tt };

    ghost counts_frames = { λ kept. absurd kept };
}

// A wire whose reads and writes are noted.
#[derive(Drop)]
struct Noted<'a, R> {
    rt: &'a R,
    log: &'a Log,
    wire: MemoryWire,
}

impl<R: Wait> Wire for Noted<'_, R> {
    ghost does = { λ _ _ _. Unit {0} };

    ghost failures = { λ noted. noted.wire.faults };

    fn read_some(&mut self, buffer: &mut [u8]) -> Reading {
        note(self.rt, self.log, &[b"read"]);
        self.wire.read_some(buffer)
    }

    fn write_some(&mut self, text: &[u8]) -> Writing {
        note(self.rt, self.log, &[b"write"]);
        self.wire.write_some(text)
    }

    fn faults(&self) -> u64 {
        self.wire.faults()
    }
}

// The first so many messages of the stream.
fn first(count: usize) -> &'static str {
    let mut left = count;
    for (place, byte) in STREAM.bytes().enumerate() {
        if byte == b'\n' {
            left -= 1;
        }
        if left == 0 {
            return &STREAM[..place];
        }
    }
    STREAM
}

// Serves what is sent over a desk where this goes wrong: how the connection ended, and what was done.
fn served<L: Ledger, T>(
    rt: &T,
    alloc: Global,
    blank: Blank,
    sent: &str,
    wrong: Wrong,
) -> Result<(Ended, Vec<u8>), Fail>
where
    T: Wait + Net + Clock + log::Log,
    OwnedFd: From<T::Listener>,
{
    let noted: Log = Mutex::new(Vec::new(alloc));
    let (opening, seats) = Opening::<L>::new(alloc, blank, 1)?;
    let desk = opening.open(Noting {
        rt,
        log: &noted,
        wrong,
    });
    let own = text(b"MO")?;
    let (peer, mut seats) = (text(b"BRKA")?, seats);
    let Some(seat) = seats.pop() else {
        return Err(Fail::new("no seat"));
    };
    let mut listed = Vec::new(alloc);
    listed.push(ListedPeer::new(BrokerSeat::new(peer, seat, 0), 1, 1))?;
    let Ok(peers) = Peers::new(alloc, own, listed) else {
        return Err(Fail::new("no peers"));
    };
    let listener = TcpListener::bind(rt, SocketAddrV4::new(Ipv4Addr::LOCALHOST, 0));
    let Ok(listener) = listener else {
        return Err(Fail::new("no listener"));
    };
    let door = Door::new(TcpStream::from(OwnedFd::from(listener)));
    let wire = Noted {
        rt,
        log: &noted,
        wire: MemoryWire::new(alloc, stream(alloc, sent)?),
    };
    let clock = ListClock::new(moments(alloc, "20240105-10:00:01.000")?);
    let address = SocketAddr::V4(SocketAddrV4::new(Ipv4Addr::LOCALHOST, 1));
    let ended = serve_connection(rt, alloc, &peers, &desk, &door, address, wire, clock);
    drop(desk);
    Ok((ended, noted.into_inner()))
}

#[test]
fn nothing_is_written_before_a_sync(rt: HostRuntime) -> Result<(), Fail> {
    for (count, wrong, ending, done) in [
        (5, Wrong::Nothing, Ended::End, DONE),
        (3, Wrong::Nothing, Ended::End, TRADED),
        (2, Wrong::Nothing, Ended::End, HEARD),
        (5, Wrong::Broken(1), Ended::WriteFault, BROKEN),
        (5, Wrong::NoNumbers, Ended::WriteFault, LOST),
        (
            5,
            Wrong::NoEvents,
            Ended::Closed(CloseReason::NotTaken),
            DECLINED,
        ),
    ] {
        let (ended, was_done) = served::<Brand, _>(
            &rt,
            rt.alloc(),
            Blank::new(1),
            first(count),
            wrong,
        )?;
        if ended != ending || was_done.as_slice() != done.as_bytes() {
            return Err(Fail::new(format_args!("{ended:?}: {:?}", str::from_utf8(&was_done))));
        }
    }
    Ok(())
}
