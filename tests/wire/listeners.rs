//! A day over a listener whose accepts go as a list says.

use crate::calls::spelled;
use crate::capture_rows::{REPORT, TRADE};
use crate::dialogues::captured;
use crate::expect::text;
use blot_slots::Slots;
use blot_time::Day;
use blotter::{Door, ReplayFault, Rounds, ServeFault, serve_day};
use log::Log;
use std::alloc::Global;
use std::io::{self, Error, ErrorKind, Read, Write};
use std::marker::Brand;
use std::net::{Ipv4Addr, OpenListener, OpenStream, SocketAddr, SocketAddrV4};
use std::sync::Wait;
use std::sync::atomic::{AtomicU64, Ordering};
use std::sync::ledger::{Blank, Ledger};
use std::test::Fail;
use std::thread::Threads;
use std::time::{Clock, Duration};

// What an accept comes to.
#[derive(Clone, Copy)]
enum Arrival {
    Fails(ErrorKind),
    // A connection of which no setting is taken.
    Unset,
    Comes,
}

// A listener whose accepts go as a list says, and fail after that; each connection gives the same bytes.
#[derive(Drop)]
struct Listener<'a> {
    arrivals: &'a [Arrival],
    bytes: &'a [u8],
    accepts: AtomicU64,
}

// A connection that gives its bytes, and takes all that is written.
#[derive(Drop)]
struct Peer<'a> {
    is_set_up: bool,
    rest: &'a [u8],
}

impl<'a> OpenListener for Listener<'a> {
    type Stream = Peer<'a>;

    fn accept(&self) -> io::Result<(Peer<'a>, SocketAddr)> {
        let place = self.accepts.fetch_add(1, Ordering::SeqCst);
        let is_set_up = match self.arrivals.get(place as usize) {
            Some(Arrival::Comes) => true,
            Some(Arrival::Unset) => false,
            Some(Arrival::Fails(kind)) => return Err(Error::from(*kind)),
            None => return Err(Error::from(ErrorKind::Unsupported)),
        };
        let peer = Peer {
            is_set_up,
            rest: self.bytes,
        };
        Ok((
            peer,
            SocketAddr::from(SocketAddrV4::new(Ipv4Addr::LOCALHOST, 40_000)),
        ))
    }
}

impl Read for Peer<'_> {
    fn read(&mut self, buffer: &mut [u8]) -> io::Result<usize> {
        let count = buffer.len().min(self.rest.len());
        let (piece, rest) = self.rest.split_at(count);
        buffer[..count].copy_from_slice(piece);
        self.rest = rest;
        Ok(count)
    }
}

impl Write for Peer<'_> {
    fn write(&mut self, text: &[u8]) -> io::Result<usize> {
        Ok(text.len())
    }

    fn flush(&mut self) -> io::Result<()> {
        Ok(())
    }
}

impl Peer<'_> {
    // Whether a setting is taken.
    fn set(&self) -> io::Result<()> {
        if self.is_set_up {
            return Ok(());
        }
        Err(Error::from(ErrorKind::InvalidInput))
    }
}

impl OpenStream for Peer<'_> {
    fn set_read_timeout(&self, _: Option<Duration>) -> io::Result<()> {
        self.set()
    }

    fn set_write_timeout(&self, _: Option<Duration>) -> io::Result<()> {
        self.set()
    }

    fn set_nodelay(&self, _: bool) -> io::Result<()> {
        self.set()
    }
}

// An operator who asks for a position that isn't there. Then the lines end, or can't be read.
#[derive(Drop)]
struct Operator {
    rest: &'static [u8],
    is_broken: bool,
}

impl Operator {
    // An operator from whom nothing was read yet.
    fn new(is_broken: bool) -> Operator {
        Operator {
            rest: b"position\tX\tY\n",
            is_broken,
        }
    }
}

impl Read for Operator {
    fn read(&mut self, buffer: &mut [u8]) -> io::Result<usize> {
        if self.rest.is_empty() && self.is_broken {
            return Err(Error::from(ErrorKind::BrokenPipe));
        }
        let count = buffer.len().min(self.rest.len());
        let (piece, rest) = self.rest.split_at(count);
        buffer[..count].copy_from_slice(piece);
        self.rest = rest;
        Ok(count)
    }
}

// A day of one round of one connection: what is answered, and what the operator is told.
fn served<L: Ledger + Send + Sync, R: Threads + Wait + Clock + Log + Sync>(
    rt: &R,
    alloc: Global,
    blank: Blank,
    listener: &Listener<'_>,
    operator: Operator,
) -> Result<(Result<(), ServeFault>, Vec<u8>), Fail> {
    let rounds = Rounds {
        rounds: 1,
        sessions: 1,
    };
    let slots = Slots::new(alloc, text(b"MO")?, &[text(b"BRKA")?])?;
    let day = Day::read(b"20240105")?;
    let mut operator = operator;
    let mut told = Vec::new(alloc);
    let door = Door::new(Peer {
        is_set_up: true,
        rest: &[],
    });
    let ended = serve_day::<L, _, _, _, _, _>(
        rt,
        alloc,
        blank,
        listener,
        &door,
        rounds,
        &slots,
        day,
        &mut operator,
        &mut told,
    );
    Ok((ended, told))
}

// What the operator is told after a question for a position that isn't there is this report.
fn expect_told(alloc: Global, told: &[u8], report: &str) -> Result<(), Fail> {
    let wanted = spelled(alloc, report)?;
    if told.strip_prefix(b"none\n") != Some(wanted.as_slice()) {
        return Err(Fail::new("other text"));
    }
    Ok(())
}

// A day whose connections come so, each with these bytes: it ends so, and the operator is told this report; so many accepts were made.
fn serve_arrivals<L: Ledger + Send + Sync, R: Threads + Wait + Clock + Log + Sync>(
    rt: &R,
    alloc: Global,
    blank: Blank,
    arrivals: &[Arrival],
    bytes: &[u8],
    is_broken: bool,
    wanted: (Result<(), ServeFault>, &str, u64),
) -> Result<(), Fail> {
    let listener = Listener {
        arrivals,
        bytes,
        accepts: AtomicU64::new(0),
    };
    let (ended, report, accepts) = wanted;
    let (found, told) = served::<L, R>(rt, alloc, blank, &listener, Operator::new(is_broken))?;
    if found != ended || listener.accepts.load(Ordering::SeqCst) != accepts {
        return Err(Fail::new(format_args!("{found:?}")));
    }
    expect_told(alloc, &told, report)
}

#[test]
fn connections_that_are_passed_over(rt: HostRuntime) -> Result<(), Fail> {
    let bytes = captured(rt.alloc(), TRADE)?;
    let arrivals = [
        Arrival::Fails(ErrorKind::Interrupted),
        Arrival::Fails(ErrorKind::ConnectionAborted),
        Arrival::Unset,
        Arrival::Comes,
    ];
    let wanted = (Ok(()), REPORT, 4);
    serve_arrivals::<Brand, _>(
        &rt,
        rt.alloc(),
        Blank::new(2),
        &arrivals,
        &bytes,
        false,
        wanted,
    )
}

#[test]
fn lines_that_stop_before_the_report(rt: HostRuntime) -> Result<(), Fail> {
    let bytes = captured(rt.alloc(), TRADE)?;
    let stopped = ServeFault::Lines(ReplayFault::Read);
    let wanted = (Err(stopped), REPORT, 1);
    serve_arrivals::<Brand, _>(
        &rt,
        rt.alloc(),
        Blank::new(2),
        &[Arrival::Comes],
        &bytes,
        true,
        wanted,
    )
}

#[test]
fn no_connection_can_be_accepted(rt: HostRuntime) -> Result<(), Fail> {
    let arrivals = [Arrival::Fails(ErrorKind::InvalidInput)];
    let wanted = (Err(ServeFault::Connection), "report>20240105/end>0/", 1);
    serve_arrivals::<Brand, _>(
        &rt,
        rt.alloc(),
        Blank::new(2),
        &arrivals,
        b"",
        false,
        wanted,
    )
}
