//! The moments of a system's clock that can't always be read.

use blot_gateway::Clock;
use blotter::SystemClock;
use std::io::{self, Error, ErrorKind};
use std::sync::atomic::{AtomicU64, Ordering};
use std::test::Fail;
use std::time::{self, Duration};

// What a system's clock shows, and the moment that is told then.
struct Reading {
    name: &'static str,
    // Seconds and milliseconds since 1970, or an error.
    shown: Result<(u64, u64), ErrorKind>,
    told: &'static [u8; 21],
}

// One reading after another.
const READINGS: [Reading; 9] = [
    Reading {
        name: "no clock",
        shown: Err(ErrorKind::PermissionDenied),
        told: b"19700101-00:00:00.000",
    },
    Reading {
        name: "a time before 1970, which the system answers so",
        shown: Err(ErrorKind::InvalidData),
        told: b"19700101-00:00:00.000",
    },
    Reading {
        name: "a moment",
        shown: Ok((1_704_448_800, 250)),
        told: b"20240105-10:00:00.250",
    },
    Reading {
        name: "no clock again",
        shown: Err(ErrorKind::PermissionDenied),
        told: b"20240105-10:00:00.250",
    },
    Reading {
        name: "a clock that was set back, by a millisecond",
        shown: Ok((1_704_448_800, 249)),
        told: b"20240105-10:00:00.249",
    },
    Reading {
        name: "a clock that was set back, by an hour",
        shown: Ok((1_704_445_200, 250)),
        told: b"20240105-09:00:00.250",
    },
    Reading {
        name: "the year 10000",
        shown: Ok((253_402_300_800, 0)),
        told: b"20240105-09:00:00.250",
    },
    Reading {
        name: "more than 2^63 milliseconds",
        shown: Ok((1 << 62, 0)),
        told: b"20240105-09:00:00.250",
    },
    Reading {
        name: "the last moment",
        shown: Ok((253_402_300_799, 999)),
        told: b"99991231-23:59:59.999",
    },
];

// A system whose clock shows these readings, one a call.
#[derive(Drop)]
struct Shown<'a> {
    readings: &'a [Reading],
    calls: AtomicU64,
}

impl time::Clock for Shown<'_> {
    fn monotonic(&self) -> io::Result<Duration> {
        Err(Error::from(ErrorKind::Unsupported))
    }

    fn since_1970(&self) -> io::Result<Duration> {
        let call = self.calls.fetch_add(1, Ordering::SeqCst);
        let shown = match self.readings.get(call as usize) {
            Some(reading) => reading.shown,
            None => Err(ErrorKind::Unsupported),
        };
        match shown {
            Ok((seconds, millis)) => {
                Ok(Duration::from_secs(seconds).saturating_add(Duration::from_millis(millis)))
            }
            Err(kind) => Err(Error::from(kind)),
        }
    }
}

#[test]
fn a_clock_that_cannot_always_be_read(rt: HostRuntime) -> Result<(), Fail> {
    let system = Shown {
        readings: &READINGS,
        calls: AtomicU64::new(0),
    };
    let mut clock = SystemClock::new(&system);
    for reading in &READINGS {
        assert_eq!(rt; &clock.now().write(), reading.told, "{}", reading.name);
    }
    Ok(())
}
