//! Connections over streams whose calls go as lists say.

use blot_gateway::{Reading, Wire, Writing};
use blotter::Socket;
use std::cell::Cell;
use std::io::{self, Error, ErrorKind, Read, Write};
use std::net::{OpenStream, Shutdown};
use std::test::Fail;
use std::time::{Duration, Instant};

// What a connection sets at its stream.
#[derive(Clone, Copy, Debug, PartialEq, Eq)]
enum Setting {
    ReadTimeout,
    WriteTimeout,
    NoDelay,
    Shutdown,
}

// What is set at a stream, how many reads were made, and what the system refuses.
#[derive(Drop)]
struct Settings {
    read_timeout: Cell<Option<Duration>>,
    write_timeout: Cell<Option<Duration>>,
    no_delay: Cell<bool>,
    shutdown: Cell<Option<Shutdown>>,
    reads: Cell<usize>,
    refused: Cell<Option<Setting>>,
}

impl Settings {
    // Nothing is set yet.
    fn new(refused: Option<Setting>) -> Settings {
        Settings {
            read_timeout: Cell::new(None),
            write_timeout: Cell::new(None),
            no_delay: Cell::new(false),
            shutdown: Cell::new(None),
            reads: Cell::new(0),
            refused: Cell::new(refused),
        }
    }

    // Whether the system takes a setting.
    fn admit(&self, setting: Setting) -> io::Result<()> {
        if self.refused.get() == Some(setting) {
            return Err(Error::from(ErrorKind::PermissionDenied));
        }
        Ok(())
    }
}

// What a read of a stream gives, or how it fails.
type Given = Result<&'static [u8], ErrorKind>;

// How many bytes a write to a stream takes, or how it fails.
type Taken = Result<usize, ErrorKind>;

// A stream that answers its reads and its writes as the lists say, and after them with nothing.
#[derive(Drop)]
struct Listed<'a> {
    settings: &'a Settings,
    reads: &'a [Given],
    writes: &'a [Taken],
    // How many writes were made.
    written: usize,
}

impl<'a> Listed<'a> {
    // A stream of which no call was made.
    fn new(settings: &'a Settings, reads: &'a [Given], writes: &'a [Taken]) -> Listed<'a> {
        Listed {
            settings,
            reads,
            writes,
            written: 0,
        }
    }
}

impl Read for Listed<'_> {
    fn read(&mut self, buffer: &mut [u8]) -> io::Result<usize> {
        let place = self.settings.reads.get();
        self.settings.reads.set(place.saturating_add(1));
        match self.reads.get(place) {
            None => Ok(0),
            Some(Ok(bytes)) => {
                let count = bytes.len().min(buffer.len());
                buffer[..count].copy_from_slice(&bytes[..count]);
                Ok(count)
            }
            Some(Err(kind)) => Err(Error::from(*kind)),
        }
    }
}

impl Write for Listed<'_> {
    fn write(&mut self, text: &[u8]) -> io::Result<usize> {
        let place = self.written;
        self.written = place.saturating_add(1);
        match self.writes.get(place) {
            None => Ok(0),
            Some(Ok(count)) => Ok((*count).min(text.len())),
            Some(Err(kind)) => Err(Error::from(*kind)),
        }
    }

    fn flush(&mut self) -> io::Result<()> {
        Ok(())
    }
}

impl OpenStream for Listed<'_> {
    fn set_read_timeout(&self, wait: Option<Duration>) -> io::Result<()> {
        self.settings.admit(Setting::ReadTimeout)?;
        self.settings.read_timeout.set(wait);
        Ok(())
    }

    fn set_write_timeout(&self, wait: Option<Duration>) -> io::Result<()> {
        self.settings.admit(Setting::WriteTimeout)?;
        self.settings.write_timeout.set(wait);
        Ok(())
    }

    fn set_nodelay(&self, no_delay: bool) -> io::Result<()> {
        self.settings.admit(Setting::NoDelay)?;
        self.settings.no_delay.set(no_delay);
        Ok(())
    }

    fn shutdown(&self, how: Shutdown) -> io::Result<()> {
        self.settings.admit(Setting::Shutdown)?;
        self.settings.shutdown.set(Some(how));
        Ok(())
    }
}

// A read of a connection comes to this, and so many calls failed then.
fn expect_read(
    socket: &mut Socket<'_, HostRuntime, Listed<'_>>,
    buffer: &mut [u8],
    wanted: Reading,
    faults: u64,
) -> Result<(), Fail> {
    if buffer.is_empty() {
        return Err(Fail::new("no room"));
    }
    let reading = socket.read_some(buffer);
    let counted = socket.faults();
    if reading != wanted || counted != faults {
        return Err(Fail::new(format_args!("{reading:?}, {counted} faults")));
    }
    Ok(())
}

// A write to a connection comes to this, and so many calls failed then.
fn expect_write(
    socket: &mut Socket<'_, HostRuntime, Listed<'_>>,
    wanted: Writing,
    faults: u64,
) -> Result<(), Fail> {
    let writing = socket.write_some(b"8=FIX");
    let counted = socket.faults();
    if writing != wanted || counted != faults {
        return Err(Fail::new(format_args!("{writing:?}, {counted} faults")));
    }
    Ok(())
}

#[test]
fn reads_of_a_socket(rt: HostRuntime) -> Result<(), Fail> {
    let settings = Settings::new(None);
    let reads: [Given; 5] = [
        Err(ErrorKind::Interrupted),
        Err(ErrorKind::WouldBlock),
        Ok(b"8="),
        Err(ErrorKind::ConnectionReset),
        Ok(b""),
    ];
    let mut socket = Socket::new(&rt, Listed::new(&settings, &reads, &[]))?;
    let mut buffer = [0; 8];
    expect_read(&mut socket, &mut buffer, Reading::Quiet, 0)?;
    expect_read(&mut socket, &mut buffer, Reading::Quiet, 0)?;
    expect_read(&mut socket, &mut buffer, Reading::Got(2), 0)?;
    assert_eq!(rt; &buffer[..2], b"8=".as_slice());
    expect_read(&mut socket, &mut buffer, Reading::Fault, 1)?;
    expect_read(&mut socket, &mut buffer, Reading::End, 1)
}

#[test]
fn writes_to_a_socket(rt: HostRuntime) -> Result<(), Fail> {
    let settings = Settings::new(None);
    let writes: [Taken; 4] = [
        Err(ErrorKind::Interrupted),
        Ok(3),
        Ok(0),
        Err(ErrorKind::BrokenPipe),
    ];
    let mut socket = Socket::new(&rt, Listed::new(&settings, &[], &writes))?;
    expect_write(&mut socket, Writing::Wrote(3), 0)?;
    expect_write(&mut socket, Writing::Fault, 1)?;
    expect_write(&mut socket, Writing::Fault, 2)
}

// Whether a stream of no bytes is set up, or the system's error.
fn set_up(rt: &HostRuntime, settings: &Settings) -> Result<(), ErrorKind> {
    match Socket::new(rt, Listed::new(settings, &[], &[])) {
        Ok(_) => Ok(()),
        Err(error) => Err(error.kind()),
    }
}

#[test]
fn a_socket_sets_up_its_stream(rt: HostRuntime) -> Result<(), Fail> {
    let settings = Settings::new(None);
    let socket = Socket::new(&rt, Listed::new(&settings, &[], &[]))?;
    assert_eq!(rt; settings.read_timeout.get(), Some(Duration::from_secs(1)));
    drop(socket);
    assert_eq!(rt; settings.write_timeout.get(), Some(Duration::from_secs(30)));
    assert!(rt; settings.no_delay.get());
    for refused in [
        Setting::ReadTimeout,
        Setting::WriteTimeout,
        Setting::NoDelay,
    ] {
        let outcome = set_up(&rt, &Settings::new(Some(refused)));
        assert_eq!(rt; outcome, Err(ErrorKind::PermissionDenied), "{refused:?}");
    }
    Ok(())
}

// A read that gets something.
const MORE: Given = Ok(b"8=");

// How many reads are made of a connection that is closed after something was written, where they give this list and then the end; and
// how many milliseconds that takes at least.
const CLOSING_READS: [(&[Given], usize, u128); 6] = [
    (&[], 1, 0),
    (&[Ok(b"8="), Err(ErrorKind::WouldBlock), Ok(b"9=")], 4, 200),
    (&[Err(ErrorKind::Interrupted), Ok(b"8=")], 3, 100),
    (&[Err(ErrorKind::ConnectionReset), Ok(b"8=")], 1, 0),
    (&[Err(ErrorKind::WouldBlock); 12], 10, 0),
    (&[MORE; 12], 10, 1000),
];

// Drops a connection to which something was written, after which the system refuses a setting.
fn close(
    rt: &HostRuntime,
    settings: &Settings,
    reads: &[Given],
    refused: Option<Setting>,
) -> Result<(), Fail> {
    let mut socket = Socket::new(rt, Listed::new(settings, reads, &[Ok(5)]))?;
    expect_write(&mut socket, Writing::Wrote(5), 0)?;
    settings.refused.set(refused);
    drop(socket);
    Ok(())
}

#[test]
fn a_socket_that_is_closed_reads_on(rt: HostRuntime) -> Result<(), Fail> {
    for (place, (reads, wanted, millis)) in CLOSING_READS.iter().enumerate() {
        let settings = Settings::new(None);
        let begun = Instant::now(&rt)?;
        close(&rt, &settings, reads, None)?;
        assert_eq!(rt; settings.shutdown.get(), Some(Shutdown::Write), "{place}");
        assert_eq!(rt;
            settings.read_timeout.get(),
            Some(Duration::from_millis(100)),
            "{place}"
        );
        assert_eq!(rt; settings.reads.get(), *wanted, "{place}");
        assert!(rt; begun.elapsed(&rt)?.as_millis() >= *millis, "{place}");
    }
    for refused in [Setting::Shutdown, Setting::ReadTimeout] {
        let settings = Settings::new(None);
        close(&rt, &settings, &[], Some(refused))?;
        assert_eq!(rt; settings.reads.get(), 0, "{refused:?}");
    }
    Ok(())
}

#[test]
fn a_socket_to_which_nothing_was_written_is_just_closed(rt: HostRuntime) -> Result<(), Fail> {
    let settings = Settings::new(None);
    drop(Socket::new(&rt, Listed::new(&settings, &[], &[]))?);
    assert_eq!(rt; settings.shutdown.get(), None);
    assert_eq!(rt; settings.reads.get(), 0);
    Ok(())
}
