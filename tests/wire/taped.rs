//! Which call of a session comes when, and at which moment: a wire, a clock and a sink note their calls on one tape.

use crate::frames::stream;
use crate::runs::new_session;
use crate::streams::answers;
use blot_gateway::{Ended, ListSink, MemoryWire, serve_session};
use blot_session::Session;
use blot_tag::Reader;
use blot_time::Moment;
use callers::{Tape, TapedClock, TapedSink, TapedWire};
use std::alloc::Global;
use std::test::Fail;

// A Logon; and after the first read of it a TestRequest and an allocation.
const SENT: &str = "\
35=A|49=BRKA|56=MO|34=1|52=20240105-09:59:59|98=0|108=30|\n\
35=1|49=BRKA|56=MO|34=2|52=20240105-10:00:00|112=T|\n\
35=J|49=BRKA|56=MO|34=3|52=20240105-10:00:00|70=AL1|71=0|54=1|55=XYZ|53=100|6=10.5|75=20240105|124=1|17=E1|78=2|79=A|80=60|366=10.25|79=B|80=40|";

// What is written: the answer to the Logon at the clock's first call, which is the second of all; to the TestRequest at the sixth of all;
// to the allocation at the tenth, after the sink's answer.
const ANSWERED: &str = "\
35=A|49=MO|56=BRKA|34=1|52=20240105-10:00:02.000|98=0|108=30|\n\
35=0|49=MO|56=BRKA|34=2|52=20240105-10:00:06.000|112=T|\n\
35=P|49=MO|56=BRKA|34=3|52=20240105-10:00:10.000|70=AL1|60=20240105-10:00:10.000|87=0|";

// A read, the Logon at its moment and its answer, and the moment after the read; a read, the TestRequest and its answer, the allocation,
// the sink, its answer at a moment of its own and the acknowledgment, and the moment after the read; the end. What a call sends is
// written before the next read.
const CALLS: u64 = 13_23_13_23_43_23_1;

// The wire that gives the Logon in the first read, and the rest in the second.
fn wire(alloc: Global, tape: &Tape) -> Result<TapedWire<'_>, Fail> {
    let mut sizes = Vec::new(alloc);
    sizes.push(79)?;
    let mut wire = MemoryWire::new(alloc, stream(alloc, SENT)?);
    wire.set_reads(sizes);
    Ok(TapedWire { tape, wire })
}

// Serves a session over the wire, with a sink that accepts.
fn serve_taped(
    alloc: Global,
    tape: &Tape,
    wire: &mut TapedWire<'_>,
    session: &mut Session,
) -> Result<Ended, Fail> {
    let mut sink = TapedSink {
        tape,
        sink: ListSink::new(alloc, answers(alloc, "accepted")?),
    };
    let mut clock = TapedClock {
        tape,
        begin: Moment::read(b"20240105-10:00:00")?,
    };
    if session.is_awaiting() {
        return Err(Fail::new("a reply is awaited"));
    }
    let mut reader = Reader::new(alloc);
    Ok(serve_session(alloc, wire, &mut clock, &mut sink, &mut reader, session))
}

// What was written is what is wanted.
fn expect_answered(alloc: Global, written: &[u8]) -> Result<(), Fail> {
    let wanted = stream(alloc, ANSWERED)?;
    if written != wanted.as_slice() {
        return Err(Fail::new("other frames"));
    }
    Ok(())
}

#[test]
fn each_call_at_its_own_moment(rt: HostRuntime) -> Result<(), Fail> {
    let tape = Tape::new();
    let mut wire = wire(rt.alloc(), &tape)?;
    let mut session = new_session()?;
    let ended = serve_taped(rt.alloc(), &tape, &mut wire, &mut session)?;
    let calls = tape.calls();
    if ended != Ended::End || calls != CALLS {
        return Err(Fail::new(format_args!("{ended:?}, {calls}")));
    }
    expect_answered(rt.alloc(), wire.wire.written())
}
