//! Whole connections: what a peer sends, and what comes of it. The expected frames were made by hand.

use crate::runs::Row;
use std::alloc::{AllocError as NoMemory, Global};

/// What a row says is written.
pub fn written_text(alloc: Global, row: &Row) -> Result<String, NoMemory> {
    let mut text = String::new(alloc);
    for frame in row.written {
        text.push_str(frame)?;
    }
    Ok(text)
}

/// The first trade of a connection.
pub fn first_trade() -> &'static Row {
    static ROW: Row = Row {
        name: "one wire in memory",
        moments: "20240105-10:00:01.000",
        stream: "\
!8=FIX.4.4|9=57|35=A|49=BRKA|56=MO|34=1|52=20240105-09:59:59|98=0|108=30|10=003|\n\
!8=FIX.4.4|9=164|35=8|49=BRKA|56=MO|34=2|52=20240105-10:00:00|37=O1|17=E1|150=F|39=1|1=A1|55=XYZ|54=1|38=300|32=100|31=10.50|151=200|14=100|6=10.50|60=20240105-10:00:00|75=20240105|10=199|",
        quiet: 0,
        answer: "accepted",
        taken: "trade E1; ",
        written: &[
            "8=FIX.4.4|9=61|35=A|49=MO|56=BRKA|34=1|52=20240105-10:00:01.000|98=0|108=30|10=153|",
        ],
        ended: "End",
        expected: 3,
    };
    &ROW
}

/// Number 7 comes where 5 is expected; 5 to 7 are sent again, then 5 once more, and at last 5 as if it were new.
pub fn gap() -> &'static Row {
    static ROW: Row = Row {
        name: "gap, resend, too low",
        moments: "20240105-10:00:01.000",
        stream: "\
35=A|49=BRKA|56=MO|34=1|52=20240105-09:59:59|98=0|108=30|\n\
35=0|49=BRKA|56=MO|34=2|52=20240105-10:00:00|\n\
35=0|49=BRKA|56=MO|34=3|52=20240105-10:00:00|\n\
35=0|49=BRKA|56=MO|34=4|52=20240105-10:00:00|\n\
35=8|49=BRKA|56=MO|34=7|52=20240105-10:00:00|37=O1|17=E7|150=F|39=1|1=A1|55=XYZ|54=1|38=300|32=100|31=10.50|151=200|14=100|6=10.50|60=20240105-10:00:00|75=20240105|\n\
35=8|49=BRKA|56=MO|34=5|43=Y|52=20240105-10:00:00|37=O1|17=E5|150=F|39=1|1=A1|55=XYZ|54=1|38=300|32=100|31=10.50|151=200|14=100|6=10.50|60=20240105-10:00:00|75=20240105|\n\
35=8|49=BRKA|56=MO|34=6|43=Y|52=20240105-10:00:00|37=O1|17=E6|150=F|39=1|1=A1|55=XYZ|54=1|38=300|32=100|31=10.50|151=200|14=100|6=10.50|60=20240105-10:00:00|75=20240105|\n\
35=8|49=BRKA|56=MO|34=7|43=Y|52=20240105-10:00:00|37=O1|17=E7|150=F|39=1|1=A1|55=XYZ|54=1|38=300|32=100|31=10.50|151=200|14=100|6=10.50|60=20240105-10:00:00|75=20240105|\n\
35=8|49=BRKA|56=MO|34=5|43=Y|52=20240105-10:00:00|37=O1|17=E5|150=F|39=1|1=A1|55=XYZ|54=1|38=300|32=100|31=10.50|151=200|14=100|6=10.50|60=20240105-10:00:00|75=20240105|\n\
35=8|49=BRKA|56=MO|34=5|52=20240105-10:00:00|37=O1|17=E5|150=F|39=1|1=A1|55=XYZ|54=1|38=300|32=100|31=10.50|151=200|14=100|6=10.50|60=20240105-10:00:00|75=20240105|",
        quiet: 0,
        answer: "accepted",
        taken: "trade E5; trade E6; trade E7; ",
        written: &[
            "8=FIX.4.4|9=61|35=A|49=MO|56=BRKA|34=1|52=20240105-10:00:01.000|98=0|108=30|10=153|",
            "8=FIX.4.4|9=58|35=2|49=MO|56=BRKA|34=2|52=20240105-10:00:01.000|7=5|16=0|10=247|",
            "8=FIX.4.4|9=49|35=5|49=MO|56=BRKA|34=3|52=20240105-10:00:01.000|10=124|",
        ],
        ended: "Closed(TooLow)",
        expected: 8,
    };
    &ROW
}

/// An allocation, which is acknowledged.
pub fn allocation() -> &'static Row {
    static ROW: Row = Row {
        name: "an allocation, acknowledged",
        moments: "20240105-10:00:01.000",
        stream: "\
35=A|49=BRKA|56=MO|34=1|52=20240105-09:59:59|98=0|108=30|\n\
35=J|49=BRKA|56=MO|34=2|52=20240105-10:00:00|70=AL1|71=0|54=1|55=XYZ|53=100|6=10.5|75=20240105|124=1|17=E1|78=2|79=A|80=60|366=10.25|79=B|80=40|",
        quiet: 0,
        answer: "accepted",
        taken: "allocate AL1; ",
        written: &[
            "8=FIX.4.4|9=61|35=A|49=MO|56=BRKA|34=1|52=20240105-10:00:01.000|98=0|108=30|10=153|",
            "8=FIX.4.4|9=86|35=P|49=MO|56=BRKA|34=2|52=20240105-10:00:01.000|70=AL1|60=20240105-10:00:01.000|87=0|10=138|",
        ],
        ended: "End",
        expected: 3,
    };
    &ROW
}

/// A trade of 50 at 11, and its allocation, which is acknowledged.
pub fn booked() -> &'static Row {
    static ROW: Row = Row {
        name: "a trade and its allocation, acknowledged",
        moments: "20240105-10:00:01.000",
        stream: "\
35=A|49=BRKA|56=MO|34=1|52=20240105-09:59:59|98=0|108=30|\n\
35=8|49=BRKA|56=MO|34=2|52=20240105-10:00:00|37=O1|17=E2|150=F|39=1|1=A1|55=XYZ|54=1|38=300|32=50|31=11|151=250|14=50|6=11|60=20240105-10:00:00|75=20240105|\n\
35=J|49=BRKA|56=MO|34=3|52=20240105-10:00:00|70=AL1|71=0|54=1|55=XYZ|53=50|6=11|75=20240105|124=1|17=E2|78=2|79=A|80=30|366=11|79=B|80=20|366=11|",
        quiet: 0,
        answer: "accepted",
        taken: "trade E2; allocate AL1; ",
        written: &[
            "8=FIX.4.4|9=61|35=A|49=MO|56=BRKA|34=1|52=20240105-10:00:01.000|98=0|108=30|10=153|",
            "8=FIX.4.4|9=86|35=P|49=MO|56=BRKA|34=2|52=20240105-10:00:01.000|70=AL1|60=20240105-10:00:01.000|87=0|10=138|",
        ],
        ended: "End",
        expected: 4,
    };
    &ROW
}

/// A peer that logs on, and then sends nothing.
pub fn silence() -> &'static Row {
    static ROW: Row = Row {
        name: "heartbeat, test request, silence",
        moments: "20240105-10:00:00.000 20240105-10:00:00.000 20240105-10:00:29.999 20240105-10:00:30.000 20240105-10:00:35.999 20240105-10:00:36.000 20240105-10:01:12.000",
        stream: "35=A|49=BRKA|56=MO|34=1|52=20240105-09:59:59|98=0|108=30|",
        quiet: 9,
        answer: "full",
        taken: "",
        written: &[
            "8=FIX.4.4|9=61|35=A|49=MO|56=BRKA|34=1|52=20240105-10:00:00.000|98=0|108=30|10=152|",
            "8=FIX.4.4|9=49|35=0|49=MO|56=BRKA|34=2|52=20240105-10:00:30.000|10=120|",
            "8=FIX.4.4|9=55|35=1|49=MO|56=BRKA|34=3|52=20240105-10:00:36.000|112=3|10=130|",
        ],
        ended: "Closed(Silent)",
        expected: 2,
    };
    &ROW
}

/// Answers of the sink that no broker and no operator brings about, and a refusal.
pub fn answered() -> &'static [Row] {
    static ROWS: [Row; 3] = [
        Row {
            name: "a trade that is refused",
            moments: "20240105-10:00:01.000",
            stream: "\
35=A|49=BRKA|56=MO|34=1|52=20240105-09:59:59|98=0|108=30|\n\
35=8|49=BRKA|56=MO|34=2|52=20240105-10:00:00|37=O1|17=E1|150=F|39=1|1=A1|55=XYZ|54=1|38=300|32=100|31=10.50|151=200|14=100|6=10.50|60=20240105-10:00:00|75=20240105|\n\
35=0|49=BRKA|56=MO|34=3|52=20240105-10:00:00|",
            quiet: 0,
            answer: "duplicate",
            taken: "trade E1; ",
            written: &[
                "8=FIX.4.4|9=61|35=A|49=MO|56=BRKA|34=1|52=20240105-10:00:01.000|98=0|108=30|10=153|",
            ],
            ended: "End",
            expected: 4,
        },
        Row {
            name: "a trade, and no memory at the desk",
            moments: "20240105-10:00:01.000",
            stream: "\
35=A|49=BRKA|56=MO|34=1|52=20240105-09:59:59|98=0|108=30|\n\
35=8|49=BRKA|56=MO|34=2|52=20240105-10:00:00|37=O1|17=E1|150=F|39=1|1=A1|55=XYZ|54=1|38=300|32=100|31=10.50|151=200|14=100|6=10.50|60=20240105-10:00:00|75=20240105|\n\
35=0|49=BRKA|56=MO|34=3|52=20240105-10:00:00|",
            quiet: 0,
            answer: "no-memory",
            taken: "trade E1; ",
            written: &[
                "8=FIX.4.4|9=61|35=A|49=MO|56=BRKA|34=1|52=20240105-10:00:01.000|98=0|108=30|10=153|",
                "8=FIX.4.4|9=49|35=5|49=MO|56=BRKA|34=2|52=20240105-10:00:01.000|10=123|",
            ],
            ended: "Closed(NotTaken)",
            expected: 2,
        },
        Row {
            name: "a trade that is answered as an undo",
            moments: "20240105-10:00:01.000",
            stream: "\
35=A|49=BRKA|56=MO|34=1|52=20240105-09:59:59|98=0|108=30|\n\
35=8|49=BRKA|56=MO|34=2|52=20240105-10:00:00|37=O1|17=E1|150=F|39=1|1=A1|55=XYZ|54=1|38=300|32=100|31=10.50|151=200|14=100|6=10.50|60=20240105-10:00:00|75=20240105|\n\
35=0|49=BRKA|56=MO|34=3|52=20240105-10:00:00|",
            quiet: 0,
            answer: "undone",
            taken: "trade E1; ",
            written: &[
                "8=FIX.4.4|9=61|35=A|49=MO|56=BRKA|34=1|52=20240105-10:00:01.000|98=0|108=30|10=153|",
                "8=FIX.4.4|9=49|35=5|49=MO|56=BRKA|34=2|52=20240105-10:00:01.000|10=123|",
            ],
            ended: "Closed(NotTaken)",
            expected: 2,
        },
    ];
    &ROWS
}
