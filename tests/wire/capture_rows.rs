//! Captures, and what their reports say. `>` stands for a tab.

/// The Logon of BRKA.
pub const LOGON: &str = "35=A|49=BRKA|56=MO|34=1|52=20240105-09:59:59|98=0|108=30|";

/// Behind it 100 of 300 at 10.50.
pub const TRADE: &str =
    "35=8|49=BRKA|56=MO|34=2|52=20240105-10:00:00|37=O1|17=E1|150=F|39=1|1=A1|55=XYZ|54=1|38=300|32=100|31=10.50|151=200|14=100|6=10.50|60=20240105-10:00:00|75=20240105|";

/// After that, 50 of 250 at 11.
pub const OTHER_TRADE: &str =
    "35=8|49=BRKA|56=MO|34=3|52=20240105-10:00:00|37=O1|17=E2|150=F|39=1|1=A1|55=XYZ|54=1|38=250|32=50|31=11|151=200|14=150|6=10.666667|75=20240105|";

/// The report of the Logon of BRKA and the trade after it. In it and in the trail `/` stands for the end of a line.
pub const REPORT: &str =
    "report>20240105/order>BRKA>O1>XYZ>B>100>200>1050/position>A1>XYZ>100>1050/end>2/";

/// Their trail.
pub const TRAIL: &str = "\
message>1>0>BRKA>1>A>->taken/\
sent>8=FIX.4.4|9=61|35=A|49=MO|56=BRKA|34=1|52=20240105-09:59:59.000|98=0|108=30|10=188|/\
message>2>79>BRKA>2>8>E1>accepted>1/\
sum>accepted>1/sum>refused>0/sum>rejected>0/sum>unsupported>0/sum>taken>1/sum>early>0/sum>late>0/sum>closed>0/sum>passed>0/\
sum>skipped>0/sum>rest>0/end>2/";
