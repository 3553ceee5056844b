//! The rows of operators' scripts: a line, and its answer.

use crate::dialogues::Told;

/// An operator's morning, each answer to it worked out by hand.
pub fn morning() -> &'static [Told] {
    static ROWS: [Told; 12] = [
        ("order>BRKA>O1", "order>BRKA>O1>XYZ>B>100>200>1050"),
        ("undo>1", "undone>1"),
        ("undo>1", "refused>13>NothingToUndo"),
        ("redo", "redone>1"),
        ("undo>2", "refused>14>Moved>1"),
        ("position>A1>XYZ", "position>A1>XYZ>100>1050"),
        ("fly", "bad>1"),
        ("undo", "bad>2"),
        ("undo>x", "bad>3>1"),
        (
            "allocate>BRKA>AL1>XYZ>B>20240105>10.5>1>E1>A>60>B>40",
            "accepted>2",
        ),
        (
            "allocate>BRKA>AL1>XYZ>B>20240105>10.5>0>E1>A>60>B>40",
            "bad>3>7",
        ),
        ("position>*>XYZ", "position>*>XYZ>0>0"),
    ];
    &ROWS
}

/// The reports of the first trade's day and of another.
pub fn reports() -> &'static [Told] {
    static ROWS: [Told; 2] = [
        (
            "report>20240105",
            "report>20240105/order>BRKA>O1>XYZ>B>100>200>1050/position>A1>XYZ>100>1050/end>2",
        ),
        ("report>20240106", "report>20240106/end>0"),
    ];
    &ROWS
}

/// What two operators type by turns, each at the seat of this place, after the first of them submitted the first trade.
pub fn of_two_seats() -> &'static [(usize, Told)] {
    const ALLOCATES: &str = "allocate>BRKA>AL1>XYZ>B>20240105>10.5>1>E1>A>60>B>40";
    static ROWS: [(usize, Told); 17] = [
        // The trade is the first one's.
        (1, ("mine", "none")),
        (1, (ALLOCATES, "accepted>2")),
        (0, ("mine", "refused>12>Needed>2")),
        (1, ("mine", "accepted>3")),
        (0, ("mine", "accepted>4")),
        (0, ("mine", "none")),
        // The second one undoes both withdrawals, and they still count.
        (1, ("undo>4", "undone>4")),
        (0, ("mine", "none")),
        (1, ("undo>3", "undone>3")),
        (1, ("mine", "none")),
        (1, ("undo>2", "undone>2")),
        (1, ("redo", "redone>2")),
        // Undone and redone itself, the allocation counts again, at the second seat alone.
        (0, ("mine", "none")),
        (1, ("mine", "accepted>5")),
        (1, ("redo", "refused>15>NothingToRedo")),
        (0, ("order>BRKA>O1", "order>BRKA>O1>XYZ>B>100>200>1050")),
        (1, ("mine", "none")),
    ];
    &ROWS
}

/// The report of the first trade and of 50 of 250 at 11 after it.
pub fn report_of_two() -> &'static [Told] {
    static ROWS: [Told; 1] = [(
        "report>20240105",
        "report>20240105/order>BRKA>O1>XYZ>B>150>100>1600/position>A1>XYZ>150>1600/end>2",
    )];
    &ROWS
}

/// The reports of a desk that took nothing yet, the trade of `booked`, and its allocation too.
pub fn reports_of_booked() -> &'static [Told] {
    static ROWS: [Told; 3] = [
        ("report>20240105", "report>20240105/end>0"),
        (
            "report>20240105",
            "report>20240105/order>BRKA>O1>XYZ>B>50>250>550/position>A1>XYZ>50>550/end>2",
        ),
        (
            "report>20240105",
            "report>20240105/order>BRKA>O1>XYZ>B>50>250>550/position>*>XYZ>0>0/position>A>XYZ>30>330/position>B>XYZ>20>220/end>4",
        ),
    ];
    &ROWS
}
