//! Tests of the wire side and of the program's calls that only a caller can make: what callers of single crates answer; the table of
//! sessions, with and without its lock; what a session takes, sends and answers over a wire in memory, and how it ends, whole, cut,
//! failing and with few reads; two wires that are served at once; captures and operators' lines over readers and writers that fail,
//! those of an open day, and those at a desk that keeps its events; the text of a day's journal, frame by frame, a diary, and a
//! connection whose messages are kept; and a served day's connections, over streams, listeners and clocks in memory. Rows of single
//! calls stand in `rows_wire`.
#![tactic(auto)]

mod at_once;
mod booked;
mod bounds;
mod calls;
mod capture_rows;
mod clocks;
mod cuts;
mod desk_rows;
mod desks;
mod dialogues;
mod diary;
mod expect;
mod failing;
mod frames;
mod keeping;
mod kept;
mod listeners;
mod locked;
mod memory;
mod one_crate;
mod open_days;
mod open_kept;
mod replays;
mod rows;
mod runs;
mod seats;
mod serving;
mod slots;
mod sockets;
mod streams;
mod taped;
mod turns;
