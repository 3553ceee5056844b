//! Tests of the book side that only a caller of its crates can make: each kind of command by itself, a busted chain taken out, and
//! generated runs, compared with the plain slow program after every step; entries of every kind withdrawn; steps of commands of
//! several types, undone and redone; a desk under its lock, with seats in threads, and how their receipts are settled at the end of the
//! day; a desk whose events are kept beside it, and one that tells who made each command; and the texts of answers that no operator's line
//! brings about.
#![tactic(auto)]

mod answers;
mod console;
mod draws;
mod erasure;
mod erasure_rows;
mod erasure_runs;
mod generated;
mod keeping;
mod keys;
mod kinds;
mod lifting;
mod long;
mod makers;
mod many;
mod model;
mod pairs;
mod refused;
mod reports;
mod seats;
mod shown;
mod single;
mod stepping;
mod steps;
mod syncs;
mod tally;
mod withdrawal_rows;
mod withdrawal_runs;
mod words;
