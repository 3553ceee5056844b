//! Tests of a journal over a file in memory: what each crash leaves of a run of twelve batches, at each call of it and torn at each
//! place, and what becomes of a file that can't be taken up.
#![tactic(auto)]

mod days;
mod images;
mod refused;
mod runs;
mod torn;
