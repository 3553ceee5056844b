//! Links lifted out of the middle of the chains and put back, and what is found meanwhile.

use crate::keys::exec;
use blot_chain::Chains;
use std::alloc::Global;
use std::test::Fail;

// What is done to chains, and what they answer. A link has a number, its key, and the key that it refers to.
enum Act {
    Trades(u64, &'static [u8]),
    Corrects(u64, &'static [u8], &'static [u8]),
    Busts(u64, &'static [u8], &'static [u8]),
    TakesBackTrade(&'static [u8]),
    TakesBackCorrect(&'static [u8], &'static [u8]),
    Lifts(u64),
    PutsBack(u64),
    /// The last version and the Bust of the chain of E1.
    Chain(Option<u64>, Option<u64>),
    /// A key, the number that takes it up, and its root.
    Key(&'static [u8], Option<u64>, Option<&'static [u8]>),
}

use Act::{Busts, Chain, Corrects, Key, Lifts, PutsBack, TakesBackCorrect, TakesBackTrade, Trades};

// Some acts, from no links on.
struct Row {
    name: &'static str,
    acts: &'static [Act],
}

static ROWS: [Row; 3] = [
    Row {
        name: "a bust lifted from the middle and put back",
        acts: &[
            Trades(1, b"E1"),
            Busts(2, b"E4", b"E1"),
            Trades(3, b"T9"),
            Chain(Some(1), Some(2)),
            Lifts(2),
            Chain(Some(1), None),
            Key(b"E4", None, None),
            Key(b"T9", Some(3), Some(b"T9")),
            Corrects(4, b"E5", b"E1"),
            Chain(Some(4), None),
            TakesBackCorrect(b"E5", b"E1"),
            PutsBack(2),
            Chain(Some(1), Some(2)),
            Key(b"E4", Some(2), None),
        ],
    },
    Row {
        name: "corrections lifted",
        acts: &[
            Trades(1, b"E1"),
            Corrects(2, b"E2", b"E1"),
            Corrects(3, b"E3", b"E1"),
            Lifts(2),
            Chain(Some(3), None),
            Key(b"E2", None, None),
            Key(b"E3", Some(3), Some(b"E1")),
            Lifts(3),
            Chain(Some(1), None),
            Key(b"E3", None, None),
            PutsBack(3),
            PutsBack(2),
            Chain(Some(3), None),
            Key(b"E2", Some(2), Some(b"E1")),
        ],
    },
    Row {
        name: "a key taken again while its slot is kept",
        acts: &[
            Trades(1, b"E1"),
            Busts(2, b"E4", b"E1"),
            Lifts(2),
            Trades(3, b"E4"),
            Key(b"E4", Some(3), Some(b"E4")),
            Chain(Some(1), None),
            Lifts(3),
            Key(b"E4", None, None),
            PutsBack(3),
            Key(b"E4", Some(3), Some(b"E4")),
            TakesBackTrade(b"E4"),
            Key(b"E4", None, None),
            PutsBack(2),
            Key(b"E4", Some(2), None),
            Chain(Some(1), Some(2)),
        ],
    },
];

// Whether the chain of E1 has this last version and this Bust.
fn has_chain(chains: &Chains, current: Option<u64>, bust: Option<u64>) -> Result<bool, Fail> {
    let root = exec(b"BRKA", b"E1")?;
    Ok(chains.current(&root) == current && chains.bust_of(&root) == bust)
}

// Whether a key is taken up by this number, and has this root.
fn has_key(
    chains: &Chains,
    id: &[u8],
    number: Option<u64>,
    root: Option<&[u8]>,
) -> Result<bool, Fail> {
    let key = exec(b"BRKA", id)?;
    let wanted = match root {
        Some(id) => Some(exec(b"BRKA", id)?),
        None => None,
    };
    Ok(chains.number_of(&key) == number && chains.root_of(&key) == wanted)
}

// Does one act. False where the chains answer something else.
fn carry_out(chains: &mut Chains, act: &Act) -> Result<bool, Fail> {
    match act {
        Trades(number, id) => chains.add(*number, &exec(b"BRKA", id)?)?,
        Corrects(number, id, reference) => {
            chains.correct(*number, &exec(b"BRKA", id)?, &exec(b"BRKA", reference)?)?;
        }
        Busts(number, id, reference) => {
            chains.bust(*number, &exec(b"BRKA", id)?, &exec(b"BRKA", reference)?)?;
        }
        TakesBackTrade(id) => chains.un_add(&exec(b"BRKA", id)?),
        TakesBackCorrect(id, reference) => {
            chains.un_correct(&exec(b"BRKA", id)?, &exec(b"BRKA", reference)?);
        }
        Lifts(number) => chains.lift(*number),
        PutsBack(number) => chains.un_lift(*number),
        Chain(current, bust) => return has_chain(chains, *current, *bust),
        Key(id, number, root) => return has_key(chains, id, *number, *root),
    }
    Ok(true)
}

// Does the acts of a row.
fn run(alloc: Global, row: &Row) -> Result<(), Fail> {
    let mut chains = Chains::new(alloc);
    for (index, next) in row.acts.iter().enumerate() {
        if !carry_out(&mut chains, next)? {
            return Err(Fail::new(format_args!("{}: act {index}", row.name)));
        }
    }
    Ok(())
}

#[test]
fn links_lifted_and_put_back(rt: HostRuntime) -> Result<(), Fail> {
    for row in &ROWS {
        run(rt.alloc(), row)?;
    }
    Ok(())
}
