//! Commands drawn from a seed: few keys, accounts and symbols, so that a book takes many and refuses many.

use crate::keys::{alloc_key, exec, fill, order, text};
use crate::words::terms;
use blot_decimal::{Price, Qty};
use blot_model::{current, root_of};
use blot_types::{
    AllocCancel, AllocKey, AllocNew, AllocReplace, Bust, Command, Correct, Entry, ExecKey, Fill,
    Line, OrderKey, Sign, Terms, Text64, Trade,
};
use std::alloc::{AllocError, Global};
use std::test::Fail;

/// Numbers drawn one after the other.
#[derive(Drop)]
pub struct Draws {
    seed: u32,
}

impl Draws {
    /// Those that follow from a seed.
    pub fn new(seed: u32) -> Draws {
        Draws { seed }
    }

    /// A number below 2^14.
    pub fn draw(&mut self) -> u32 {
        self.seed = self
            .seed
            .wrapping_mul(1_664_525)
            .wrapping_add(1_013_904_223);
        self.seed >> 18
    }

    // True one time in sixteen.
    fn seldom(&mut self) -> bool {
        self.draw() & 15 == 0
    }

    // One of these texts.
    fn pick(&mut self, texts: &[&'static [u8]]) -> &'static [u8] {
        let place = self.draw() as usize % texts.len().max(1);
        texts.get(place).copied().unwrap_or(b"")
    }

    // An execution of a peer.
    fn exec(&mut self, peer: &[u8]) -> Result<ExecKey, Fail> {
        let ids: [&[u8]; 6] = [b"E0", b"E1", b"E2", b"E3", b"E4", b"E5"];
        exec(peer, self.pick(&ids))
    }

    // An allocation of a peer.
    fn alloc_key(&mut self, peer: &[u8]) -> Result<AllocKey, Fail> {
        let ids: [&[u8]; 6] = [b"AL0", b"AL1", b"AL2", b"AL3", b"AL4", b"AL5"];
        alloc_key(peer, self.pick(&ids))
    }

    // One of two peers.
    fn peer(&mut self) -> &'static [u8] {
        self.pick(&[b"BRKA", b"BRKB"])
    }

    /// An execution of either peer.
    pub fn any_exec(&mut self) -> Result<ExecKey, Fail> {
        let peer = self.peer();
        self.exec(peer)
    }

    /// A bust of an execution of either peer, under a key that no other kind of command takes up.
    pub fn any_bust(&mut self) -> Result<Command, Fail> {
        let peer = self.peer();
        let key = exec(peer, self.pick(&[b"B0", b"B1", b"B2", b"B3"]))?;
        let reference = self.exec(peer)?;
        Ok(Command::Bust(Bust { key, reference }))
    }

    /// A withdrawal: mostly of an entry of a list, where one is there.
    pub fn withdrawal(&mut self, list: &[Entry]) -> Command {
        let place = self.draw() as usize % list.len().max(1);
        match list.get(place) {
            Some(entry) if !self.seldom() => Command::Withdraw(entry.number),
            _ => Command::Withdraw(u64::from(self.draw() & 31)),
        }
    }

    /// An allocation of either peer.
    pub fn any_allocation(&mut self) -> Result<AllocKey, Fail> {
        let peer = self.peer();
        self.alloc_key(peer)
    }

    // A symbol: XYZ, seldom ABC.
    fn symbol(&mut self) -> Result<Text64, Fail> {
        text(if self.seldom() { b"ABC" } else { b"XYZ" })
    }

    // A side: seldom a sell.
    fn sign(&mut self) -> Sign {
        if self.seldom() { Sign::Sell } else { Sign::Buy }
    }

    // A fill of one of a peer's three orders.
    fn fill(&mut self, peer: &[u8]) -> Result<Fill, Fail> {
        let (qty, price): (&[u8], &[u8]) = match self.draw() & 15 {
            0 => (b"9999999999.999999", b"99999999.99999999"),
            1 => (b"0.000001", b"-0.00000001"),
            2 => (b"0", b"10"),
            3 | 4 | 5 | 6 => (b"50", b"11"),
            _ => (b"100", b"10.5"),
        };
        let order = order(peer, self.pick(&[b"O0", b"O1", b"O2"]))?;
        let mut fill = fill(order, qty, price, b"300")?;
        fill.account = Text64::read(self.pick(&[b"", b"*", b"A1", b"A2"]));
        fill.symbol = self.symbol()?;
        fill.sign = self.sign();
        Ok(fill)
    }

    // A line of an allocation.
    fn line(&mut self, units: u64) -> Result<Line, Fail> {
        Ok(Line {
            account: text(self.pick(&[b"*", b"A1", b"A2"]))?,
            qty: Qty::from_units(units).ok_or("no quantity")?,
            price: Price::read(self.pick(&[b"10.5", b"-0.00000001"]))?,
        })
    }

    // An allocation that a command of a peer refers to: the newest of a list, or any.
    fn reference(&mut self, peer: &[u8], list: &[Entry]) -> Result<AllocKey, Fail> {
        match newest_allocation(list) {
            Some(key) if !self.seldom() => Ok(key),
            _ => self.alloc_key(peer),
        }
    }

    // One or two executions of a peer.
    fn execs(&mut self, alloc: Global, peer: &[u8]) -> Result<Vec<ExecKey>, Fail> {
        let mut execs = Vec::new(alloc);
        for _ in 0..=self.draw() & 1 {
            execs.push(self.exec(peer)?)?;
        }
        Ok(execs)
    }

    // The terms of an allocation of some executions. Its block is mostly their quantity in a list, and its two lines are
    // mostly the block.
    fn terms(&mut self, alloc: Global, execs: Vec<ExecKey>, list: &[Entry]) -> Result<Terms, Fail> {
        let mut units = units_of(list, execs.as_slice());
        if self.seldom() {
            units = units.saturating_add(1);
        }
        let block = Qty::from_units(units).unwrap_or(Qty::read(b"0")?);
        let half = block.units() / 2;
        let mut lines = Vec::new(alloc);
        lines.push(self.line(half)?)?;
        if !self.seldom() {
            lines.push(self.line(block.units() - half)?)?;
        }
        let mut terms = terms(self.sign(), block, execs, lines)?;
        terms.symbol = self.symbol()?;
        Ok(terms)
    }

    /// A command, whose block, if it has one, fits a list mostly.
    pub fn command(&mut self, alloc: Global, list: &[Entry]) -> Result<Command, Fail> {
        let peer = self.peer();
        match self.draw() & 15 {
            0 | 1 | 2 | 3 | 4 => self.trade(peer),
            5 | 6 => self.correct(peer),
            7 => self.bust(peer),
            8 | 9 | 10 => self.alloc_new(alloc, peer, list),
            11 | 12 | 13 => self.alloc_replace(alloc, peer, list),
            _ => self.alloc_cancel(peer, list),
        }
    }

    // A Trade.
    fn trade(&mut self, peer: &[u8]) -> Result<Command, Fail> {
        let key = self.exec(peer)?;
        let fill = self.fill(peer)?;
        Ok(Command::Trade(Trade { key, fill }))
    }

    // A Correct, whose reference may not exist.
    fn correct(&mut self, peer: &[u8]) -> Result<Command, Fail> {
        let (key, reference) = (self.exec(peer)?, self.exec(peer)?);
        let fill = self.fill(peer)?;
        Ok(Command::Correct(Correct {
            key,
            reference,
            fill,
        }))
    }

    // A Bust, likewise.
    fn bust(&mut self, peer: &[u8]) -> Result<Command, Fail> {
        let (key, reference) = (self.exec(peer)?, self.exec(peer)?);
        Ok(Command::Bust(Bust { key, reference }))
    }

    // A new allocation of drawn executions.
    fn alloc_new(&mut self, alloc: Global, peer: &[u8], list: &[Entry]) -> Result<Command, Fail> {
        let key = self.alloc_key(peer)?;
        let execs = self.execs(alloc, peer)?;
        let terms = self.terms(alloc, execs, list)?;
        Ok(Command::AllocNew(AllocNew { key, terms }))
    }

    // An allocation in the place of another, of the same executions half of the time.
    fn alloc_replace(
        &mut self,
        alloc: Global,
        peer: &[u8],
        list: &[Entry],
    ) -> Result<Command, Fail> {
        let (key, reference) = (self.alloc_key(peer)?, self.reference(peer, list)?);
        let execs = if self.draw() & 1 == 0 {
            listed_by(alloc, list, reference)?
        } else {
            self.execs(alloc, peer)?
        };
        let terms = self.terms(alloc, execs, list)?;
        Ok(Command::AllocReplace(AllocReplace {
            key,
            reference,
            terms,
        }))
    }

    // The end of an allocation.
    fn alloc_cancel(&mut self, peer: &[u8], list: &[Entry]) -> Result<Command, Fail> {
        let (key, reference) = (self.alloc_key(peer)?, self.reference(peer, list)?);
        Ok(Command::AllocCancel(AllocCancel { key, reference }))
    }
}

/// The orders that are drawn.
pub fn drawn_orders() -> Result<[OrderKey; 6], Fail> {
    Ok([
        order(b"BRKA", b"O0")?,
        order(b"BRKA", b"O1")?,
        order(b"BRKA", b"O2")?,
        order(b"BRKB", b"O0")?,
        order(b"BRKB", b"O1")?,
        order(b"BRKB", b"O2")?,
    ])
}

/// The executions that are drawn.
pub fn drawn_execs() -> Result<[ExecKey; 12], Fail> {
    Ok([
        exec(b"BRKA", b"E0")?,
        exec(b"BRKA", b"E1")?,
        exec(b"BRKA", b"E2")?,
        exec(b"BRKA", b"E3")?,
        exec(b"BRKA", b"E4")?,
        exec(b"BRKA", b"E5")?,
        exec(b"BRKB", b"E0")?,
        exec(b"BRKB", b"E1")?,
        exec(b"BRKB", b"E2")?,
        exec(b"BRKB", b"E3")?,
        exec(b"BRKB", b"E4")?,
        exec(b"BRKB", b"E5")?,
    ])
}

// What an allocation of a list lists.
fn listed_by(
    alloc: Global,
    list: &[Entry],
    reference: AllocKey,
) -> Result<Vec<ExecKey>, AllocError> {
    for entry in list {
        match &entry.command {
            Command::AllocNew(new) if new.key == reference => {
                return Vec::from_slice(alloc, new.terms.execs.as_slice());
            }
            Command::AllocReplace(replace) if replace.key == reference => {
                return Vec::from_slice(alloc, replace.terms.execs.as_slice());
            }
            _ => {}
        }
    }
    Ok(Vec::new(alloc))
}

// The newest allocation of a list.
fn newest_allocation(list: &[Entry]) -> Option<AllocKey> {
    let mut newest = None;
    for entry in list {
        match &entry.command {
            Command::AllocNew(new) => newest = Some(new.key),
            Command::AllocReplace(replace) => newest = Some(replace.key),
            _ => {}
        }
    }
    newest
}

// The sum of the quantities of some executions, each by its chain's last version, in units of 10^-6.
fn units_of(list: &[Entry], execs: &[ExecKey]) -> u64 {
    let mut units = 0u64;
    for exec in execs {
        units = units.saturating_add(units_of_exec(list, exec).unwrap_or(0));
    }
    units
}

// The quantity of an execution, by its chain's last version.
fn units_of_exec(list: &[Entry], exec: &ExecKey) -> Option<u64> {
    let root = root_of(list, exec)?;
    let number = current(list, &root)?;
    for entry in list {
        if entry.number == number {
            return units_of_entry(entry);
        }
    }
    None
}

// The quantity that an entry brings, if it brings a version of an execution.
fn units_of_entry(entry: &Entry) -> Option<u64> {
    match &entry.command {
        Command::Trade(trade) => Some(trade.fill.qty.units()),
        Command::Correct(correct) => Some(correct.fill.qty.units()),
        _ => None,
    }
}
