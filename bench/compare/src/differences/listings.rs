//! Listings among a scene's calls. Their cursor is kept over the other calls.

use super::{told, Outcome, Scene};
use crate::side::Call;
use crate::spoil;

impl Scene<'_> {
    fn next(&mut self) -> Outcome<u8> {
        let kept = self.stored && self.plain.cursor[0] != 0;
        let answer = self.call(Call::Next)?;
        if kept && answer < 30 {
            self.tally.note_kept(answer);
        }
        if answer == 1 {
            self.stored = false;
        }
        Ok(answer)
    }

    fn begin(&mut self) {
        self.plain.cursor.fill(0);
        self.stored = false;
    }

    /// One array from the kept cursor on, or from another, and one item.
    pub fn list_some(&mut self) -> Outcome<u8> {
        let (k, j) = match self.r.below(6) {
            0 => (usize::MAX, usize::MAX),
            1 => (0, usize::MAX - self.r.below(70_000) as usize),
            2 => (self.r.below(3) as usize, self.r.below(100) as usize),
            _ => (self.r.below(12) as usize, self.r.below(6) as usize),
        };
        self.plain.told = told(&mut self.r);
        spoil::listed(&mut self.r, self.plain);
        if self.r.once_in(3) {
            spoil::cursor(&mut self.r, self.plain);
            self.stored = false;
        }
        self.next()?;
        self.call(Call::List { k, j })
    }

    /// The listing from its start on, or from the kept cursor; begun again where the ring has moved on; and once more
    /// behind its end.
    pub fn list_all(&mut self, most: usize) -> Outcome<u8> {
        self.plain.told = told(&mut self.r);
        spoil::listed(&mut self.r, self.plain);
        if !self.r.once_in(3) {
            self.begin();
        }
        for _ in 0..most {
            match self.next()? {
                1 => {}
                3 => self.begin(),
                _ => break,
            }
        }
        self.next()
    }

    /// Listings of a ring that no scan wrote.
    pub fn listings(&mut self) -> Outcome<()> {
        self.plain.numbers.resize(yukeira::RECORD_NUMBERS);
        self.plain.values.resize(yukeira::RECORD_VALUES);
        self.lend();
        spoil::words(&mut self.r, self.plain);
        let ring = self.plain.ring.len() as u64;
        self.plain.state[18] = self.r.below(ring) as u16;
        self.plain.state[19] = if self.r.once_in(2) { ring as u16 } else { self.r.within(0, ring) as u16 };
        for _ in 0..4 {
            self.list_some()?;
        }
        if self.r.once_in(3) {
            // As if the ring had gone round by just its length.
            spoil::words(&mut self.r, self.plain);
            self.stored = true;
        }
        let most = self.r.one_of(&[10, 10, 10, 200]);
        self.list_all(most)?;
        Ok(())
    }
}
